/* One storage segment of a protection group, inside a program in C or in any language that calls C.
 *
 * Link libnode_c.a, which `rt lib` in crates/node_c makes (in its folder out/), and after it liblibc_c.a of the toolchain (its folder
 * c/; where `rt` on the path is a link, the toolchain is where the link leads), which calls malloc, realloc and free. */
#ifndef YIELDCLEAT_H
#define YIELDCLEAT_H

#ifdef __cplusplus
extern "C" {
#endif

/* How a call ended. */
enum {
    YIELDCLEAT_INPUT_ENDED = 0,   /* each whole frame of the input is answered */
    YIELDCLEAT_OUTPUT_FAILED = 4, /* only some of the answers were written */
    YIELDCLEAT_NO_MEMORY = 5      /* memory ran out at the start: nothing was read */
};

/* Serves one segment: reads request frames from `input`, and answers each with one frame on `output` before it reads the next. A frame
 * is a length of 4 bytes, most significant first, and that many bytes. docs/EMBEDDING.md describes requests, answers and limits,
 * docs/FORMATS.md the bytes of facts, summaries, deltas and pieces.
 *
 * The call returns when `input` ends, and the segment is then gone: a caller that must not lose it keeps a log of the requests. An input
 * that ends within a frame, or that cannot be read, counts as ended. If memory runs out later, the answer is `memory`, and the segment
 * goes on.
 *
 * Threads. The call occupies its thread until it returns; give it a thread of its own, with a stack of a megabyte or more. Calls on
 * several threads, each with its own descriptors, serve independent segments. Requests are answered in the order in which they are
 * written: threads that write to one segment need a lock.
 *
 * Descriptors. Both must block (no O_NONBLOCK). They may be the same, as one end of a socket pair. They stay open: close them only after
 * the call has returned. To end the call, close or shut down the other end. Nobody else may write to `output` meanwhile. Read each
 * answer before you send the next request, or read on another thread: a caller that writes and does not read blocks both sides. (A pipe
 * holds 64 KB, but only one page once its user is above the soft limit for pipes.)
 *
 * Signals. Ignore SIGPIPE; otherwise the process ends once nobody reads `output`. With SIGPIPE ignored, the call returns 4. A signal
 * whose handler was set without SA_RESTART may end the input or fail the output: set SA_RESTART, or block signals on this thread.
 *
 * Memory. malloc, realloc and free must belong to one allocator, with the alignment that C requires. Do not call from a signal handler,
 * or in the forked child of a process that has threads. */
unsigned char yieldcleat_serve(int input, int output);

/* The same for a node with a birth, a number that no earlier life of the node had; several engines may then send requests. Draw it at
 * random for a fresh node, keep it with the request log, and pass the kept one when the node restarts from its files. yieldcleat_serve
 * has birth 0. docs/EMBEDDING.md, "Several engines", describes the requests. */
unsigned char yieldcleat_serve_as(int input, int output, unsigned long long birth);

#ifdef __cplusplus
}
#endif

#endif
