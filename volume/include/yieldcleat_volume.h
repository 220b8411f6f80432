/* A volume: pages whose only durable truth is a redo log at a quorum of storage nodes.
 *
 * A volume has pages of 4,096 bytes. The last 8 of each belong to the volume, so a user has the first 4,088 of pages 1 to 65,535; page 0
 * belongs to the volume. A page that was never written has zeros. Changes of pages are staged and then committed together, with a header
 * of the user's own. Each commit has a *commit point*, a number that rises from commit to commit, with gaps. It is *durable* once enough
 * nodes have it; then no crash of engines, and no loss of as many nodes as the volume bears, takes it back. Every page and header can be
 * read at each point from the least readable one on. At a point between two commits they are those of the earlier one; a part of a commit
 * is never visible. A volume without commits is at point 0. The point of a commit that was lost may become that of another one.
 *
 * One handle at a time writes. Opening another one for writing fences the former, wherever it is: its calls fail with YIELDCLEAT_FENCED
 * from the moment at which it learns of that, and commits that were not durable may be lost, or not. Any number of handles read. Where a
 * node has lost its files, the writer opens the volume again by itself, once all of its commits are durable, so that the node counts;
 * commits wait meanwhile, and yieldcleat_volume_status has another generation afterwards.
 *
 * Threads. Calls on one handle may come from several threads at once. All calls block; none waits longer for nodes than the time that the
 * handle was opened with. What one thread stages belongs to the commit of whichever thread commits next, so let one thread write at a time.
 * A handle is of no use in the forked child of a process.
 *
 * Errors. Each call returns YIELDCLEAT_OK or a fault. All calls may return YIELDCLEAT_IO, YIELDCLEAT_NO_MEMORY and YIELDCLEAT_MISUSE;
 * the comment of a call lists its other faults. A call that fails changes nothing unless it says so below, and does not write
 * through its pointers. yieldcleat_volume_last_error has the details. */
#ifndef YIELDCLEAT_VOLUME_H
#define YIELDCLEAT_VOLUME_H

#include <stdbool.h>
#include <stddef.h>
#include <stdint.h>

#ifdef __cplusplus
extern "C" {
#endif

enum {
    YIELDCLEAT_PAGE_BYTES = 4088,   /* of a page, for the user */
    YIELDCLEAT_LAST_PAGE = 65535,   /* the first one is 1 */
    YIELDCLEAT_HEADER_BYTES = 1024, /* of a header, at most */
    YIELDCLEAT_PATCHES = 63,        /* of a page in one call of yieldcleat_volume_stage, at most */
    YIELDCLEAT_MESSAGE_BYTES = 256  /* of a message, with its final zero */
};

#define YIELDCLEAT_FOLLOW UINT64_MAX /* in place of a point: a reader that follows the commits */

enum yieldcleat_fault {
    YIELDCLEAT_OK = 0,
    YIELDCLEAT_FENCED = 1,    /* another handle has opened the volume for writing; this one only closes */
    YIELDCLEAT_NO_QUORUM = 2, /* too few nodes answer; nothing was sent that could become durable later */
    YIELDCLEAT_TIMEOUT = 3,   /* too few nodes have answered in time; what was sent may become durable later, or not */
    YIELDCLEAT_FULL = 4,      /* the volume has no LSN or no epoch left */
    YIELDCLEAT_NOT_FOUND = 5, /* there is no volume at this place */
    YIELDCLEAT_BELOW = 6,     /* the point is below the least readable one */
    YIELDCLEAT_ABOVE = 7,     /* the point is above the newest one */
    YIELDCLEAT_IO = 8,        /* a node, a socket or a file failed, or a node sent an invalid answer */
    YIELDCLEAT_NO_MEMORY = 9,
    YIELDCLEAT_MISUSE = 10 /* the arguments break a rule of this header; nothing was sent */
};

/* The details of the last call on this thread that failed. */
struct yieldcleat_error {
    enum yieldcleat_fault fault;
    uint32_t have, need; /* nodes that answered, and nodes that are needed: of NO_QUORUM and TIMEOUT, else 0 */
    uint64_t point;      /* the least readable point of YIELDCLEAT_BELOW, the newest one of YIELDCLEAT_ABOVE, else 0 */
    char message[YIELDCLEAT_MESSAGE_BYTES]; /* a sentence without a full stop, such as "no write quorum: 3 of 6 nodes answer" */
};

struct yieldcleat_options {
    uint32_t milliseconds; /* the longest that a call waits for nodes; 0 is 10,000 */
    bool may_create;       /* of a writer: makes the volume where all nodes are empty */
};

/* One change of a page: bytes that are written from an offset on, or one byte that fills a range. */
struct yieldcleat_patch {
    uint16_t offset;      /* 0 to 4,087 */
    uint16_t length;      /* at least 1; offset + length is at most 4,088 */
    bool is_fill;         /* of `bytes` only the first one is read */
    const uint8_t *bytes; /* borrowed for the call */
};

/* Bytes of a page. */
struct yieldcleat_range {
    uint32_t page;   /* 1 to 65,535 */
    uint32_t offset; /* offset + length is at most 4,088 */
    uint32_t length;
};

struct yieldcleat_status {
    uint64_t newest, least; /* the newest durable commit point, and the least readable point */
    uint64_t generation;    /* of the handle that opened the volume for writing last, as far as this one knows */
    uint32_t have, need;    /* nodes that answer, and that a commit needs */
    uint32_t nodes;         /* that the volume has */
    uint32_t uncounted;     /* of those that answer a writer: they lost their files, and count once it has opened the volume again */
};

struct yieldcleat_volume; /* a handle */

/* Opens a volume for writing: fences all older handles, recovers every durable commit, and discards what is not. `place` is the path of
 * the file that lists the volume's nodes; `options` may be null. Faults: NOT_FOUND (no such file, or empty nodes and no may_create),
 * NO_QUORUM (older handles may be fenced all the same), FENCED (a newer one came meanwhile), FULL (no epoch is left). */
enum yieldcleat_fault yieldcleat_volume_open_writer(const char *place, const struct yieldcleat_options *options,
                                                    struct yieldcleat_volume **volume);

/* Opens a volume for reading, and fences nobody. With YIELDCLEAT_FOLLOW the handle sees each commit that becomes durable; with a point
 * its newest point is always that one. Faults: NOT_FOUND, NO_QUORUM, BELOW and ABOVE (of the point). */
enum yieldcleat_fault yieldcleat_volume_open_reader(const char *place, const struct yieldcleat_options *options, uint64_t point,
                                                    struct yieldcleat_volume **volume);

/* Closes a handle, which no other call may be using; null is allowed. Waits for nothing: commits that are not durable may be lost. */
void yieldcleat_volume_close(struct yieldcleat_volume *volume);

/* The newest durable commit point: all commits that any handle has seen durable before this call are at or below it. Asks the nodes.
 * On a writer it is the newest durable one of its own, or the one that it opened at. Faults: NO_QUORUM, FENCED. */
enum yieldcleat_fault yieldcleat_volume_newest(struct yieldcleat_volume *volume, uint64_t *point);

/* The header at a point, and the commit point that it belongs to, which is the last one at or below the point; length 0 and commit point
 * 0 before the first commit. `header` has room for YIELDCLEAT_HEADER_BYTES. Faults: BELOW, ABOVE, NO_QUORUM, and FENCED on a writer. */
enum yieldcleat_fault yieldcleat_volume_header(struct yieldcleat_volume *volume, uint64_t point, uint64_t *commit_point, void *header,
                                               size_t *length);

/* Reads bytes of a page at a point. A writer also reads at its own commits before they are durable. `bytes` may have changed where the
 * call fails. Faults: BELOW, ABOVE, NO_QUORUM (no node that has the point answers), and FENCED on a writer. */
enum yieldcleat_fault yieldcleat_volume_read(struct yieldcleat_volume *volume, uint64_t point, struct yieldcleat_range range, void *bytes);

/* Stages changes of a page for the next commit: first zeros in place of the page where `from_zeros`, then 0 to YIELDCLEAT_PATCHES
 * patches in their order, which write at most 8,184 bytes in addition to fills. Copies what it needs; sends nothing. Pages may come in any
 * order and more than once. Fault: FENCED. */
enum yieldcleat_fault yieldcleat_volume_stage(struct yieldcleat_volume *volume, uint32_t page, bool from_zeros,
                                              const struct yieldcleat_patch *patches, size_t count);

/* Drops what is staged. */
void yieldcleat_volume_discard(struct yieldcleat_volume *volume);

/* Commits what is staged, which may be nothing, with a header of at most YIELDCLEAT_HEADER_BYTES. Nothing is staged afterwards, whatever
 * it returns. It waits only for room: the commit is sent, visible at `point` to this handle, and durable once yieldcleat_volume_wait
 * says so. Commits become durable in their order. Faults: NO_QUORUM (nothing was sent, and the handle goes on), FULL (the same), and
 * FENCED, IO and NO_MEMORY, after which this commit may become durable all the same. */
enum yieldcleat_fault yieldcleat_volume_commit(struct yieldcleat_volume *volume, const void *header, size_t length, uint64_t *point);

/* Waits until a commit of this handle is durable, for at most so many milliseconds, 0 being those of the options. Faults: TIMEOUT (the
 * commit is in doubt: wait again, or open the volume again and look), FENCED (in doubt as well, until the newer writer has opened). */
enum yieldcleat_fault yieldcleat_volume_wait(struct yieldcleat_volume *volume, uint64_t point, uint32_t milliseconds);

/* Raises the least readable point to the last commit point at or below this one, for all handles: nodes drop what only lower points need.
 * A writer's call. A point that is not above the present one changes nothing. Faults: ABOVE (the point is not durable), NO_QUORUM,
 * FENCED. */
enum yieldcleat_fault yieldcleat_volume_advance(struct yieldcleat_volume *volume, uint64_t point);

/* The state of the volume, as far as this handle knows without asking a node. On a writer that has ended, so that all its calls fail, it
 * returns the fault that ended it: FENCED, IO, NO_MEMORY or FULL. */
enum yieldcleat_fault yieldcleat_volume_status(struct yieldcleat_volume *volume, struct yieldcleat_status *status);

/* The details of the last call on this thread that failed; YIELDCLEAT_OK and an empty message before the first one. */
void yieldcleat_volume_last_error(struct yieldcleat_error *error);

#ifdef __cplusplus
}
#endif

#endif
