/* Two processes with a segment in each. The first takes the even records of a log, the second the odd ones; then they gossip over TCP on
 * 127.0.0.1 until both have the same summary, byte for byte. The program ends by itself, with status 0 where that is so and both are
 * complete, and with status 1 and a reason on standard error otherwise.
 *
 *     gossip                  both processes
 *     gossip first PORT       one of them, which connects to its peer at that port
 *     gossip second PORT
 *
 * A peer is not trusted: its frames have a limit, and it has SECONDS for all that it does, however slowly its bytes come.
 *
 *     cc -pthread -I embedding/include embedding/c/gossip.c libnode_c.a liblibc_c.a
 */
#include "yieldcleat.h"
#include <arpa/inet.h>
#include <errno.h>
#include <poll.h>
#include <pthread.h>
#include <signal.h>
#include <stdint.h>
#include <stdio.h>
#include <stdlib.h>
#include <string.h>
#include <sys/socket.h>
#include <sys/wait.h>
#include <time.h>
#include <unistd.h>

#ifndef SECONDS
#define SECONDS 30
#endif

enum { LAST = 1000, ROUNDS = 5, LINE = 64, HEAD = 4, LONGEST = 1 << 26 /* bytes of a frame: a segment reads no more */ };

/* What went wrong, in words, or a null pointer. */
typedef const char *fault;

/* ---- frames */

/* The bytes of a request, an answer, a summary or a delta. The owner frees `bytes`. */
struct bytes {
    unsigned char *bytes;
    size_t length;
};

static const struct bytes nothing = {0, 0};

static void put_head(unsigned char *head, size_t length) {
    for (int place = 0; place < HEAD; place++) head[place] = (unsigned char)(length >> (24 - 8 * place));
}

/* Room for the frame that this head begins, and a zero behind it. */
static fault make_room(const unsigned char *head, struct bytes *frame) {
    size_t length = 0;
    for (int place = 0; place < HEAD; place++) length = length << 8 | head[place];
    if (length > LONGEST) return "the frame is too long";
    *frame = (struct bytes){malloc(length + 1), length};
    if (!frame->bytes) return "out of memory";
    frame->bytes[length] = 0;
    return 0;
}

static fault put_all(int to, const void *bytes, size_t length) {
    for (size_t done = 0; done < length;) {
        ssize_t put = send(to, (const char *)bytes + done, length - done, MSG_NOSIGNAL);
        if (put < 0 && errno == EINTR) continue;
        if (put <= 0) return "the segment has ended";
        done += (size_t)put;
    }
    return 0;
}

static fault get_all(int from, void *bytes, size_t length) {
    for (size_t done = 0; done < length;) {
        ssize_t got = recv(from, (char *)bytes + done, length - done, 0);
        if (got < 0 && errno == EINTR) continue;
        if (got <= 0) return "the segment has ended";
        done += (size_t)got;
    }
    return 0;
}

static fault get_frame(int from, struct bytes *frame) {
    unsigned char head[HEAD];
    fault fault = get_all(from, head, sizeof head);
    if (!fault) fault = make_room(head, frame);
    return fault ? fault : get_all(from, frame->bytes, frame->length);
}

/* ---- a segment */

static void *serve(void *end) {
    int descriptor = *(int *)end;
    return (void *)(intptr_t)yieldcleat_serve(descriptor, descriptor);
}

/* A segment on a thread of its own; requests go to `ends[0]`. */
struct segment {
    int ends[2];
    pthread_t thread;
};

static fault start(struct segment *segment) {
    if (socketpair(AF_UNIX, SOCK_STREAM, 0, segment->ends)) return "no pair of sockets";
    if (!pthread_create(&segment->thread, 0, serve, &segment->ends[1])) return 0;
    close(segment->ends[0]);
    close(segment->ends[1]);
    return "no thread";
}

/* Ends the segment, also one that has an answer to write, and returns its status. */
static int stop(struct segment *segment) {
    void *status;
    shutdown(segment->ends[0], SHUT_RDWR);
    pthread_join(segment->thread, &status);
    close(segment->ends[0]);
    close(segment->ends[1]);
    return (int)(intptr_t)status;
}

/* The bytes of an answer behind the words that it is to begin with; `answer` is freed where it begins otherwise. */
static fault expect(struct bytes *answer, const char *wanted) {
    size_t skip = strlen(wanted);
    if (answer->length >= skip && !memcmp(answer->bytes, wanted, skip)) {
        answer->length -= skip;
        memmove(answer->bytes, answer->bytes + skip, answer->length + 1);
        return 0;
    }
    size_t shown = 0;
    while (shown < LINE && answer->bytes[shown] >= ' ' && answer->bytes[shown] <= '~') shown++;
    fprintf(stderr, "the segment answers: %.*s\n", (int)shown, (const char *)answer->bytes);
    free(answer->bytes);
    *answer = nothing;
    return "the segment answers otherwise";
}

/* Asks a request of a word and bytes. `answer` has what stands behind the words that the answer is to begin with. */
static fault ask(struct segment *segment, const char *word, struct bytes with, const char *wanted, struct bytes *answer) {
    size_t front = strlen(word);
    *answer = nothing;
    if (with.length > LONGEST - front) return "the request is too long";
    unsigned char *request = malloc(HEAD + front + with.length);
    if (!request) return "out of memory";
    put_head(request, front + with.length);
    memcpy(request + HEAD, word, front);
    if (with.length) memcpy(request + HEAD + front, with.bytes, with.length);
    fault fault = put_all(segment->ends[0], request, HEAD + front + with.length);
    free(request);
    if (!fault) fault = get_frame(segment->ends[0], answer);
    if (!fault) return expect(answer, wanted);
    free(answer->bytes);
    *answer = nothing;
    return fault;
}

/* The same where nothing stands behind those words, or nothing that is needed. */
static fault order(struct segment *segment, const char *word, struct bytes with, const char *wanted) {
    struct bytes answer;
    fault fault = ask(segment, word, with, wanted, &answer);
    free(answer.bytes);
    return fault;
}

static fault absorb(struct segment *segment, struct bytes summary, struct bytes delta) {
    char word[LINE];
    struct bytes both = {malloc(summary.length + delta.length + 1), summary.length + delta.length};
    if (!both.bytes) return "out of memory";
    snprintf(word, sizeof word, "absorb %zu ", summary.length);
    memcpy(both.bytes, summary.bytes, summary.length);
    memcpy(both.bytes + summary.length, delta.bytes, delta.length);
    fault fault = order(segment, word, both, "absorbed");
    free(both.bytes);
    return fault;
}

/* ---- a log */

static unsigned char *number(unsigned char *at, uint64_t value) {
    for (int shift = 40; shift >= 0; shift -= 8) *at++ = (unsigned char)(value >> shift);
    return at;
}

/* Record `own` of one chain over four pages: one byte, at offset 0. docs/FORMATS.md has the layout. */
static fault take(struct segment *segment, uint64_t own) {
    unsigned char bytes[40] = {1, 0, 0}, *at = bytes + 3;
    at = number(at, own);
    at = number(at, own - 1);
    *at++ = 0;
    *at++ = (unsigned char)(own % 4);
    at = number(at, own > 4 ? own - 4 : 0);
    memcpy(at, "\1\0\0\0\1", 5);
    at[5] = (unsigned char)own;
    struct bytes fact = {bytes, (size_t)(at + 6 - bytes)};
    return order(segment, "take ", fact, "changed");
}

/* ---- a peer */

struct peer {
    int socket;
    int64_t deadline; /* in milliseconds */
};

static int64_t milliseconds(void) {
    struct timespec now;
    clock_gettime(CLOCK_MONOTONIC, &now);
    return (int64_t)now.tv_sec * 1000 + now.tv_nsec / 1000000;
}

/* Waits until one of the events comes, and returns those that have, or 0 where the time is over. */
static short wait_for(const struct peer *peer, short events) {
    struct pollfd at = {peer->socket, events, 0};
    for (;;) {
        int64_t left = peer->deadline - milliseconds();
        int count = poll(&at, 1, left > 0 ? (int)left : 0);
        if (count > 0) return at.revents;
        if (count == 0 || errno != EINTR) return 0;
    }
}

/* A frame that is sent and one that is received, each as far as it is: its head, then its bytes. */
struct talk {
    unsigned char head[2][HEAD];
    struct bytes told, heard;
    size_t sent, received;
};

static fault send_some(const struct peer *peer, struct talk *talk) {
    int in_head = talk->sent < HEAD;
    const unsigned char *from = in_head ? talk->head[0] + talk->sent : talk->told.bytes + (talk->sent - HEAD);
    size_t left = in_head ? HEAD - talk->sent : HEAD + talk->told.length - talk->sent;
    ssize_t put = send(peer->socket, from, left, MSG_NOSIGNAL | MSG_DONTWAIT);
    if (put > 0) talk->sent += (size_t)put;
    return put >= 0 || errno == EINTR || errno == EAGAIN || errno == EWOULDBLOCK ? 0 : "the peer has left";
}

static fault receive_some(const struct peer *peer, struct talk *talk) {
    int in_head = talk->received < HEAD;
    unsigned char *to = in_head ? talk->head[1] + talk->received : talk->heard.bytes + (talk->received - HEAD);
    size_t left = in_head ? HEAD - talk->received : HEAD + talk->heard.length - talk->received;
    ssize_t got = recv(peer->socket, to, left, MSG_DONTWAIT);
    if (got < 0) return errno == EINTR || errno == EAGAIN || errno == EWOULDBLOCK ? 0 : "the peer has left";
    if (got == 0) return "the peer has left";
    talk->received += (size_t)got;
    return talk->received == HEAD ? make_room(talk->head[1], &talk->heard) : 0;
}

/* Sends a frame and receives one, both at once: two peers that send first would stop each other where a frame is longer than what the
 * connection holds. */
static fault exchange(const struct peer *peer, struct bytes told, struct bytes *heard) {
    struct talk talk = {.told = told};
    fault fault = told.length > LONGEST ? "the frame is too long" : 0;
    put_head(talk.head[0], told.length);
    while (!fault) {
        int sends = talk.sent < HEAD + told.length, receives = talk.received < HEAD + talk.heard.length;
        if (!sends && !receives) break;
        short events = (short)((sends ? POLLOUT : 0) | (receives ? POLLIN : 0)), come = wait_for(peer, events);
        if (!come) fault = "the peer is too slow";
        if (!fault && receives && come & ~POLLOUT) fault = receive_some(peer, &talk);
        if (!fault && sends && come & ~POLLIN) fault = send_some(peer, &talk);
    }
    if (fault) free(talk.heard.bytes);
    *heard = fault ? nothing : talk.heard;
    return fault;
}

/* ---- two nodes */

/* One question and one answer; whether both summaries were the same. */
static fault talk_once(struct segment *segment, const struct peer *peer, int *is_same) {
    struct bytes own, theirs = nothing, reply = nothing, delta = nothing;
    fault fault = ask(segment, "ask", nothing, "summary ", &own);
    if (!fault) fault = exchange(peer, own, &theirs);
    *is_same = !fault && own.length == theirs.length && !memcmp(own.bytes, theirs.bytes, own.length);
    if (!fault && !*is_same) {
        fault = ask(segment, "answer ", theirs, "delta ", &reply);
        if (!fault) fault = exchange(peer, reply, &delta);
        if (!fault) fault = absorb(segment, own, delta);
    }
    free(own.bytes);
    free(theirs.bytes);
    free(reply.bytes);
    free(delta.bytes);
    return fault;
}

/* Takes the records of a parity, and gossips until both summaries are the same. */
static fault converse(struct segment *segment, const char *name, unsigned parity, const struct peer *peer) {
    char wanted[LINE];
    struct bytes front;
    fault fault = 0;
    for (uint64_t own = LAST; own > 0 && !fault; own--)
        if (own % 2 == parity) fault = take(segment, own);
    if (!fault) fault = ask(segment, "front", nothing, "front ", &front);
    if (fault) return fault;
    printf("%s alone: front %s\n", name, (const char *)front.bytes);
    free(front.bytes);
    int round = 0, is_same = 0;
    while (!(fault = talk_once(segment, peer, &is_same)) && !is_same)
        if (++round == ROUNDS) return "the summaries still differ";
    snprintf(wanted, sizeof wanted, "front 0 %d 0", LAST);
    if (!fault) fault = order(segment, "front", nothing, wanted);
    if (!fault) printf("%s after %d round: %s\n", name, round, wanted);
    return fault;
}

/* A node whose peer is at a socket; the status of its program. */
static int node(const char *name, int socket) {
    struct segment segment;
    struct peer peer = {socket, milliseconds() + 1000 * (int64_t)SECONDS};
    fault fault = start(&segment);
    if (!fault) {
        fault = converse(&segment, name, !strcmp(name, "second"), &peer);
        if (stop(&segment) != YIELDCLEAT_INPUT_ENDED && !fault) fault = "the segment ended badly";
    }
    close(socket);
    if (fault) fprintf(stderr, "%s: %s\n", name, fault);
    return fflush(stdout) || fault ? EXIT_FAILURE : EXIT_SUCCESS;
}

static int give_up(const char *why) {
    perror(why);
    return EXIT_FAILURE;
}

static int connected(const char *name, in_port_t port) {
    struct sockaddr_in at = {.sin_family = AF_INET, .sin_port = port, .sin_addr.s_addr = htonl(INADDR_LOOPBACK)};
    int peer = socket(AF_INET, SOCK_STREAM, 0);
    if (peer < 0 || connect(peer, (void *)&at, sizeof at)) return give_up("connect");
    return node(name, peer);
}

/* The first node, and the status of both. */
static int accepted(int listener, pid_t child) {
    struct peer door = {listener, milliseconds() + 1000 * (int64_t)SECONDS};
    int peer = wait_for(&door, POLLIN) ? accept(listener, 0, 0) : -1, own, other = 0;
    if (peer < 0) fprintf(stderr, "first: no peer has come\n");
    own = peer < 0 ? EXIT_FAILURE : node("first", peer);
    while (waitpid(child, &other, 0) < 0)
        if (errno != EINTR) return give_up("waitpid");
    return own || !WIFEXITED(other) ? EXIT_FAILURE : WEXITSTATUS(other);
}

static int both(void) {
    struct sockaddr_in at = {.sin_family = AF_INET, .sin_addr.s_addr = htonl(INADDR_LOOPBACK)};
    socklen_t length = sizeof at;
    int listener = socket(AF_INET, SOCK_STREAM, 0);
    if (listener < 0 || bind(listener, (void *)&at, length) || listen(listener, 1)) return give_up("listen");
    if (getsockname(listener, (void *)&at, &length)) return give_up("getsockname");
    pid_t child = fork(); /* before there is any thread */
    if (child < 0) return give_up("fork");
    int status = child ? accepted(listener, child) : connected("second", at.sin_port);
    close(listener);
    return status;
}

int main(int count, char **words) {
    signal(SIGPIPE, SIG_IGN); /* of a segment that answers while its asker leaves */
    if (count == 1) return both();
    int is_name = count == 3 && (!strcmp(words[1], "first") || !strcmp(words[1], "second"));
    char *rest = is_name ? words[2] : "";
    unsigned long port = strtoul(rest, &rest, 10);
    if (!is_name || *rest || port == 0 || port > 65535) {
        fprintf(stderr, "usage: gossip [first PORT | second PORT]\n");
        return 2;
    }
    return connected(words[1], htons((uint16_t)port));
}
