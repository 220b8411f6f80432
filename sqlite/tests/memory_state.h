/* The pages of the double: for each one all that it ever was, and the headers of all commits. */
#ifndef MEMORY_STATE_H
#define MEMORY_STATE_H

#include "yieldcleat_volume.h"

enum { PAGES = YIELDCLEAT_LAST_PAGE + 1, NODES = 6, QUORUM = 4 };

/* Bytes that grow. */
struct buffer {
    uint8_t *bytes;
    size_t length, room;
};

bool buffer_add(struct buffer *buffer, const void *bytes, size_t length);
bool buffer_add_number(struct buffer *buffer, uint64_t number, size_t length);
void buffer_free(struct buffer *buffer);

struct version {
    uint64_t number;
    uint8_t *bytes;
};

struct history {
    struct version *versions;
    size_t count, room;
};

struct state {
    struct history pages[PAGES];
    struct history headers; /* with their length in front, in 2 bytes */
    uint64_t generation, last, least;
};

/* An entry of the file: the kind, the generation, and a point; of a commit then its header and its pages. */
enum kind { OPENED = 'o', COMMITTED = 'c', ADVANCED = 'a' };

/* Takes an entry in. False without memory, or where the entry is none. */
bool state_take(struct state *state, const uint8_t *entry, size_t length);

/* The last version at or below a point, or null. */
const struct version *history_at(const struct history *history, uint64_t point);

void state_free(struct state *state);

#endif
