#include "memory_state.h"

#include <stdlib.h>
#include <string.h>

/* ---- bytes that grow */

bool buffer_add(struct buffer *buffer, const void *bytes, size_t length) {
    size_t room = buffer->room ? buffer->room : 1024;
    while (room < buffer->length + length) room *= 2;
    if (room != buffer->room) {
        uint8_t *grown = realloc(buffer->bytes, room);
        if (!grown) return false;
        buffer->bytes = grown;
        buffer->room = room;
    }
    if (length) memcpy(buffer->bytes + buffer->length, bytes, length);
    buffer->length += length;
    return true;
}

bool buffer_add_number(struct buffer *buffer, uint64_t number, size_t length) {
    uint8_t bytes[8];
    for (size_t place = 0; place < length; place++) bytes[place] = (uint8_t)(number >> (8 * place));
    return buffer_add(buffer, bytes, length);
}

void buffer_free(struct buffer *buffer) {
    free(buffer->bytes);
    *buffer = (struct buffer){0};
}

/* ---- bytes that are read */

struct input {
    const uint8_t *at, *end;
    bool is_bad;
};

static const uint8_t *take(struct input *input, size_t length) {
    const uint8_t *at = input->at;
    if ((size_t)(input->end - at) < length) input->is_bad = true;
    if (input->is_bad) return 0;
    input->at += length;
    return at;
}

static uint64_t take_number(struct input *input, size_t length) {
    const uint8_t *bytes = take(input, length);
    uint64_t number = 0;
    for (size_t place = length; bytes && place > 0; place--) number = number << 8 | bytes[place - 1];
    return number;
}

/* ---- versions */

const struct version *history_at(const struct history *history, uint64_t point) {
    size_t low = 0, high = history->count;
    while (low < high) {
        size_t middle = low + (high - low) / 2;
        if (history->versions[middle].number <= point) low = middle + 1;
        else high = middle;
    }
    return low ? &history->versions[low - 1] : 0;
}

/* A new version of so many bytes, which are zeros; null without memory. */
static uint8_t *add_version(struct history *history, uint64_t number, size_t length) {
    if (history->count == history->room) {
        size_t room = history->room ? 2 * history->room : 4;
        struct version *grown = realloc(history->versions, room * sizeof *grown);
        if (!grown) return 0;
        history->versions = grown;
        history->room = room;
    }
    uint8_t *bytes = calloc(1, length);
    if (bytes) history->versions[history->count++] = (struct version){number, bytes};
    return bytes;
}

static void history_free(struct history *history) {
    for (size_t place = 0; place < history->count; place++) free(history->versions[place].bytes);
    free(history->versions);
}

void state_free(struct state *state) {
    for (size_t page = 0; page < PAGES; page++) history_free(&state->pages[page]);
    history_free(&state->headers);
}

/* ---- entries */

static void take_patch(struct input *input, uint8_t *page) {
    bool is_fill = take_number(input, 1);
    size_t offset = take_number(input, 2), length = take_number(input, 2);
    const uint8_t *bytes = take(input, is_fill ? 1 : length);
    if (!bytes || offset + length > YIELDCLEAT_PAGE_BYTES) {
        input->is_bad = true;
        return;
    }
    if (is_fill) memset(page + offset, *bytes, length);
    else memcpy(page + offset, bytes, length);
}

static bool take_page(struct state *state, struct input *input, uint64_t number) {
    struct history *history = &state->pages[take_number(input, 2)];
    bool from_zeros = take_number(input, 1);
    size_t patches = take_number(input, 1);
    const struct version *before = history_at(history, number);
    const uint8_t *base = before && !from_zeros ? before->bytes : 0;
    uint8_t *page = add_version(history, number, YIELDCLEAT_PAGE_BYTES);
    if (page && base) memcpy(page, base, YIELDCLEAT_PAGE_BYTES);
    while (page && patches-- > 0) take_patch(input, page);
    return page && !input->is_bad;
}

static bool take_header(struct state *state, struct input *input, uint64_t point) {
    size_t length = take_number(input, 2);
    const uint8_t *bytes = take(input, length);
    uint8_t *kept = bytes ? add_version(&state->headers, point, length + 2) : 0;
    if (!kept) return false;
    memcpy(kept, bytes - 2, length + 2);
    return true;
}

static bool take_commit(struct state *state, struct input *input, uint64_t point) {
    if (!take_header(state, input, point)) return false;
    size_t pages = take_number(input, 2);
    for (size_t place = 0; place < pages; place++) {
        if (!take_page(state, input, point - pages + place)) return false;
    }
    state->last = point;
    return true;
}

bool state_take(struct state *state, const uint8_t *entry, size_t length) {
    struct input input = {entry, entry + length, false};
    uint64_t kind = take_number(&input, 1), generation = take_number(&input, 8), point = take_number(&input, 8);
    if (input.is_bad) return false;
    state->generation = generation;
    switch (kind) {
    case OPENED: state->last = point; return true;
    case ADVANCED: state->least = point; return true;
    case COMMITTED: return take_commit(state, &input, point);
    default: return false;
    }
}
