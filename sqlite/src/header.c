#include "header.h"

#include <string.h>

static const uint8_t magic[8] = {'Y', 'C', 's', 'q', 'l', 'i', 't', '1'};

enum { LENGTH = sizeof magic + 2 * sizeof(uint32_t) + (2 + MARKS) * sizeof(uint64_t) };

static uint8_t *put(uint8_t *at, uint64_t value, int bytes) {
    for (int place = bytes - 1; place >= 0; place--) *at++ = (uint8_t)(value >> (8 * place));
    return at;
}

static const uint8_t *get(const uint8_t *at, uint64_t *value, int bytes) {
    *value = 0;
    for (int place = 0; place < bytes; place++) *value = *value << 8 | *at++;
    return at;
}

size_t header_write(const struct header *header, uint8_t *bytes) {
    memcpy(bytes, magic, sizeof magic);
    uint8_t *at = put(bytes + sizeof magic, header->size, 4);
    at = put(at, header->highest, 4);
    at = put(at, header->commits, 8);
    at = put(at, header->seconds, 8);
    for (int place = 0; place < MARKS; place++) at = put(at, header->marks[place], 8);
    return LENGTH;
}

bool header_read(struct header *header, const uint8_t *bytes, size_t length) {
    *header = (struct header){0};
    if (length == 0) return true;
    if (length != LENGTH || memcmp(bytes, magic, sizeof magic) != 0) return false;
    uint64_t size = 0, highest = 0;
    const uint8_t *at = get(bytes + sizeof magic, &size, 4);
    at = get(at, &highest, 4);
    at = get(at, &header->commits, 8);
    at = get(at, &header->seconds, 8);
    for (int place = 0; place < MARKS; place++) at = get(at, &header->marks[place], 8);
    header->size = (uint32_t)size;
    header->highest = (uint32_t)highest;
    return size <= highest && highest <= YIELDCLEAT_LAST_PAGE;
}
