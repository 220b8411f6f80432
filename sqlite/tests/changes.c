/* Random pairs of pages, of kinds that are hard to describe in few patches: what find_changes finds makes the one of the other, in patches
 * that a volume takes and that are no dearer than the page.
 *
 *     changes SEED COUNT */
#include "../src/changes.h"

#include <stdio.h>
#include <stdlib.h>
#include <string.h>

enum { BYTES = YIELDCLEAT_PAGE_BYTES };

static uint64_t seed;

/* A number below a bound. */
static size_t draw(size_t bound) {
    seed = seed * 6364136223846793005u + 1442695040888963407u;
    return (size_t)(seed >> 33) % bound;
}

/* Changes bytes here and there, at distances up to a bound, or fills ranges. */
static void change(uint8_t *page, size_t distance, size_t longest) {
    for (size_t at = draw(distance); at < BYTES; at += 1 + draw(distance)) {
        size_t length = 1 + draw(longest);
        if (length > BYTES - at) length = BYTES - at;
        uint8_t byte = (uint8_t)draw(draw(2) ? 256 : 2);
        for (size_t place = 0; place < length; place++) page[at + place] = draw(3) ? byte : (uint8_t)draw(256);
        if (draw(4) == 0) memset(page + at, byte, length);
        at += length - 1;
    }
}

static void apply(uint8_t *page, const struct changes *changes) {
    if (changes->from_zeros) memset(page, 0, BYTES);
    for (size_t place = 0; place < changes->count; place++) {
        const struct yieldcleat_patch *patch = &changes->patches[place];
        if (patch->length < 1 || patch->offset + patch->length > BYTES) exit(3);
        if (patch->is_fill) memset(page + patch->offset, *patch->bytes, patch->length);
        else memcpy(page + patch->offset, patch->bytes, patch->length);
    }
}

static size_t bytes_of(const struct changes *changes) {
    size_t sum = 0;
    for (size_t place = 0; place < changes->count; place++) {
        sum += 5 + (changes->patches[place].is_fill ? 1 : (size_t)changes->patches[place].length);
    }
    return sum;
}

static const char *check(uint8_t *base, const uint8_t *now) {
    struct changes changes;
    int is_equal = !memcmp(base, now, BYTES);
    find_changes(base, now, &changes);
    if (changes.count > YIELDCLEAT_PATCHES) return "too many patches";
    if (is_equal && (changes.count || changes.from_zeros)) return "patches of equal pages";
    if (bytes_of(&changes) > BYTES + 5 + 6 * YIELDCLEAT_PATCHES) return "patches that are dearer than the page";
    apply(base, &changes);
    return memcmp(base, now, BYTES) ? "another page" : 0;
}

int main(int count, char **words) {
    if (count != 3) return 2;
    seed = strtoull(words[1], 0, 10);
    for (long round = strtol(words[2], 0, 10); round > 0; round--) {
        uint8_t base[BYTES] = {0}, now[BYTES];
        uint64_t before = seed;
        if (draw(3)) change(base, 1 + draw(200), 1 + draw(100));
        memcpy(now, base, BYTES);
        if (draw(20)) change(now, 1 + draw(draw(2) ? 14 : 2000), 1 + draw(draw(2) ? 3 : 400));
        if (draw(10) == 0) memset(now, 0, BYTES);
        const char *fault = check(base, now);
        if (!fault) continue;
        printf("%s, by seed %llu\n", fault, (unsigned long long)before);
        return 1;
    }
    puts("all as expected");
    return 0;
}
