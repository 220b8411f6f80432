#include "changes.h"

/* What a patch costs in a redo record beside the bytes that it writes, and a fill with its one byte. */
enum { WRITE_COST = 5, FILL_COST = 6 };

/* Equal bytes between two runs are written along where that is no dearer than a second patch. */
enum { GAP = WRITE_COST, SHORTEST_FILL = 16, BYTES = YIELDCLEAT_PAGE_BYTES, MOST_RUNS = BYTES / (GAP + 1) + 1 };

/* A page with fewer bytes of patches is not worth a second look. */
enum { CHEAP = 256 };

struct run {
    size_t offset, end;
    bool is_fill;
};

struct runs {
    size_t count;
    struct run at[MOST_RUNS + 1];
};

/* How many bytes from an offset on are all the same. */
static size_t same_from(const uint8_t *now, size_t offset) {
    size_t end = offset + 1;
    while (end < BYTES && now[end] == now[offset]) end++;
    return end - offset;
}

static bool starts_fill(const uint8_t *now, size_t offset) {
    for (size_t at = offset; at < offset + SHORTEST_FILL; at++) {
        if (at >= BYTES || now[at] != now[offset]) return false;
    }
    return true;
}

/* The end of the last changed byte in a range. */
static size_t last_change(const uint8_t *base, const uint8_t *now, size_t offset, size_t end) {
    while (end > offset && base[end - 1] == now[end - 1]) end--;
    return end;
}

/* The end of the run of bytes to write that begins at a changed byte. */
static size_t end_of_write(const uint8_t *base, const uint8_t *now, size_t offset) {
    size_t end = offset + 1;
    for (size_t at = end; at < BYTES && at - end <= GAP; at++) {
        if (base[at] == now[at]) continue;
        if (starts_fill(now, at)) break;
        end = at + 1;
    }
    return end;
}

static void find_runs(const uint8_t *base, const uint8_t *now, struct runs *runs) {
    runs->count = 0;
    for (size_t at = 0; at < BYTES; at++) {
        if (base[at] == now[at]) continue;
        struct run run = {.offset = at, .is_fill = starts_fill(now, at)};
        run.end = run.is_fill ? last_change(base, now, at, at + same_from(now, at)) : end_of_write(base, now, at);
        runs->at[runs->count++] = run;
        at = run.end - 1;
    }
}

static size_t cost_of(struct run run) { return run.is_fill ? FILL_COST : WRITE_COST + run.end - run.offset; }

static size_t cost(const struct runs *runs) {
    size_t sum = 0;
    for (size_t place = 0; place < runs->count; place++) sum += cost_of(runs->at[place]);
    return sum;
}

static struct run joined(const struct runs *runs, size_t place) {
    return (struct run){runs->at[place].offset, runs->at[place + 1].end, false};
}

/* The place of the run that costs least to join with the next one. */
static size_t cheapest_join(const struct runs *runs) {
    size_t best = 0, least = SIZE_MAX;
    for (size_t place = 0; place + 1 < runs->count; place++) {
        size_t more = BYTES + cost_of(joined(runs, place)) - cost_of(runs->at[place]) - cost_of(runs->at[place + 1]);
        if (more < least) {
            best = place;
            least = more;
        }
    }
    return best;
}

/* Joins neighbours until the runs are few enough for one record. */
static void make_few(struct runs *runs) {
    while (runs->count > YIELDCLEAT_PATCHES) {
        size_t place = cheapest_join(runs);
        runs->at[place] = joined(runs, place);
        runs->count--;
        for (size_t next = place + 1; next < runs->count; next++) runs->at[next] = runs->at[next + 1];
    }
}

static void put(const struct runs *runs, const uint8_t *now, struct changes *changes) {
    changes->count = runs->count;
    for (size_t place = 0; place < runs->count; place++) {
        struct run run = runs->at[place];
        changes->patches[place] = (struct yieldcleat_patch){
            .offset = (uint16_t)run.offset,
            .length = (uint16_t)(run.end - run.offset),
            .is_fill = run.is_fill,
            .bytes = now + run.offset,
        };
    }
}

void find_changes(const uint8_t *base, const uint8_t *now, struct changes *changes) {
    static const uint8_t zeros[BYTES];
    struct runs runs, whole;
    find_runs(base, now, &runs);
    make_few(&runs);
    changes->from_zeros = false;
    if (cost(&runs) > CHEAP) {
        find_runs(zeros, now, &whole);
        make_few(&whole);
        changes->from_zeros = cost(&whole) < cost(&runs);
    }
    put(changes->from_zeros ? &whole : &runs, now, changes);
}
