/* Pages that a connection keeps in memory: those it has changed, and some that it has read. */
#ifndef PAGES_H
#define PAGES_H

#include "yieldcleat_volume.h"

enum { PAGE = 4096, LEAF = 256, LEAVES = 256, MOST_CLEAN = 1024 };

struct page {
    uint32_t number;
    bool is_dirty;
    uint8_t *base; /* of a dirty page: what the volume has of it, or null where that is not known yet */
    uint8_t now[PAGE];
};

struct leaf {
    struct page *at[LEAF];
};

struct pages {
    struct leaf *leaves[LEAVES];
    size_t clean;
};

/* The page of a number, or null. */
struct page *pages_find(const struct pages *pages, uint32_t number);

/* A new clean page, which `pages` has no page of that number beside; drops other clean ones where there are many. Null without memory. */
struct page *pages_add(struct pages *pages, uint32_t number);

/* The page with the least number above one, or null. */
struct page *pages_above(const struct pages *pages, uint32_t number);

/* Puts bytes into a page, which is dirty from then on; `is_new` where it was not read before. Without memory nothing changes. */
bool page_put(struct pages *pages, struct page *page, const void *bytes, bool is_new);

/* Each dirty page is clean: the volume has it as it is. */
void pages_settle(struct pages *pages);

/* Drops the pages with numbers above one. */
void pages_cut(struct pages *pages, uint32_t last);

/* Drops the changes: a dirty page is what the volume has of it, or goes where that is not known. */
void pages_forget_changes(struct pages *pages);

#endif
