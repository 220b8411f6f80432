#include "pages.h"

#include <sqlite3ext.h>
#include <string.h>
SQLITE_EXTENSION_INIT3

static struct page **place_of(const struct pages *pages, uint32_t number) {
    struct leaf *leaf = pages->leaves[number / LEAF % LEAVES];
    return leaf ? &leaf->at[number % LEAF] : 0;
}

struct page *pages_find(const struct pages *pages, uint32_t number) {
    struct page **place = place_of(pages, number);
    return place ? *place : 0;
}

struct page *pages_above(const struct pages *pages, uint32_t number) {
    for (uint32_t next = number + 1; next < LEAF * LEAVES; next++) {
        struct page **place = place_of(pages, next);
        if (place && *place) return *place;
        if (!place) next |= LEAF - 1; /* the leaf has no pages */
    }
    return 0;
}

static void drop(struct pages *pages, struct page *page) {
    *place_of(pages, page->number) = 0;
    if (!page->is_dirty) pages->clean--;
    sqlite3_free(page->base);
    sqlite3_free(page);
}

static void drop_clean(struct pages *pages) {
    for (struct page *page = pages_above(pages, 0), *next = 0; page; page = next) {
        next = pages_above(pages, page->number);
        if (!page->is_dirty) drop(pages, page);
    }
}

struct page *pages_add(struct pages *pages, uint32_t number) {
    if (pages->clean >= MOST_CLEAN) drop_clean(pages);
    struct leaf **leaf = &pages->leaves[number / LEAF % LEAVES];
    if (!*leaf) {
        *leaf = sqlite3_malloc64(sizeof **leaf);
        if (!*leaf) return 0;
        **leaf = (struct leaf){0};
    }
    struct page *page = sqlite3_malloc64(sizeof *page);
    if (!page) return 0;
    *page = (struct page){.number = number};
    (*leaf)->at[number % LEAF] = page;
    pages->clean++;
    return page;
}

bool page_put(struct pages *pages, struct page *page, const void *bytes, bool is_new) {
    if (!page->is_dirty && !is_new) {
        page->base = sqlite3_malloc64(YIELDCLEAT_PAGE_BYTES);
        if (!page->base) return false;
        memcpy(page->base, page->now, YIELDCLEAT_PAGE_BYTES);
    }
    if (!page->is_dirty) pages->clean--;
    page->is_dirty = true;
    memcpy(page->now, bytes, YIELDCLEAT_PAGE_BYTES);
    return true;
}

static void settle(struct pages *pages, struct page *page) {
    sqlite3_free(page->base);
    page->base = 0;
    page->is_dirty = false;
    pages->clean++;
}

void pages_settle(struct pages *pages) {
    for (struct page *page = pages_above(pages, 0); page; page = pages_above(pages, page->number)) {
        if (page->is_dirty) settle(pages, page);
    }
}

void pages_cut(struct pages *pages, uint32_t last) {
    for (struct page *page = pages_above(pages, last), *next = 0; page; page = next) {
        next = pages_above(pages, page->number);
        drop(pages, page);
    }
    if (last) return;
    for (size_t leaf = 0; leaf < LEAVES; leaf++) {
        sqlite3_free(pages->leaves[leaf]);
        pages->leaves[leaf] = 0;
    }
}

static void forget_change(struct pages *pages, struct page *page) {
    if (!page->base) {
        drop(pages, page);
        return;
    }
    memcpy(page->now, page->base, YIELDCLEAT_PAGE_BYTES);
    settle(pages, page);
}

void pages_forget_changes(struct pages *pages) {
    for (struct page *page = pages_above(pages, 0), *next = 0; page; page = next) {
        next = pages_above(pages, page->number);
        if (page->is_dirty) forget_change(pages, page);
    }
}
