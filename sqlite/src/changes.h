/* What changed of a page, as the patches that change it. */
#ifndef CHANGES_H
#define CHANGES_H

#include "yieldcleat_volume.h"

struct changes {
    bool from_zeros;
    size_t count;
    struct yieldcleat_patch patches[YIELDCLEAT_PATCHES]; /* their bytes are those of the page that they make */
};

/* Finds few and short patches that make `now` of `base`, both of YIELDCLEAT_PAGE_BYTES; none where they are equal. */
void find_changes(const uint8_t *base, const uint8_t *now, struct changes *changes);

#endif
