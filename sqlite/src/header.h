/* What the VFS keeps in the header of each commit. */
#ifndef HEADER_H
#define HEADER_H

#include "yieldcleat_volume.h"

enum { MARKS = 8 };

struct header {
    uint32_t size;         /* of the database, in pages */
    uint32_t highest;      /* page that was ever written: those above it have zeros */
    uint64_t commits;      /* up to this one */
    uint64_t seconds;      /* of this commit, since 1970 */
    uint64_t marks[MARKS]; /* commit points of the past at even distances, rising; 0 where there is none yet */
};

/* Writes a header as bytes, of which there is room for YIELDCLEAT_HEADER_BYTES, and returns how many they are. */
size_t header_write(const struct header *header, uint8_t *bytes);

/* Reads a header, all zeros where there are no bytes. False where the bytes are no header of this VFS. */
bool header_read(struct header *header, const uint8_t *bytes, size_t length);

#endif
