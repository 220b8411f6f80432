/* SQLite's rollback journal: a file in memory, since a commit is whole or absent without it. */
#ifndef JOURNAL_H
#define JOURNAL_H

#include <sqlite3ext.h>
#include <stdint.h>

struct journal {
    sqlite3_file file; /* first, as SQLite requires */
    uint8_t *bytes;
    sqlite3_int64 length, room;
};

/* Opens an empty journal, which is gone when it is closed: a transaction that was not committed leaves nothing to roll back. */
void journal_open(struct journal *journal);

#endif
