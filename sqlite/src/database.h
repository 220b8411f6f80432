/* A connection's file: the database as it was at one commit point, and what the connection has changed since. */
#ifndef DATABASE_H
#define DATABASE_H

#include "header.h"
#include "pages.h"
#include "turns.h"

/* A state of the database that the volume has. */
struct view {
    struct snapshot at;
    struct header header;
};

struct database {
    sqlite3_file file; /* first, as SQLite requires */
    struct engine *engine;
    struct member member;
    struct address address;
    int lock;
    struct view view;   /* what is read beside `pages`; of the current or the last transaction */
    struct view before; /* while it is locked for writing: the state that a rollback returns to */
    struct pages pages; /* of the view, and changed */
    uint32_t size;      /* in pages, with the changes */
    bool is_sent;       /* the view is a commit of this connection that nobody has waited for */
    bool has_read;      /* there was a transaction, */
    struct snapshot cached; /* which ended at this snapshot: SQLite's cache has pages of that state */
    bool forgets;       /* the transaction is at another one: the next look at the counter of changes is to differ */
    struct report report;
};

/* Opens the database of this name as a file of SQLite. */
int database_open(const char *name, struct database *database, int flags, int *out_flags);

/* Makes the state of a snapshot the view; it drops the pages of another one. The changes must have been dropped. */
int database_look(struct database *database, const struct snapshot *snapshot);

/* Goes back to a view, without any pages. */
void database_return(struct database *database, const struct view *view);

/* Drops what was written since the view. */
void database_forget_changes(struct database *database);

/* The content of a page in the view, or null with a code. */
struct page *database_page(struct database *database, uint32_t number, int *code);

/* Reads a page of the view from the volume. SQLITE_IOERR_READ also where the view may have been lost. */
int database_fetch(struct database *database, uint32_t number, uint8_t *bytes);

/* Parts of the methods of a file, each in a file of its own. */
int database_lock(sqlite3_file *file, int lock);
int database_unlock(sqlite3_file *file, int lock);
int database_check_reserved(sqlite3_file *file, int *is_reserved);
int database_control(sqlite3_file *file, int operation, void *argument);

#endif
