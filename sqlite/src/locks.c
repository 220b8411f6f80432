/* Locks: a reader has a snapshot, and one connection at a time writes. No lock keeps a reader out. */
#include "commit.h"
#include "database.h"
SQLITE_EXTENSION_INIT3

static int begin_read(struct database *database) {
    struct snapshot newest;
    int code = turn_read(database->engine, &database->member, &newest, &database->report);
    if (code) return code;
    bool is_same = is_same_commit(&newest, &database->view.at); /* as it is where nobody has committed */
    if (!is_same) code = database_look(database, &newest);
    else if (newest.is_durable) database->view.at.is_durable = true;
    if (code) {
        turn_end_read(database->engine, &database->member);
        return code;
    }
    if (database->has_read && !is_same_commit(&database->view.at, &database->cached)) database->forgets = true;
    turn_move(database->engine, &database->member, database->view.at.point);
    database->lock = SQLITE_LOCK_SHARED;
    return SQLITE_OK;
}

static int begin_write(struct database *database) {
    if (database->address.is_read_only) return refuse(&database->report, SQLITE_READONLY, "lock for writing: the connection only reads");
    int code = turn_write(database->engine, &database->member, &database->report);
    if (!code) database->before = database->view;
    return code;
}

int database_lock(sqlite3_file *file, int lock) {
    struct database *database = (struct database *)file;
    int code = SQLITE_OK;
    if (database->lock == SQLITE_LOCK_NONE) code = begin_read(database);
    if (!code && lock >= SQLITE_LOCK_RESERVED && database->lock < SQLITE_LOCK_RESERVED) code = begin_write(database);
    if (!code && lock > database->lock) database->lock = lock;
    return code;
}

/* Drops what was written and not committed: SQLite has rolled it back, or has given it up. */
static void end_write(struct database *database) {
    database_forget_changes(database);
    database->is_sent = false;
    turn_publish(database->engine, &database->member, true);
}

int database_unlock(sqlite3_file *file, int lock) {
    struct database *database = (struct database *)file;
    if (lock >= database->lock) return SQLITE_OK;
    if (database->lock >= SQLITE_LOCK_RESERVED) end_write(database);
    if (lock == SQLITE_LOCK_NONE) {
        turn_end_read(database->engine, &database->member);
        database->has_read = true;
        database->cached = database->view.at;
    }
    database->lock = lock;
    return SQLITE_OK;
}

int database_check_reserved(sqlite3_file *file, int *is_reserved) {
    const struct database *database = (const struct database *)file;
    *is_reserved = database->lock >= SQLITE_LOCK_RESERVED || turn_is_taken(database->engine, &database->member);
    return SQLITE_OK;
}
