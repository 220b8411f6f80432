/* File controls: the moments of a transaction that SQLite reports, and what a program may ask. */
#include "../include/yieldcleat_sqlite.h"
#include "commit.h"
#include "database.h"
SQLITE_EXTENSION_INIT3

/* ---- moments of a transaction */

/* All pages of the transaction are written. A name is that of a super-journal, which `journal.c` refuses before; where it gets here all
 * the same, SQLite may take the journal for committed once that file is gone, and would not roll back what is written. */
static int sync_comes(struct database *database, const char *super_journal) {
    if (!super_journal || !*super_journal) return commit_send(database);
    database_forget_changes(database);
    database->forgets = true;
    return refuse(&database->report, SQLITE_IOERR_WRITE, SEVERAL_DATABASES);
}

static int moment(struct database *database, int operation, void *argument) {
    switch (operation) {
    case SQLITE_FCNTL_SYNC: return sync_comes(database, argument);
    case SQLITE_FCNTL_COMMIT_PHASETWO: commit_end(database); return SQLITE_OK;
    case SQLITE_FCNTL_BEGIN_ATOMIC_WRITE:
    case SQLITE_FCNTL_COMMIT_ATOMIC_WRITE: return SQLITE_OK; /* SQLITE_FCNTL_SYNC follows */
    case SQLITE_FCNTL_ROLLBACK_ATOMIC_WRITE: database_forget_changes(database); return SQLITE_OK;
    default: return SQLITE_NOTFOUND;
    }
}

/* ---- pragmas */

/* SQLite opens super-journals for no connection in particular; what came of that is as good as the connection's own. */
static const char *message_of(const struct database *database) {
    const struct report *common = common_report();
    return common->serial > database->report.serial ? common->text : database->report.text;
}

static char *describe(struct database *database) {
    struct yieldcleat_status status = {0};
    struct handle *handle = engine_borrow(database->engine);
    bool writes = handle != database->engine->reader;
    enum yieldcleat_fault fault = yieldcleat_volume_status(handle->volume, &status);
    engine_return(database->engine, handle, YIELDCLEAT_OK);
    if (fault) return sqlite3_mprintf("unknown");
    char *uncounted = status.uncounted ? sqlite3_mprintf(" (%u of them wait to be admitted)", status.uncounted) : 0;
    char *text = sqlite3_mprintf("%s, point %llu, readable from %llu on, generation %llu, %u of %u nodes answer%s, %u are needed",
                                 writes ? "writing" : "reading", (unsigned long long)status.newest, (unsigned long long)status.least,
                                 (unsigned long long)status.generation, status.have, status.nodes, uncounted ? uncounted : "", status.need);
    sqlite3_free(uncounted);
    return text;
}

/* The words of a pragma: its answer comes first, then its name, and its value or null. */
static int answer_pragma(struct database *database, char **words) {
    const char *name = words[1], *value = words[2];
    if (!sqlite3_stricmp(name, "yieldcleat_error")) words[0] = sqlite3_mprintf("%s", message_of(database));
    if (!sqlite3_stricmp(name, "yieldcleat_point")) {
        words[0] = sqlite3_mprintf("%llu", (unsigned long long)database->view.at.point);
    }
    if (!sqlite3_stricmp(name, "yieldcleat_status")) words[0] = describe(database);
    if (words[0]) return SQLITE_OK;
    if (!sqlite3_stricmp(name, "journal_mode") && value && !sqlite3_stricmp(value, "wal")) {
        refuse(&database->report, SQLITE_NOTICE, "a volume has no write-ahead log; the journal is a rollback journal in memory");
    }
    return SQLITE_NOTFOUND;
}

/* ---- questions */

static int answer(const struct database *database, int operation, void *argument) {
    switch (operation) {
    case SQLITE_FCNTL_VFSNAME: *(char **)argument = sqlite3_mprintf("yieldcleat"); return SQLITE_OK;
    case SQLITE_FCNTL_LOCKSTATE: *(int *)argument = database->lock; return SQLITE_OK;
    case SQLITE_FCNTL_HAS_MOVED: *(int *)argument = 0; return SQLITE_OK;
    case SQLITE_FCNTL_POWERSAFE_OVERWRITE: *(int *)argument = 1; return SQLITE_OK;
    case YIELDCLEAT_FCNTL_MESSAGE: *(const char **)argument = message_of(database); return SQLITE_OK;
    case YIELDCLEAT_FCNTL_POINT: *(sqlite3_uint64 *)argument = database->view.at.point; return SQLITE_OK;
    default: return SQLITE_NOTFOUND;
    }
}

int database_control(sqlite3_file *file, int operation, void *argument) {
    struct database *database = (struct database *)file;
    if (operation == SQLITE_FCNTL_PRAGMA) return answer_pragma(database, argument);
    int code = moment(database, operation, argument);
    return code == SQLITE_NOTFOUND ? answer(database, operation, argument) : code;
}
