#include "database.h"

#include <string.h>

#include "commit.h"
SQLITE_EXTENSION_INIT3

/* Where the format of SQLite's files has what this file needs to know. */
enum { AT_PAGE_SIZE = 16, AT_VERSIONS = 18, AT_RESERVED = 20, AT_COUNTER = 24, COUNTER_BYTES = 16, RESERVED = 8 };

static struct database *of(sqlite3_file *file) { return (struct database *)file; }

/* ---- views */

/* A handle that has the commit of a snapshot: until it is durable only the writer that made it has it for certain, and another commit may
 * get its point. Null where that writer was lost. */
static struct handle *borrow(struct database *database, const struct snapshot *snapshot) {
    return snapshot->is_durable ? engine_borrow(database->engine) : engine_borrow_writer(database->engine, snapshot);
}

static int refuse_lost(struct database *database) {
    return refuse(&database->report, SQLITE_IOERR_READ, "read: the snapshot may have been lost with the writer; begin a new transaction");
}

int database_look(struct database *database, const struct snapshot *snapshot) {
    uint8_t bytes[YIELDCLEAT_HEADER_BYTES];
    size_t length = 0;
    struct view view = {.at = *snapshot};
    struct handle *handle = 0;
    enum yieldcleat_fault fault = YIELDCLEAT_OK;
    do {
        handle = borrow(database, snapshot);
        if (!handle) return refuse_lost(database);
        fault = yieldcleat_volume_header(handle->volume, snapshot->point, &view.at.point, bytes, &length);
    } while (engine_return(database->engine, handle, fault));
    if (fault) return refuse_fault(&database->report, READING, fault);
    if (!header_read(&view.header, bytes, length)) {
        return refuse(&database->report, SQLITE_NOTADB, "read: the volume's header at point %llu belongs to no database",
                      (unsigned long long)snapshot->point);
    }
    if (!is_same_commit(&view.at, &database->view.at)) pages_cut(&database->pages, 0);
    database->view = view;
    database->size = view.header.size;
    return SQLITE_OK;
}

void database_return(struct database *database, const struct view *view) {
    struct view kept = *view;
    pages_cut(&database->pages, 0);
    database->view = kept;
    database->size = kept.header.size;
    database->is_sent = false;
    turn_move(database->engine, &database->member, kept.at.point);
}

void database_forget_changes(struct database *database) {
    pages_forget_changes(&database->pages);
    database->size = database->view.header.size;
}

int database_fetch(struct database *database, uint32_t number, uint8_t *bytes) {
    struct handle *handle = 0;
    enum yieldcleat_fault fault = YIELDCLEAT_OK;
    struct yieldcleat_range range = {.page = number, .length = YIELDCLEAT_PAGE_BYTES};
    memset(bytes, 0, YIELDCLEAT_PAGE_BYTES);
    if (number > database->view.header.highest) return SQLITE_OK;
    do {
        handle = borrow(database, &database->view.at);
        if (!handle) return refuse_lost(database);
        fault = yieldcleat_volume_read(handle->volume, database->view.at.point, range, bytes);
    } while (engine_return(database->engine, handle, fault));
    return fault ? refuse_fault(&database->report, READING, fault) : SQLITE_OK;
}

struct page *database_page(struct database *database, uint32_t number, int *code) {
    uint8_t bytes[YIELDCLEAT_PAGE_BYTES];
    struct page *page = pages_find(&database->pages, number);
    if (page) return page;
    *code = database_fetch(database, number, bytes);
    if (*code) return 0;
    page = pages_add(&database->pages, number);
    if (page) memcpy(page->now, bytes, sizeof bytes);
    if (!page) *code = refuse(&database->report, SQLITE_IOERR_NOMEM, "read: out of memory");
    return page;
}

/* ---- reading */

/* The start of a database that is empty, from which SQLite learns the size of its pages and the reserved bytes. */
static const uint8_t invented[PAGE] = {
    'S', 'Q', 'L', 'i', 't', 'e', ' ', 'f', 'o', 'r', 'm', 'a', 't', ' ', '3', 0, [AT_PAGE_SIZE] = PAGE / 256,
    [AT_VERSIONS] = 1, 1, [AT_RESERVED] = RESERVED, 64, 32, 32,
};

/* Copies the requested part of a page; the whole page has zeros where the database ends before it. */
static int read_page(struct database *database, uint32_t number, size_t offset, size_t amount, uint8_t *to) {
    int code = SQLITE_OK;
    if (number <= database->size) {
        const struct page *page = database_page(database, number, &code);
        if (page) memcpy(to, page->now + offset, amount);
        return code;
    }
    if (number == 1) memcpy(to, invented + offset, amount);
    else memset(to, 0, amount);
    return SQLITE_IOERR_SHORT_READ;
}

/* SQLite keeps its cache where the counter of changes is what it was. That is not enough here: connections read beside one that is in
 * exclusive mode, in which SQLite counts no changes, and commits may have come in place of lost ones. */
static void forget_cache(struct database *database, uint8_t *counter) {
    for (int place = 0; place < COUNTER_BYTES; place++) counter[place] = (uint8_t)~counter[place];
    database->forgets = false;
}

/* SQLite reads the start and the size of a file before it has a lock: then they are those of the newest commit. */
static int look_without_lock(struct database *database) {
    struct snapshot newest;
    if (database->lock != SQLITE_LOCK_NONE) return SQLITE_OK;
    enum yieldcleat_fault fault = turn_newest(database->engine, &newest);
    return fault ? refuse_fault(&database->report, READING, fault) : database_look(database, &newest);
}

static int database_read(sqlite3_file *file, void *to, int amount, sqlite3_int64 offset) {
    struct database *database = of(file);
    int code = look_without_lock(database), is_short = 0;
    for (size_t done = 0, part = 0; !code && done < (size_t)amount; done += part) {
        size_t at = (size_t)offset + done, within = at % PAGE, left = (size_t)amount - done;
        part = left < PAGE - within ? left : PAGE - within;
        code = read_page(database, (uint32_t)(at / PAGE + 1), within, part, (uint8_t *)to + done);
        if (code == SQLITE_IOERR_SHORT_READ) {
            is_short = code;
            code = SQLITE_OK;
        }
    }
    if (!code && database->forgets && offset == AT_COUNTER && amount == COUNTER_BYTES) forget_cache(database, to);
    return code ? code : is_short;
}

static int database_file_size(sqlite3_file *file, sqlite3_int64 *size) {
    struct database *database = of(file);
    int code = look_without_lock(database);
    *size = (sqlite3_int64)database->size * PAGE;
    return code;
}

/* ---- writing */

/* The volume has pages of one size, and no write-ahead log. */
static int check_start(struct database *database, const uint8_t *start) {
    if (start[AT_PAGE_SIZE] * 256 != PAGE || start[AT_PAGE_SIZE + 1] || start[AT_RESERVED] != RESERVED) {
        return refuse(&database->report, SQLITE_IOERR_WRITE, "write: pages have %d bytes of which %d are reserved", PAGE, RESERVED);
    }
    if (start[AT_VERSIONS] > 1) {
        return refuse(&database->report, SQLITE_IOERR_WRITE, "write: a database in WAL mode; take it out of WAL mode before it is copied");
    }
    return SQLITE_OK;
}

static int check_write(struct database *database, const uint8_t *bytes, int amount, sqlite3_int64 offset) {
    if (database->lock < SQLITE_LOCK_RESERVED) return refuse(&database->report, SQLITE_READONLY, "write: the connection has no lock for writing");
    if (amount != PAGE || offset % PAGE) return refuse(&database->report, SQLITE_IOERR_WRITE, "write: pages have %d bytes", PAGE);
    if (offset / PAGE >= YIELDCLEAT_LAST_PAGE) {
        return refuse(&database->report, SQLITE_FULL, "write: a volume has %d pages", YIELDCLEAT_LAST_PAGE);
    }
    return offset == 0 ? check_start(database, bytes) : SQLITE_OK;
}

static int database_write(sqlite3_file *file, const void *from, int amount, sqlite3_int64 offset) {
    struct database *database = of(file);
    int code = check_write(database, from, amount, offset);
    if (code) return code;
    uint32_t number = (uint32_t)(offset / PAGE) + 1;
    struct page *page = pages_find(&database->pages, number);
    bool is_new = !page;
    if (is_new) page = pages_add(&database->pages, number);
    if (!page || !page_put(&database->pages, page, from, is_new)) {
        return refuse(&database->report, SQLITE_IOERR_NOMEM, "write: out of memory");
    }
    if (number > database->size) database->size = number;
    return SQLITE_OK;
}

static int database_truncate(sqlite3_file *file, sqlite3_int64 size) {
    struct database *database = of(file);
    if (size % PAGE || size / PAGE > YIELDCLEAT_LAST_PAGE) {
        return refuse(&database->report, SQLITE_IOERR_TRUNCATE, "truncate: pages have %d bytes", PAGE);
    }
    database->size = (uint32_t)(size / PAGE);
    pages_cut(&database->pages, database->size);
    return SQLITE_OK;
}

static int database_sync(sqlite3_file *file, int flags) {
    (void)flags;
    return commit_sync(of(file));
}

/* ---- the file */

static int database_close(sqlite3_file *file) {
    struct database *database = of(file);
    database_unlock(file, SQLITE_LOCK_NONE);
    turn_leave(database->engine, &database->member);
    pages_cut(&database->pages, 0);
    engine_close(database->engine, !database->address.is_read_only);
    file->pMethods = 0;
    return SQLITE_OK;
}

static int database_sector_size(sqlite3_file *file) {
    (void)file;
    return PAGE;
}

/* A commit is whole or absent, whatever it writes. */
static int database_characteristics(sqlite3_file *file) {
    (void)file;
    return SQLITE_IOCAP_ATOMIC | SQLITE_IOCAP_SAFE_APPEND | SQLITE_IOCAP_SEQUENTIAL | SQLITE_IOCAP_POWERSAFE_OVERWRITE |
           SQLITE_IOCAP_BATCH_ATOMIC;
}

static const sqlite3_io_methods methods = {
    .iVersion = 1, /* no shared memory, so no write-ahead log */
    .xClose = database_close,
    .xRead = database_read,
    .xWrite = database_write,
    .xTruncate = database_truncate,
    .xSync = database_sync,
    .xFileSize = database_file_size,
    .xLock = database_lock,
    .xUnlock = database_unlock,
    .xCheckReservedLock = database_check_reserved,
    .xFileControl = database_control,
    .xSectorSize = database_sector_size,
    .xDeviceCharacteristics = database_characteristics,
};

int database_open(const char *name, struct database *database, int flags, int *out_flags) {
    *database = (struct database){0};
    int code = read_address(name, flags, &database->address, &database->report);
    if (code) return code;
    bool is_read_only = database->address.is_read_only;
    struct rights rights = {.may_write = !is_read_only, .may_create = !is_read_only && flags & SQLITE_OPEN_CREATE};
    code = engine_open(name, &database->address, rights, &database->engine, &database->report);
    if (code) return code;
    turn_join(database->engine, &database->member);
    if (out_flags && is_read_only) *out_flags = (flags & ~(SQLITE_OPEN_READWRITE | SQLITE_OPEN_CREATE)) | SQLITE_OPEN_READONLY;
    if (out_flags && !is_read_only) *out_flags = flags;
    database->file.pMethods = &methods;
    return SQLITE_OK;
}
