#include "journal.h"

#include <string.h>

#include "faults.h"
SQLITE_EXTENSION_INIT3

enum { LEAST_ROOM = 1 << 16 };

/* With these bytes alone SQLite ends the name of a super-journal in a journal. */
static const uint8_t end_of_name[8] = {0xd9, 0xd5, 0x05, 0xf9, 0x20, 0xa1, 0x63, 0xd7};

static struct journal *of(sqlite3_file *file) { return (struct journal *)file; }

static int journal_close(sqlite3_file *file) {
    sqlite3_free(of(file)->bytes);
    *of(file) = (struct journal){0};
    return SQLITE_OK;
}

static int journal_read(sqlite3_file *file, void *to, int amount, sqlite3_int64 offset) {
    const struct journal *journal = of(file);
    sqlite3_int64 left = offset < journal->length ? journal->length - offset : 0;
    size_t there = (size_t)(left < amount ? left : amount);
    if (there) memcpy(to, journal->bytes + offset, there);
    memset((uint8_t *)to + there, 0, (size_t)amount - there);
    return there == (size_t)amount ? SQLITE_OK : SQLITE_IOERR_SHORT_READ;
}

static int make_room(struct journal *journal, sqlite3_int64 length) {
    sqlite3_int64 room = journal->room ? journal->room : LEAST_ROOM;
    while (room < length) room *= 2;
    if (room == journal->room) return SQLITE_OK;
    uint8_t *bytes = sqlite3_realloc64(journal->bytes, (sqlite3_uint64)room);
    if (!bytes) return SQLITE_IOERR_NOMEM;
    journal->bytes = bytes;
    journal->room = room;
    return SQLITE_OK;
}

static int journal_write(sqlite3_file *file, const void *from, int amount, sqlite3_int64 offset) {
    struct journal *journal = of(file);
    sqlite3_int64 end = offset + amount;
    if (amount == sizeof end_of_name && !memcmp(from, end_of_name, sizeof end_of_name)) return refuse(0, SQLITE_IOERR_WRITE, SEVERAL_DATABASES);
    int code = make_room(journal, end);
    if (code) return code;
    if (offset > journal->length) memset(journal->bytes + journal->length, 0, (size_t)(offset - journal->length));
    memcpy(journal->bytes + offset, from, (size_t)amount);
    if (end > journal->length) journal->length = end;
    return SQLITE_OK;
}

static int journal_truncate(sqlite3_file *file, sqlite3_int64 size) {
    struct journal *journal = of(file);
    if (size < journal->length) journal->length = size;
    return SQLITE_OK;
}

static int journal_file_size(sqlite3_file *file, sqlite3_int64 *size) {
    *size = of(file)->length;
    return SQLITE_OK;
}

static int journal_sync(sqlite3_file *file, int flags) {
    (void)file;
    (void)flags;
    return SQLITE_OK;
}

/* SQLite locks no journal. */
static int journal_lock(sqlite3_file *file, int lock) {
    (void)file;
    (void)lock;
    return SQLITE_OK;
}

static int journal_check_reserved(sqlite3_file *file, int *is_reserved) {
    (void)file;
    *is_reserved = 0;
    return SQLITE_OK;
}

static int journal_control(sqlite3_file *file, int operation, void *argument) {
    (void)file;
    (void)operation;
    (void)argument;
    return SQLITE_NOTFOUND;
}

static int journal_sector_size(sqlite3_file *file) {
    (void)file;
    return 512;
}

static int journal_characteristics(sqlite3_file *file) {
    (void)file;
    return SQLITE_IOCAP_SAFE_APPEND | SQLITE_IOCAP_SEQUENTIAL | SQLITE_IOCAP_POWERSAFE_OVERWRITE;
}

static const sqlite3_io_methods methods = {
    .iVersion = 1,
    .xClose = journal_close,
    .xRead = journal_read,
    .xWrite = journal_write,
    .xTruncate = journal_truncate,
    .xSync = journal_sync,
    .xFileSize = journal_file_size,
    .xLock = journal_lock,
    .xUnlock = journal_lock,
    .xCheckReservedLock = journal_check_reserved,
    .xFileControl = journal_control,
    .xSectorSize = journal_sector_size,
    .xDeviceCharacteristics = journal_characteristics,
};

void journal_open(struct journal *journal) { *journal = (struct journal){.file.pMethods = &methods}; }
