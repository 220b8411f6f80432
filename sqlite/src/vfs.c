#include "vfs.h"

#include <string.h>

#include "database.h"
#include "journal.h"
SQLITE_EXTENSION_INIT3

static sqlite3_vfs *real(sqlite3_vfs *vfs) { return vfs->pAppData; }

static bool ends_with(const char *name, const char *end) {
    size_t length = strlen(name), tail = strlen(end);
    return length >= tail && !strcmp(name + length - tail, end);
}

/* Whether a name is that of a file which SQLite keeps beside a database, and a volume has none of. */
static bool is_beside(const char *name) { return ends_with(name, "-journal") || ends_with(name, "-wal"); }

/* ---- files */

static int vfs_open(sqlite3_vfs *vfs, const char *name, sqlite3_file *file, int flags, int *out_flags) {
    file->pMethods = 0;
    if (flags & SQLITE_OPEN_MAIN_DB && name) return database_open(name, (struct database *)file, flags, out_flags);
    if (flags & SQLITE_OPEN_MAIN_JOURNAL) {
        journal_open((struct journal *)file);
        if (out_flags) *out_flags = flags;
        return SQLITE_OK;
    }
    if (flags & SQLITE_OPEN_WAL) return refuse(0, SQLITE_CANTOPEN, "open: a volume has no write-ahead log");
    if (flags & SQLITE_OPEN_SUPER_JOURNAL) return refuse(0, SQLITE_CANTOPEN, SEVERAL_DATABASES);
    return real(vfs)->xOpen(real(vfs), name, file, flags, out_flags);
}

static int vfs_delete(sqlite3_vfs *vfs, const char *name, int syncs) {
    return is_beside(name) ? SQLITE_OK : real(vfs)->xDelete(real(vfs), name, syncs);
}

static int vfs_access(sqlite3_vfs *vfs, const char *name, int flags, int *has) {
    if (!is_beside(name)) return real(vfs)->xAccess(real(vfs), name, flags, has);
    *has = 0;
    return SQLITE_OK;
}

static int vfs_full_path(sqlite3_vfs *vfs, const char *name, int room, char *path) {
    return real(vfs)->xFullPathname(real(vfs), name, room, path);
}

/* ---- what the default VFS does */

static void *vfs_dl_open(sqlite3_vfs *vfs, const char *name) { return real(vfs)->xDlOpen(real(vfs), name); }

static void vfs_dl_error(sqlite3_vfs *vfs, int room, char *message) { real(vfs)->xDlError(real(vfs), room, message); }

static void (*vfs_dl_symbol(sqlite3_vfs *vfs, void *library, const char *name))(void) {
    return real(vfs)->xDlSym(real(vfs), library, name);
}

static void vfs_dl_close(sqlite3_vfs *vfs, void *library) { real(vfs)->xDlClose(real(vfs), library); }

static int vfs_randomness(sqlite3_vfs *vfs, int room, char *bytes) { return real(vfs)->xRandomness(real(vfs), room, bytes); }

static int vfs_sleep(sqlite3_vfs *vfs, int microseconds) { return real(vfs)->xSleep(real(vfs), microseconds); }

static int vfs_current_time(sqlite3_vfs *vfs, double *days) { return real(vfs)->xCurrentTime(real(vfs), days); }

static int vfs_current_time_int64(sqlite3_vfs *vfs, sqlite3_int64 *milliseconds) {
    if (real(vfs)->iVersion >= 2 && real(vfs)->xCurrentTimeInt64) return real(vfs)->xCurrentTimeInt64(real(vfs), milliseconds);
    double days = 0;
    int code = real(vfs)->xCurrentTime(real(vfs), &days);
    *milliseconds = (sqlite3_int64)(days * 86400000.0);
    return code;
}

static int vfs_last_error(sqlite3_vfs *vfs, int room, char *message) {
    (void)vfs;
    if (room > 0) sqlite3_snprintf(room, message, "%s", last_report()->text);
    return last_report()->code;
}

/* ---- registering */

static sqlite3_vfs this_vfs = {
    .iVersion = 2,
    .zName = "yieldcleat",
    .xOpen = vfs_open,
    .xDelete = vfs_delete,
    .xAccess = vfs_access,
    .xFullPathname = vfs_full_path,
    .xDlOpen = vfs_dl_open,
    .xDlError = vfs_dl_error,
    .xDlSym = vfs_dl_symbol,
    .xDlClose = vfs_dl_close,
    .xRandomness = vfs_randomness,
    .xSleep = vfs_sleep,
    .xCurrentTime = vfs_current_time,
    .xGetLastError = vfs_last_error,
    .xCurrentTimeInt64 = vfs_current_time_int64,
};

int vfs_register(void) {
    sqlite3_vfs *default_vfs = sqlite3_vfs_find(0);
    if (sqlite3_vfs_find(this_vfs.zName)) return SQLITE_OK;
    if (!default_vfs) return SQLITE_NOTFOUND;
    int largest = sizeof(struct database) > sizeof(struct journal) ? sizeof(struct database) : sizeof(struct journal);
    this_vfs.szOsFile = default_vfs->szOsFile > largest ? default_vfs->szOsFile : largest;
    this_vfs.mxPathname = default_vfs->mxPathname;
    this_vfs.pAppData = default_vfs;
    return sqlite3_vfs_register(&this_vfs, 0);
}
