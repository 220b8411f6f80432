#include "faults.h"

#include <sqlite3ext.h>
#include <stdarg.h>
#include <stdatomic.h>
#include <stddef.h>
SQLITE_EXTENSION_INIT3

static _Thread_local struct report latest, common;
static atomic_uint serials;

static const char *const words[] = {
    [OPENING] = "open", [LOCKING] = "lock for writing", [READING] = "read", [WRITING] = "commit", [SYNCING] = "commit in doubt",
};

static const int codes[] = {
    [OPENING] = SQLITE_CANTOPEN,    [LOCKING] = SQLITE_IOERR_LOCK,  [READING] = SQLITE_IOERR_READ,
    [WRITING] = SQLITE_IOERR_WRITE, [SYNCING] = SQLITE_IOERR_FSYNC,
};

static int keep(struct report *report, int code) {
    latest.code = code;
    latest.serial = atomic_fetch_add(&serials, 1) + 1;
    *(report ? report : &common) = latest;
    sqlite3_log(code, "yieldcleat: %s", latest.text);
    return code;
}

int refuse(struct report *report, int code, const char *format, ...) {
    va_list arguments;
    va_start(arguments, format);
    sqlite3_vsnprintf(sizeof latest.text, latest.text, format, arguments);
    va_end(arguments);
    return keep(report, code);
}

static int code_of(enum purpose purpose, enum yieldcleat_fault fault) {
    switch (fault) {
    case YIELDCLEAT_FENCED: return purpose == WRITING || purpose == SYNCING ? SQLITE_IOERR_LOCK : codes[purpose];
    case YIELDCLEAT_FULL: return SQLITE_FULL;
    case YIELDCLEAT_NO_MEMORY: return purpose == SYNCING ? codes[purpose] : SQLITE_IOERR_NOMEM;
    case YIELDCLEAT_MISUSE: return SQLITE_INTERNAL;
    default: return codes[purpose];
    }
}

int refuse_fault(struct report *report, enum purpose purpose, enum yieldcleat_fault fault) {
    struct yieldcleat_error error;
    yieldcleat_volume_last_error(&error);
    const char *advice = "", *message = fault == YIELDCLEAT_NO_MEMORY ? "out of memory" : error.message; /* perhaps of the VFS itself */
    if (fault == YIELDCLEAT_FENCED) advice = "; open the database again to write";
    if (fault == YIELDCLEAT_BELOW && purpose == READING) advice = "; begin a new transaction";
    sqlite3_snprintf(sizeof latest.text, latest.text, "%s: %s%s", words[purpose], message, advice);
    return keep(report, code_of(purpose, fault));
}

const struct report *last_report(void) { return &latest; }

const struct report *common_report(void) { return &common; }
