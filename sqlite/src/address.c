#include "address.h"

#include <errno.h>
#include <sqlite3ext.h>
#include <stdlib.h>
#include <string.h>
SQLITE_EXTENSION_INIT3

enum { KEEP = 1024 };

/* A parameter that is a number up to a greatest one; where it is absent the number stays as it is. */
static int read_number(const char *name, const char *parameter, uint64_t most, uint64_t *number, struct report *report) {
    const char *text = sqlite3_uri_parameter(name, parameter);
    if (!text) return SQLITE_OK;
    char *end = 0;
    errno = 0;
    unsigned long long value = strtoull(text, &end, 10);
    if (*text >= '0' && *text <= '9' && !*end && !errno && value <= most) {
        *number = value;
        return SQLITE_OK;
    }
    return refuse(report, SQLITE_CANTOPEN, "open: %s=%s must be a number up to %llu", parameter, text, (unsigned long long)most);
}

/* Without locks a connection has no snapshot, and each read would be of another state. */
static int require_locks(const char *name, struct report *report) {
    if (!sqlite3_uri_boolean(name, "nolock", 0) && !sqlite3_uri_boolean(name, "immutable", 0)) return SQLITE_OK;
    return refuse(report, SQLITE_CANTOPEN, "open: nolock and immutable leave a connection without a snapshot; use point=N");
}

int read_address(const char *name, int flags, struct address *address, struct report *report) {
    const char *point = sqlite3_uri_parameter(name, "point");
    bool is_latest = point && !strcmp(point, "latest");
    uint64_t keep = KEEP, milliseconds = 0;
    *address = (struct address){.point = YIELDCLEAT_FOLLOW, .is_read_only = point || flags & SQLITE_OPEN_READONLY};
    int code = require_locks(name, report);
    if (!code && !is_latest) code = read_number(name, "point", YIELDCLEAT_FOLLOW - 1, &address->point, report);
    if (!code) code = read_number(name, "keep", INT32_MAX, &keep, report);
    if (!code) code = read_number(name, "timeout", INT32_MAX, &milliseconds, report);
    address->keep = (uint32_t)keep;
    address->milliseconds = (uint32_t)milliseconds;
    return code;
}
