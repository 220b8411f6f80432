/* The loadable extension: `.load ./yieldcleat` registers the VFS for the whole process, and for as long as it lives. */
#include <sqlite3ext.h>

#include "vfs.h"
SQLITE_EXTENSION_INIT1

enum { LEAST_VERSION = 3020000 };

/* SQLite finds it by the file's name. */
__attribute__((visibility("default"))) int sqlite3_yieldcleat_init(sqlite3 *connection, char **message, const sqlite3_api_routines *api);

int sqlite3_yieldcleat_init(sqlite3 *connection, char **message, const sqlite3_api_routines *api) {
    SQLITE_EXTENSION_INIT2(api)
    (void)connection;
    if (sqlite3_libversion_number() < LEAST_VERSION) {
        *message = sqlite3_mprintf("yieldcleat: SQLite is older than 3.20");
        return SQLITE_ERROR;
    }
    int code = vfs_register();
    return code ? code : SQLITE_OK_LOAD_PERMANENTLY;
}
