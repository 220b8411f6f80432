/* What a program may ask of a database that the VFS `yieldcleat` serves, by sqlite3_file_control. In SQL the same is
 * `PRAGMA yieldcleat_error` and `PRAGMA yieldcleat_point`; `PRAGMA yieldcleat_status` has no file control. */
#ifndef YIELDCLEAT_SQLITE_H
#define YIELDCLEAT_SQLITE_H

enum {
    /* Sets a `const char *`: why the connection's last error came, or an empty text. It is valid until the connection's next call. */
    YIELDCLEAT_FCNTL_MESSAGE = 0x59430001,
    /* Sets a `sqlite3_uint64`: the point of the volume that the connection reads, or read last. */
    YIELDCLEAT_FCNTL_POINT = 0x59430002
};

#endif
