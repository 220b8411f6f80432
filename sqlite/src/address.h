/* What the URI of a database says beside its path. */
#ifndef ADDRESS_H
#define ADDRESS_H

#include "faults.h"

struct address {
    uint64_t point;        /* `point=N`; YIELDCLEAT_FOLLOW otherwise */
    bool is_read_only;     /* there is a `point`, which may be `latest`; or SQLite opens it for reading */
    uint32_t keep;         /* `keep=N`: commits whose points stay readable, about; 0 is all */
    uint32_t milliseconds; /* `timeout=N` of a call of the volume; 0 is the volume's default */
};

/* Reads the parameters of a database's name and the flags, as xOpen has them. SQLITE_CANTOPEN where one is none that this VFS can serve. */
int read_address(const char *name, int flags, struct address *address, struct report *report);

#endif
