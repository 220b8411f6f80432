/* Faults of the volume and refusals of the VFS, in SQLite's codes and in words. */
#ifndef FAULTS_H
#define FAULTS_H

#include "yieldcleat_volume.h"

enum { REPORT_BYTES = 400 };

/* The last error of a connection. */
struct report {
    int code;
    unsigned serial; /* later errors have greater ones */
    char text[REPORT_BYTES];
};

/* What a call of the volume was for; it decides which code its fault has. */
enum purpose { OPENING, LOCKING, READING, WRITING, SYNCING };

/* Why a transaction over several databases is refused: super-journals, which would make it atomic, are files. */
#define SEVERAL_DATABASES "commit: a transaction that writes to a volume and to another database is not atomic; write to one of them"

/* Writes down and logs a refusal, and returns its code. `report` is null where no connection is known. */
int refuse(struct report *report, int code, const char *format, ...) __attribute__((format(printf, 3, 4)));

/* The same of the fault that a call of the volume on this thread has just returned. */
int refuse_fault(struct report *report, enum purpose purpose, enum yieldcleat_fault fault);

/* The last error on this thread, of whatever connection: an opening that fails leaves no connection to ask. */
const struct report *last_report(void);

/* The last one on this thread that no connection has. */
const struct report *common_report(void);

#endif
