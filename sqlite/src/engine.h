/* What the connections of a process to one volume share: a handle that reads, one that writes, and whose turn it is. A writer stays after
 * the last connection, for the next one of the process: each opening for writing spends epochs. */
#ifndef ENGINE_H
#define ENGINE_H

#include <sqlite3ext.h>
#include <sys/types.h>

#include "address.h"

/* A handle of the volume, which is closed once it is retired and nobody uses it. */
struct handle {
    struct yieldcleat_volume *volume;
    unsigned users;
    bool is_retired;
    struct handle *next; /* that is to be closed */
};

/* Which commit is read. The point of a commit that was lost may become that of another one, so a point says which only together with the
 * writers that were lost before. */
struct snapshot {
    uint64_t point;
    unsigned losses; /* of the process, until it was taken */
    bool is_durable; /* for certain; else it may be lost with the writer */
};

/* A connection's part: the snapshot that it reads, and how many fences of writers there had been when it joined. */
struct member {
    struct member *next;
    bool reads;
    uint64_t point;
    unsigned losses; /* until the snapshot was taken */
    unsigned fences;
};

struct engine {
    struct engine *next;
    char *place;
    uint64_t point; /* of the past, or YIELDCLEAT_FOLLOW */
    pid_t process;  /* whose handles these are: a forked child has no use for them, and leaves them alone */
    unsigned connections;
    struct yieldcleat_options options;
    sqlite3_mutex *opening; /* held while a writer is opened, and never together with */
    sqlite3_mutex *mutex;   /* which guards all below */
    unsigned may_write;   /* of the connections; and */
    bool is_idle;         /* there was none just now */
    struct handle *reader, *writer;
    struct handle *unused; /* to be closed; null while nobody holds the mutex */
    struct member *members;
    const struct member *owner; /* who is in a write transaction */
    uint64_t published;         /* of the writer: its newest commit that the other connections see */
    unsigned losses, fences;    /* writers that were lost, and those of them that were fenced */
};

/* What a connection may do to the volume. */
struct rights {
    bool may_write, may_create;
};

/* The engine of a volume, made and opened where the process has none yet; the parameters of the first connection count. */
int engine_open(const char *place, const struct address *address, struct rights rights, struct engine **engine, struct report *report);

/* Gives an engine back; the last connection closes its handles, unless one of them writes. */
void engine_close(struct engine *engine, bool may_write);

/* The oldest snapshot that a connection of the process reads of this volume, also one that was opened at a point of the past. UINT64_MAX
 * without any; 0 where it is not known, since such a point is just being opened. */
uint64_t engine_oldest(const struct engine *engine);

/* The writer where there is one, or else the reader, for a call of the volume. */
struct handle *engine_borrow(struct engine *engine);

/* The writer, or null. With a snapshot it is null also where a writer was lost since that was taken: another process may have written
 * after it what the snapshot has not, and perhaps with its point. */
struct handle *engine_borrow_writer(struct engine *engine, const struct snapshot *snapshot);

/* Gives a handle back with the fault of the call. True where it was a writer that has ended: the caller may try again, with the reader. */
bool engine_return(struct engine *engine, struct handle *handle, enum yieldcleat_fault fault);

/* Gives up the writer: it has ended, or a commit of it is in doubt. */
void engine_lose_writer(struct engine *engine, const struct handle *handle, enum yieldcleat_fault fault);

/* Opens the volume for writing where the process has no writer. */
enum yieldcleat_fault engine_open_writer(struct engine *engine);

/* Whether a fault of reading says that enough nodes answer, and no durable commit can be proved: an engine has died while it opened the
 * volume. Another opening for writing ends that. */
bool is_unproved(enum yieldcleat_fault fault);

#endif
