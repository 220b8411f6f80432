/* Whose turn it is: snapshots of readers, and the one write transaction of a process. */
#ifndef TURNS_H
#define TURNS_H

#include "engine.h"

/* Counts a connection in, or out. */
void turn_join(struct engine *engine, struct member *member);
void turn_leave(struct engine *engine, struct member *member);

/* Begins to read at the newest commit: the process's own, or else the newest durable one. */
int turn_read(struct engine *engine, struct member *member, struct snapshot *newest, struct report *report);

/* Ends that. */
void turn_end_read(struct engine *engine, struct member *member);

/* The connection reads at another point from now on: that of its own commit, or the one before it. */
void turn_move(struct engine *engine, struct member *member, uint64_t point);

/* The newest commit for a read outside of a transaction. */
enum yieldcleat_fault turn_newest(struct engine *engine, struct snapshot *newest);

/* Whether two snapshots are of the same commit for certain. */
bool is_same_commit(const struct snapshot *one, const struct snapshot *other);

/* Begins a write transaction on a snapshot; opens the volume for writing where the process has no writer. SQLITE_BUSY where another
 * connection of the process is in one, SQLITE_BUSY_SNAPSHOT where the snapshot is not the newest commit or a writer was lost since,
 * SQLITE_IOERR_LOCK where another process has fenced this one, or where the volume cannot be opened. */
int turn_write(struct engine *engine, struct member *member, struct report *report);

/* Shows the writing connection's newest commit to the others, unless its writer was lost, and ends its write transaction where `ends`. */
void turn_publish(struct engine *engine, const struct member *member, bool ends);

/* Whether another connection of the process is in a write transaction. */
bool turn_is_taken(struct engine *engine, const struct member *member);

#endif
