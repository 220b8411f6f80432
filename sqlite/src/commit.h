/* Commits: what a connection has changed becomes one mini-transaction of the volume. */
#ifndef COMMIT_H
#define COMMIT_H

#include "database.h"

/* Sends what has changed, and waits for nothing: the view is that commit then. Without changes it does nothing. Where it fails the view
 * is what it was before the transaction, and the changes are dropped: in exclusive mode SQLite may keep the lock and write nothing back.
 * SQLITE_IOERR_LOCK where another engine has fenced this one, SQLITE_IOERR_FSYNC where the commit is in doubt. */
int commit_send(struct database *database);

/* Waits until what was sent is durable. Where that fails the commit is in doubt, the process gives its writer up, and the view is what it
 * was before the transaction. */
int commit_sync(struct database *database);

/* The transaction has ended well: its state is what the next one may return to, and old points are given up now and then. */
void commit_end(struct database *database);

#endif
