/* A double of a volume, for tests alone: its pages are in memory, and a file of mini-transactions stands in for six nodes, so that other
 * processes and later openings see what was committed. It keeps no promise of a real volume beyond its interface: the next writer uses
 * the points of lost commits again. The calls below make it fail; they hold for all handles of the process. A call of the interface is
 * named as in the header, without `yieldcleat_volume_`. */
#ifndef MEMORY_VOLUME_H
#define MEMORY_VOLUME_H

#include <stdint.h>

/* Of the next calls of a name the first `skip` are as ever, and so many then fail with a fault; with fault -1 the process is killed. */
void memory_volume_fail(const char *call, int skip, int times, int fault);

/* So many of the six nodes answer. With fewer than four nothing is opened, committed or known to be the newest; with none nothing is read. */
void memory_volume_nodes(int answering);

/* The next wait ends with YIELDCLEAT_TIMEOUT. The commit is durable all the same, or else nowhere unless somebody waits again. */
void memory_volume_doubt(int is_durable);

/* The process is killed while it writes to the file the `skip` + 1st time, after a number of bytes; all of them are written where they
 * are fewer. */
void memory_volume_die(int skip, long bytes);

/* Each wait and each closing takes so long. */
void memory_volume_delay(int microseconds);

/* The process's writers have ended: all their calls fail with YIELDCLEAT_IO from now on. */
void memory_volume_end(void);

/* How often a call was made. */
int memory_volume_calls(const char *call);

/* No faults, and no calls counted. */
void memory_volume_reset(void);

#endif
