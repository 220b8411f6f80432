/* The faults that a test asks of the double, and the last error of a thread. */
#ifndef MEMORY_FAULTS_H
#define MEMORY_FAULTS_H

#include "yieldcleat_volume.h"

enum call { OPEN_WRITER, OPEN_READER, NEWEST, HEADER, READ, STAGE, COMMIT, WAIT, ADVANCE, CLOSE, CALLS };

/* Sets the last error of this thread, and returns its fault. */
enum yieldcleat_fault fail(enum yieldcleat_fault fault, uint64_t point);

/* Counts a call. The fault that it is to end with, which is set then, or YIELDCLEAT_OK. Kills the process where a test asks for that. */
enum yieldcleat_fault begin(enum call call);

/* What a test asks of the next wait: 0 nothing, 1 a commit in doubt that is durable, -1 one that is not. */
int doubt(void);

/* Sleeps as long as a wait or a closing is to take. */
void delay(void);

/* How many bytes of those that are about to be written are written before the process is killed; -1 where it lives. */
long bytes_before_death(void);

/* Kills the process. */
void die(void);

int nodes_that_answer(void);

/* How often the writers of the process were ended. */
int endings_so_far(void);

#endif
