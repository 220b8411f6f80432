#include "memory_faults.h"

#include <pthread.h>
#include <signal.h>
#include <stdio.h>
#include <string.h>
#include <unistd.h>

#include "memory_state.h"
#include "memory_volume.h"

#define HOOK __attribute__((visibility("default")))

static const char *const names[CALLS] = {"open_writer", "open_reader", "newest", "header", "read", "stage", "commit", "wait", "advance", "close"};

struct plan {
    int skip, times, fault, calls;
};

static pthread_mutex_t mutex = PTHREAD_MUTEX_INITIALIZER; /* guards all below */
static struct plan plans[CALLS];
static int answering = NODES, next_doubt, slowness, skip_writes = -1, endings;
static long bytes_of_death;

static _Thread_local struct yieldcleat_error error;

static struct plan *plan_of(const char *call) {
    for (size_t place = 0; place < CALLS; place++) {
        if (!strcmp(names[place], call)) return &plans[place];
    }
    return &plans[0];
}

/* ---- what a test asks */

HOOK void memory_volume_fail(const char *call, int skip, int times, int fault) {
    pthread_mutex_lock(&mutex);
    struct plan *plan = plan_of(call);
    *plan = (struct plan){skip, times, fault, plan->calls};
    pthread_mutex_unlock(&mutex);
}

static void set(int *value, int to) {
    pthread_mutex_lock(&mutex);
    *value = to;
    pthread_mutex_unlock(&mutex);
}

HOOK void memory_volume_nodes(int count) { set(&answering, count); }

HOOK void memory_volume_doubt(int is_durable) { set(&next_doubt, is_durable ? 1 : -1); }

HOOK void memory_volume_delay(int microseconds) { set(&slowness, microseconds); }

HOOK void memory_volume_die(int skip, long bytes) {
    set(&skip_writes, skip);
    pthread_mutex_lock(&mutex);
    bytes_of_death = bytes;
    pthread_mutex_unlock(&mutex);
}

HOOK void memory_volume_end(void) {
    pthread_mutex_lock(&mutex);
    endings++;
    pthread_mutex_unlock(&mutex);
}

HOOK int memory_volume_calls(const char *call) {
    pthread_mutex_lock(&mutex);
    int calls = plan_of(call)->calls;
    pthread_mutex_unlock(&mutex);
    return calls;
}

HOOK void memory_volume_reset(void) {
    pthread_mutex_lock(&mutex);
    memset(plans, 0, sizeof plans);
    answering = NODES;
    next_doubt = slowness = 0;
    skip_writes = -1;
    pthread_mutex_unlock(&mutex);
}

/* ---- what the double does about it */

void die(void) { kill(getpid(), SIGKILL); }

int endings_so_far(void) {
    pthread_mutex_lock(&mutex);
    int count = endings;
    pthread_mutex_unlock(&mutex);
    return count;
}

int nodes_that_answer(void) {
    pthread_mutex_lock(&mutex);
    int count = answering;
    pthread_mutex_unlock(&mutex);
    return count;
}

int doubt(void) {
    pthread_mutex_lock(&mutex);
    int value = next_doubt;
    next_doubt = 0;
    pthread_mutex_unlock(&mutex);
    return value;
}

void delay(void) {
    pthread_mutex_lock(&mutex);
    int microseconds = slowness;
    pthread_mutex_unlock(&mutex);
    if (microseconds > 0) usleep((useconds_t)microseconds);
}

long bytes_before_death(void) {
    pthread_mutex_lock(&mutex);
    long bytes = skip_writes == 0 ? bytes_of_death : -1;
    if (skip_writes >= 0) skip_writes--;
    pthread_mutex_unlock(&mutex);
    return bytes;
}

static void describe(void) {
    static const char *const texts[] = {
        [YIELDCLEAT_OK] = "", [YIELDCLEAT_FENCED] = "another engine has opened the volume for writing",
        [YIELDCLEAT_FULL] = "the volume is full", [YIELDCLEAT_NOT_FOUND] = "there is no volume at this place",
        [YIELDCLEAT_IO] = "a node failed", [YIELDCLEAT_NO_MEMORY] = "out of memory", [YIELDCLEAT_MISUSE] = "the call is a misuse",
    };
    char *to = error.message;
    size_t room = sizeof error.message;
    unsigned long long point = error.point;
    switch (error.fault) {
    case YIELDCLEAT_NO_QUORUM: snprintf(to, room, "no write quorum: %u of %d nodes answer", error.have, NODES); break;
    case YIELDCLEAT_TIMEOUT: snprintf(to, room, "no write quorum in time: %u of %d nodes answer", error.have, NODES); break;
    case YIELDCLEAT_BELOW: snprintf(to, room, "the point is older than %llu, the oldest one that is kept", point); break;
    case YIELDCLEAT_ABOVE: snprintf(to, room, "the point is above %llu, the newest one", point); break;
    default: snprintf(to, room, "%s", texts[error.fault]);
    }
}

enum yieldcleat_fault fail(enum yieldcleat_fault fault, uint64_t point) {
    bool counts = fault == YIELDCLEAT_NO_QUORUM || fault == YIELDCLEAT_TIMEOUT;
    error = (struct yieldcleat_error){.fault = fault, .point = point};
    if (counts) error.need = QUORUM;
    if (counts) error.have = (uint32_t)nodes_that_answer();
    if (fault) describe();
    return fault;
}

/* Whether a call needs more nodes than those that answer. */
static bool lacks_nodes(enum call call) {
    int count = nodes_that_answer();
    if (call == READ || call == HEADER) return count == 0;
    return call != STAGE && call != WAIT && call != CLOSE && count < QUORUM;
}

enum yieldcleat_fault begin(enum call call) {
    pthread_mutex_lock(&mutex);
    struct plan *plan = &plans[call];
    plan->calls++;
    int fault = plan->times > 0 && plan->skip == 0 ? plan->fault : 0;
    if (fault) plan->times--;
    if (plan->times > 0 && plan->skip > 0) plan->skip--;
    pthread_mutex_unlock(&mutex);
    if (fault < 0) die();
    if (fault) return fail((enum yieldcleat_fault)fault, 0);
    return lacks_nodes(call) ? fail(YIELDCLEAT_NO_QUORUM, 0) : YIELDCLEAT_OK;
}

void yieldcleat_volume_last_error(struct yieldcleat_error *to) { *to = error; }
