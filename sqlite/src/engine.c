#include "engine.h"

#include <string.h>
#include <unistd.h>
SQLITE_EXTENSION_INIT3

static struct engine *engines; /* guarded by the mutex that SQLite has for applications */

static sqlite3_mutex *list_mutex(void) { return sqlite3_mutex_alloc(SQLITE_MUTEX_STATIC_APP1); }

/* Makes a handle out of an open volume, or closes the volume and returns null: there is no memory. */
static struct handle *handle_of(struct yieldcleat_volume *volume) {
    struct handle *handle = sqlite3_malloc64(sizeof *handle);
    if (handle) *handle = (struct handle){.volume = volume};
    if (!handle) yieldcleat_volume_close(volume);
    return handle;
}

/* Leaves the engine's mutex, and then closes what nobody uses any more: where nodes are silent that takes long, and no other connection is
 * to wait for it. */
static void leave(struct engine *engine) {
    struct handle *handle = engine->unused, *next = 0;
    engine->unused = 0;
    sqlite3_mutex_leave(engine->mutex);
    for (; handle; handle = next) {
        next = handle->next;
        yieldcleat_volume_close(handle->volume);
        sqlite3_free(handle);
    }
}

/* Has `leave` close a handle that is retired and that nobody uses. */
static void close_unused(struct engine *engine, struct handle *handle) {
    if (!handle->is_retired || handle->users) return;
    handle->next = engine->unused;
    engine->unused = handle;
}

static void retire(struct engine *engine, struct handle **place) {
    struct handle *handle = *place;
    if (!handle) return;
    *place = 0;
    handle->is_retired = true;
    close_unused(engine, handle);
}

struct handle *engine_borrow(struct engine *engine) {
    sqlite3_mutex_enter(engine->mutex);
    struct handle *handle = engine->writer ? engine->writer : engine->reader;
    handle->users++;
    sqlite3_mutex_leave(engine->mutex);
    return handle;
}

struct handle *engine_borrow_writer(struct engine *engine, const struct snapshot *snapshot) {
    sqlite3_mutex_enter(engine->mutex);
    bool is_other = snapshot && snapshot->losses != engine->losses;
    struct handle *handle = is_other ? 0 : engine->writer;
    if (handle) handle->users++;
    sqlite3_mutex_leave(engine->mutex);
    return handle;
}

/* What has ended a writer whose call had a fault: all its calls fail from now on. YIELDCLEAT_OK where it goes on. */
static enum yieldcleat_fault end_of(const struct handle *writer, enum yieldcleat_fault fault) {
    struct yieldcleat_status status;
    bool may_go_on = fault && fault != YIELDCLEAT_FENCED;
    return may_go_on ? yieldcleat_volume_status(writer->volume, &status) : fault;
}

bool engine_return(struct engine *engine, struct handle *handle, enum yieldcleat_fault fault) {
    enum yieldcleat_fault end = handle == engine->reader ? YIELDCLEAT_OK : end_of(handle, fault);
    bool again = end != YIELDCLEAT_OK;
    if (again) engine_lose_writer(engine, handle, end);
    sqlite3_mutex_enter(engine->mutex);
    handle->users--;
    close_unused(engine, handle);
    leave(engine);
    return again;
}

void engine_lose_writer(struct engine *engine, const struct handle *handle, enum yieldcleat_fault fault) {
    sqlite3_mutex_enter(engine->mutex);
    if (handle == engine->writer) {
        retire(engine, &engine->writer);
        engine->losses++;
        if (fault == YIELDCLEAT_FENCED) engine->fences++;
    }
    leave(engine);
}

/* ---- opening for writing */

static enum yieldcleat_fault open_writer(const struct engine *engine, bool may_create, struct handle **handle, uint64_t *point) {
    struct yieldcleat_options options = engine->options;
    struct yieldcleat_volume *volume = 0;
    options.may_create = may_create;
    enum yieldcleat_fault fault = yieldcleat_volume_open_writer(engine->place, &options, &volume);
    if (!fault) fault = yieldcleat_volume_newest(volume, point);
    if (fault) yieldcleat_volume_close(volume);
    else *handle = handle_of(volume);
    return !fault && !*handle ? YIELDCLEAT_NO_MEMORY : fault;
}

static void put_writer(struct engine *engine, struct handle *handle, uint64_t point) {
    sqlite3_mutex_enter(engine->mutex);
    engine->writer = handle;
    engine->published = point;
    sqlite3_mutex_leave(engine->mutex);
}

enum yieldcleat_fault engine_open_writer(struct engine *engine) {
    struct handle *handle = 0;
    uint64_t point = 0;
    enum yieldcleat_fault fault = YIELDCLEAT_OK;
    sqlite3_mutex_enter(engine->opening);
    sqlite3_mutex_enter(engine->mutex);
    bool has_writer = engine->writer; /* since another thread was quicker */
    sqlite3_mutex_leave(engine->mutex);
    if (!has_writer) fault = open_writer(engine, false, &handle, &point);
    if (handle) put_writer(engine, handle, point);
    sqlite3_mutex_leave(engine->opening);
    return fault;
}

bool is_unproved(enum yieldcleat_fault fault) {
    struct yieldcleat_error error;
    if (fault != YIELDCLEAT_NO_QUORUM) return false;
    yieldcleat_volume_last_error(&error);
    return error.have >= error.need;
}

/* ---- engines */

static void free_engine(struct engine *engine) {
    sqlite3_mutex_enter(engine->mutex);
    retire(engine, &engine->writer);
    retire(engine, &engine->reader);
    leave(engine);
    sqlite3_mutex_free(engine->opening);
    sqlite3_mutex_free(engine->mutex);
    sqlite3_free(engine->place);
    sqlite3_free(engine);
}

/* Waits for what synchronous=OFF did not wait for. */
static void settle(struct engine *engine) {
    struct handle *handle = engine_borrow_writer(engine, 0);
    if (!handle) return;
    sqlite3_mutex_enter(engine->mutex);
    uint64_t point = engine->published;
    sqlite3_mutex_leave(engine->mutex);
    enum yieldcleat_fault fault = yieldcleat_volume_wait(handle->volume, point, 0);
    if (fault) engine_lose_writer(engine, handle, fault);
    engine_return(engine, handle, YIELDCLEAT_OK);
}

static void unlink_engine(const struct engine *engine) {
    struct engine **link = &engines;
    while (*link != engine) link = &(*link)->next;
    *link = engine->next;
}

void engine_close(struct engine *engine, bool may_write) {
    sqlite3_mutex_enter(list_mutex());
    bool is_last = engine->connections == 1;
    sqlite3_mutex_leave(list_mutex());
    if (is_last) settle(engine);
    sqlite3_mutex_enter(list_mutex());
    sqlite3_mutex_enter(engine->mutex);
    engine->is_idle = --engine->connections == 0;
    engine->may_write -= may_write;
    bool ends = engine->is_idle && !engine->writer;
    sqlite3_mutex_leave(engine->mutex);
    if (ends) unlink_engine(engine);
    sqlite3_mutex_leave(list_mutex());
    if (ends) free_engine(engine);
}

static struct engine *make_engine(const char *place, const struct address *address) {
    struct engine *engine = sqlite3_malloc64(sizeof *engine);
    if (!engine) return 0;
    *engine = (struct engine){.point = address->point, .process = getpid(), .options.milliseconds = address->milliseconds};
    engine->place = sqlite3_mprintf("%s", place);
    engine->mutex = sqlite3_mutex_alloc(SQLITE_MUTEX_FAST);
    engine->opening = sqlite3_mutex_alloc(SQLITE_MUTEX_FAST);
    if (engine->place && engine->mutex && engine->opening) return engine;
    sqlite3_mutex_free(engine->opening);
    sqlite3_mutex_free(engine->mutex);
    sqlite3_free(engine->place);
    sqlite3_free(engine);
    return 0;
}

static bool is_engine_of(const struct engine *engine, const char *place, uint64_t point) {
    return engine->process == getpid() && engine->point == point && !strcmp(engine->place, place);
}

/* The engine in the list, or a new one that is in it from now on; null without memory. */
static struct engine *find_engine(const char *place, const struct address *address) {
    sqlite3_mutex_enter(list_mutex());
    struct engine *engine = engines;
    while (engine && !is_engine_of(engine, place, address->point)) engine = engine->next;
    if (!engine && (engine = make_engine(place, address))) {
        engine->next = engines;
        engines = engine;
    }
    if (engine) engine->connections++;
    sqlite3_mutex_leave(list_mutex());
    return engine;
}

/* The oldest snapshot that a connection of this engine reads. Leaves its mutex, which the caller has entered. */
static uint64_t leave_oldest(const struct engine *engine) {
    uint64_t oldest = UINT64_MAX;
    for (const struct member *member = engine->members; member; member = member->next) {
        if (member->reads && member->point < oldest) oldest = member->point;
    }
    sqlite3_mutex_leave(engine->mutex);
    return oldest;
}

static uint64_t oldest_of(const struct engine *engine) {
    sqlite3_mutex_enter(engine->mutex);
    return leave_oldest(engine);
}

/* The same, or 0 where the mutex is not free: an opening holds it while it waits for nodes. */
static uint64_t try_oldest_of(const struct engine *engine) {
    return sqlite3_mutex_try(engine->mutex) == SQLITE_OK ? leave_oldest(engine) : 0;
}

uint64_t engine_oldest(const struct engine *engine) {
    uint64_t oldest = UINT64_MAX, point = 0;
    sqlite3_mutex_enter(list_mutex());
    for (struct engine *other = engines; other; other = other->next) {
        if (other->process != engine->process || strcmp(other->place, engine->place) != 0) continue;
        point = other == engine ? oldest_of(other) : try_oldest_of(other);
        if (point < oldest) oldest = point;
    }
    sqlite3_mutex_leave(list_mutex());
    return oldest;
}

static enum yieldcleat_fault open_for_reading(struct engine *engine) {
    struct yieldcleat_volume *volume = 0;
    enum yieldcleat_fault fault = yieldcleat_volume_open_reader(engine->place, &engine->options, engine->point, &volume);
    if (!fault && !(engine->reader = handle_of(volume))) return YIELDCLEAT_NO_MEMORY;
    return fault;
}

/* Opens a handle that reads. The volume is opened for writing before where there is none yet, or where it has to be recovered. */
static enum yieldcleat_fault open_reader(struct engine *engine, struct rights rights) {
    enum yieldcleat_fault fault = open_for_reading(engine);
    bool is_missing = fault == YIELDCLEAT_NOT_FOUND && rights.may_create;
    bool is_open_half = rights.may_write && engine->point == YIELDCLEAT_FOLLOW && is_unproved(fault);
    if (!is_missing && !is_open_half) return fault;
    retire(engine, &engine->writer); /* which an opening that failed afterwards has left */
    fault = open_writer(engine, rights.may_create, &engine->writer, &engine->published);
    return fault ? fault : open_for_reading(engine);
}

/* Whether the writer that was left by an earlier connection is still the volume's; else the handles are given up: the place may have another
 * volume, or none. */
static void check_writer(struct engine *engine, const struct address *address) {
    uint64_t point = 0;
    bool is_same = engine->options.milliseconds == address->milliseconds;
    if (!engine->writer || !is_same || yieldcleat_volume_newest(engine->writer->volume, &point)) {
        retire(engine, &engine->writer);
        retire(engine, &engine->reader);
    }
    engine->options.milliseconds = address->milliseconds;
    engine->is_idle = false;
}

int engine_open(const char *place, const struct address *address, struct rights rights, struct engine **engine, struct report *report) {
    struct engine *found = find_engine(place, address);
    enum yieldcleat_fault fault = YIELDCLEAT_OK;
    if (!found) return refuse(report, SQLITE_NOMEM, "open: out of memory");
    sqlite3_mutex_enter(found->mutex);
    if (found->is_idle) check_writer(found, address);
    if (!found->reader) fault = open_reader(found, rights);
    found->may_write += rights.may_write && !fault;
    leave(found);
    if (!fault) {
        *engine = found;
        return SQLITE_OK;
    }
    int code = refuse_fault(report, OPENING, fault);
    engine_close(found, false);
    return code;
}
