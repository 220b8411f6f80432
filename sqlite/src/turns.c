#include "turns.h"
SQLITE_EXTENSION_INIT3

void turn_join(struct engine *engine, struct member *member) {
    sqlite3_mutex_enter(engine->mutex);
    *member = (struct member){.next = engine->members, .fences = engine->fences};
    engine->members = member;
    sqlite3_mutex_leave(engine->mutex);
}

void turn_leave(struct engine *engine, struct member *member) {
    sqlite3_mutex_enter(engine->mutex);
    struct member **link = &engine->members;
    while (*link != member) link = &(*link)->next;
    *link = member->next;
    sqlite3_mutex_leave(engine->mutex);
}

static enum yieldcleat_fault ask_newest(struct engine *engine, uint64_t *point) {
    struct handle *handle = 0;
    enum yieldcleat_fault fault = YIELDCLEAT_OK;
    do {
        handle = engine_borrow(engine);
        fault = yieldcleat_volume_newest(handle->volume, point);
    } while (engine_return(engine, handle, fault));
    return fault;
}

enum yieldcleat_fault turn_newest(struct engine *engine, struct snapshot *newest) {
    uint64_t point = 0;
    enum yieldcleat_fault fault = ask_newest(engine, &point);
    sqlite3_mutex_enter(engine->mutex);
    bool may_recover = engine->may_write && !engine->writer && is_unproved(fault);
    sqlite3_mutex_leave(engine->mutex);
    if (may_recover) fault = engine_open_writer(engine);
    if (may_recover && !fault) fault = ask_newest(engine, &point);
    if (fault) return fault;
    sqlite3_mutex_enter(engine->mutex);
    *newest = (struct snapshot){.point = point, .losses = engine->losses, .is_durable = true};
    if (engine->writer && engine->published > point) {
        newest->point = engine->published;
        newest->is_durable = false;
    }
    sqlite3_mutex_leave(engine->mutex);
    return YIELDCLEAT_OK;
}

bool is_same_commit(const struct snapshot *one, const struct snapshot *other) {
    return one->point == other->point && one->losses == other->losses;
}

int turn_read(struct engine *engine, struct member *member, struct snapshot *newest, struct report *report) {
    enum yieldcleat_fault fault = turn_newest(engine, newest);
    if (fault) return refuse_fault(report, READING, fault);
    sqlite3_mutex_enter(engine->mutex);
    member->point = newest->point;
    member->losses = newest->losses;
    member->reads = true;
    sqlite3_mutex_leave(engine->mutex);
    return SQLITE_OK;
}

void turn_end_read(struct engine *engine, struct member *member) {
    sqlite3_mutex_enter(engine->mutex);
    member->reads = false;
    sqlite3_mutex_leave(engine->mutex);
}

void turn_move(struct engine *engine, struct member *member, uint64_t point) {
    sqlite3_mutex_enter(engine->mutex);
    member->point = point;
    sqlite3_mutex_leave(engine->mutex);
}

bool turn_is_taken(struct engine *engine, const struct member *member) {
    sqlite3_mutex_enter(engine->mutex);
    bool is_taken = engine->owner && engine->owner != member;
    sqlite3_mutex_leave(engine->mutex);
    return is_taken;
}

void turn_publish(struct engine *engine, const struct member *member, bool ends) {
    sqlite3_mutex_enter(engine->mutex);
    if (engine->owner == member) {
        if (engine->losses == member->losses) engine->published = member->point;
        if (ends) engine->owner = 0;
    }
    sqlite3_mutex_leave(engine->mutex);
}

static void give_up(struct engine *engine) {
    sqlite3_mutex_enter(engine->mutex);
    engine->owner = 0;
    sqlite3_mutex_leave(engine->mutex);
}

/* Takes the turn where it is free. */
static int claim(struct engine *engine, const struct member *member, bool *has_writer) {
    sqlite3_mutex_enter(engine->mutex);
    bool is_free = !engine->owner || engine->owner == member, is_fenced = engine->fences != member->fences;
    if (is_free && !is_fenced) engine->owner = member;
    *has_writer = engine->writer;
    sqlite3_mutex_leave(engine->mutex);
    if (is_fenced) return SQLITE_IOERR_LOCK;
    return is_free ? SQLITE_OK : SQLITE_BUSY;
}

static bool is_newest(struct engine *engine, const struct member *member) {
    sqlite3_mutex_enter(engine->mutex);
    bool is = engine->published == member->point && engine->losses == member->losses;
    sqlite3_mutex_leave(engine->mutex);
    return is;
}

int turn_write(struct engine *engine, struct member *member, struct report *report) {
    bool has_writer = false;
    int code = claim(engine, member, &has_writer);
    if (code == SQLITE_IOERR_LOCK) {
        return refuse(report, code, "lock for writing: another engine has opened the volume; open the database again to write");
    }
    if (code) return code;
    enum yieldcleat_fault fault = has_writer ? YIELDCLEAT_OK : engine_open_writer(engine);
    if (fault) {
        give_up(engine);
        return refuse_fault(report, LOCKING, fault);
    }
    if (is_newest(engine, member)) return SQLITE_OK;
    give_up(engine);
    return SQLITE_BUSY_SNAPSHOT;
}
