#include "commit.h"

#include <string.h>
#include <time.h>

#include "changes.h"
SQLITE_EXTENSION_INIT3

enum { AT_COUNTER = 24, AT_SIZE = 28, AT_COUNTER_OF_SIZE = 92 };

/* ---- what changed */

/* What the volume has of a page, in the view. */
static int find_base(struct database *database, struct page *page, uint8_t *bytes) {
    if (!page->base) return database_fetch(database, page->number, bytes);
    memcpy(bytes, page->base, YIELDCLEAT_PAGE_BYTES);
    return SQLITE_OK;
}

/* What a commit has beside its pages. */
struct sending {
    struct yieldcleat_volume *volume; /* null where the writer was lost */
    enum yieldcleat_fault fault; /* of the volume's last call */
    uint32_t pages, highest;     /* that changed, and the last one of them */
};

static int stage_page(struct database *database, struct page *page, struct sending *sending) {
    uint8_t base[YIELDCLEAT_PAGE_BYTES];
    struct changes changes;
    int code = find_base(database, page, base);
    if (code) return code;
    find_changes(base, page->now, &changes);
    if (!changes.count && !changes.from_zeros) return SQLITE_OK;
    if (!sending->volume) return refuse(&database->report, SQLITE_IOERR_LOCK, "commit: the lock for writing was lost");
    sending->pages++;
    sending->highest = page->number;
    sending->fault = yieldcleat_volume_stage(sending->volume, page->number, changes.from_zeros, changes.patches, changes.count);
    return sending->fault ? refuse_fault(&database->report, WRITING, sending->fault) : SQLITE_OK;
}

static int stage_pages(struct database *database, struct sending *sending) {
    int code = SQLITE_OK;
    struct page *page = pages_above(&database->pages, 0);
    for (; !code && page; page = pages_above(&database->pages, page->number)) {
        if (page->is_dirty) code = stage_page(database, page, sending);
    }
    return code;
}

/* ---- the header */

/* SQLite cuts a database that has become smaller only after its commit, but page 1 has the new size already. */
static uint32_t size_after(const struct database *database) {
    const struct page *page = pages_find(&database->pages, 1);
    if (!page || !page->is_dirty || memcmp(page->now + AT_COUNTER, page->now + AT_COUNTER_OF_SIZE, 4) != 0) return database->size;
    const uint8_t *at = page->now + AT_SIZE;
    uint32_t size = (uint32_t)at[0] << 24 | (uint32_t)at[1] << 16 | (uint32_t)at[2] << 8 | at[3];
    return size && size < database->size ? size : database->size;
}

/* Whether a commit sets a mark: one in so many, so that the oldest mark is as far back as points are to stay readable. */
static bool sets_mark(const struct database *database, uint64_t commits) {
    uint32_t keep = database->address.keep, distance = keep / MARKS;
    return keep && commits % (distance ? distance : 1) == 0;
}

static struct header next_header(const struct database *database, const struct sending *sending) {
    struct header header = database->view.header;
    header.size = size_after(database);
    header.commits++;
    header.seconds = (uint64_t)time(0);
    if (sending->highest > header.highest) header.highest = sending->highest;
    if (header.size > header.highest) header.highest = header.size;
    if (sets_mark(database, header.commits)) {
        memmove(header.marks, header.marks + 1, sizeof header.marks - sizeof header.marks[0]);
        header.marks[MARKS - 1] = database->view.at.point;
    }
    return header;
}

/* ---- sending */

/* Whether the volume can say no more about what this writer has sent: another one has to look. */
static bool is_lost(enum yieldcleat_fault fault) {
    return fault == YIELDCLEAT_FENCED || fault == YIELDCLEAT_IO || fault == YIELDCLEAT_NO_MEMORY || fault == YIELDCLEAT_TIMEOUT;
}

static int send_header(struct database *database, struct sending *sending) {
    uint8_t bytes[YIELDCLEAT_HEADER_BYTES];
    struct view view = {.at.losses = database->view.at.losses, .header = next_header(database, sending)};
    sending->fault = yieldcleat_volume_commit(sending->volume, bytes, header_write(&view.header, bytes), &view.at.point);
    if (sending->fault) return refuse_fault(&database->report, is_lost(sending->fault) ? SYNCING : WRITING, sending->fault);
    pages_settle(&database->pages);
    pages_cut(&database->pages, view.header.size);
    database->view = view;
    database->size = view.header.size;
    turn_move(database->engine, &database->member, view.at.point);
    database->is_sent = true;
    return SQLITE_OK;
}

static int send(struct database *database, struct sending *sending) {
    int code = stage_pages(database, sending);
    if (code || (!sending->pages && size_after(database) == database->view.header.size)) return code;
    if (!sending->volume) return refuse(&database->report, SQLITE_IOERR_LOCK, "commit: the lock for writing was lost");
    return send_header(database, sending);
}

int commit_send(struct database *database) {
    if (database->lock < SQLITE_LOCK_RESERVED) return SQLITE_OK;
    struct handle *handle = engine_borrow_writer(database->engine, &database->view.at);
    struct sending sending = {.volume = handle ? handle->volume : 0};
    int code = send(database, &sending);
    if (code) database_forget_changes(database);
    if (!handle) return code;
    if (code) yieldcleat_volume_discard(handle->volume);
    if (is_lost(sending.fault)) engine_lose_writer(database->engine, handle, sending.fault);
    engine_return(database->engine, handle, YIELDCLEAT_OK);
    return code;
}

/* ---- waiting */

static int wait_until_durable(struct database *database) {
    struct handle *handle = engine_borrow_writer(database->engine, &database->view.at);
    if (!handle) return refuse(&database->report, SQLITE_IOERR_LOCK, "commit in doubt: the lock for writing was lost");
    enum yieldcleat_fault fault = yieldcleat_volume_wait(handle->volume, database->view.at.point, 0);
    int code = fault ? refuse_fault(&database->report, SYNCING, fault) : SQLITE_OK;
    if (fault) engine_lose_writer(database->engine, handle, fault);
    engine_return(database->engine, handle, YIELDCLEAT_OK);
    return code;
}

int commit_sync(struct database *database) {
    if (!database->is_sent) return SQLITE_OK;
    int code = wait_until_durable(database);
    if (code) database_return(database, &database->before);
    else database->view.at.is_durable = true;
    database->is_sent = false;
    return code;
}

/* ---- afterwards */

/* Gives up the points below the oldest mark, and none that a connection of this process reads. A failure costs nothing but room. */
static void give_up_points(const struct database *database) {
    uint64_t mark = database->view.header.marks[0], oldest = engine_oldest(database->engine);
    struct handle *handle = engine_borrow_writer(database->engine, &database->view.at);
    if (!handle) return;
    yieldcleat_volume_advance(handle->volume, mark < oldest ? mark : oldest);
    engine_return(database->engine, handle, YIELDCLEAT_OK);
}

void commit_end(struct database *database) {
    if (database->lock < SQLITE_LOCK_RESERVED) return;
    bool has_committed = database->view.at.point != database->before.at.point;
    database->before = database->view;
    if (has_committed) turn_publish(database->engine, &database->member, false);
    if (has_committed && database->view.header.marks[0] && sets_mark(database, database->view.header.commits)) give_up_points(database);
}
