/* A double of a volume, for tests alone (memory_volume.h). Its file begins with a magic; each entry has a length, a checksum and bytes. */
#include "memory_volume.h"

#include <errno.h>
#include <fcntl.h>
#include <pthread.h>
#include <stdlib.h>
#include <string.h>
#include <sys/file.h>
#include <unistd.h>

#include "memory_faults.h"
#include "memory_state.h"

enum { HEAD = 12, MOST_PENDING = 8 /* commits that nobody waits for, before they are written all the same */ };

static const char magic[8] = "YCdouble";

struct yieldcleat_volume {
    pthread_mutex_t mutex;
    int file;
    off_t read_to; /* in the file */
    bool is_writer, is_fenced;
    int endings;             /* before it was opened */
    uint64_t generation;     /* of a writer */
    uint64_t fixed, durable; /* the point of a reader of the past; the newest point in the file */
    struct state *state;
    struct buffer staged, pending; /* pages of the next commit; entries that are not in the file yet */
    unsigned staged_pages, pending_commits;
};

/* ---- the file */

static uint64_t checksum(const uint8_t *bytes, size_t length) {
    uint64_t sum = 14695981039346656037u;
    for (size_t place = 0; place < length; place++) sum = (sum ^ bytes[place]) * 1099511628211u;
    return sum;
}

static bool frame(struct buffer *to, const struct buffer *entry) {
    return buffer_add_number(to, entry->length, 4) && buffer_add_number(to, checksum(entry->bytes, entry->length), 8) &&
           buffer_add(to, entry->bytes, entry->length);
}

static uint64_t number_in(const uint8_t *bytes, size_t length) {
    uint64_t number = 0;
    while (length-- > 0) number = number << 8 | bytes[length];
    return number;
}

/* Takes the next entry of the file in. False where there is none, or only a beginning of one. */
static bool read_entry(struct yieldcleat_volume *volume) {
    uint8_t head[HEAD];
    if (pread(volume->file, head, HEAD, volume->read_to) != HEAD) return false;
    size_t length = number_in(head, 4);
    uint8_t *bytes = malloc(length + 1);
    bool is_whole = bytes && pread(volume->file, bytes, length, volume->read_to + HEAD) == (ssize_t)length &&
                    checksum(bytes, length) == number_in(head + 4, 8);
    if (is_whole && volume->is_writer && number_in(bytes + 1, 8) > volume->generation) volume->is_fenced = true;
    is_whole = is_whole && !volume->is_fenced && state_take(volume->state, bytes, length);
    free(bytes);
    if (!is_whole) return false;
    volume->read_to += HEAD + (off_t)length;
    volume->durable = volume->state->headers.count ? volume->state->headers.versions[volume->state->headers.count - 1].number : 0;
    return true;
}

static enum yieldcleat_fault refresh(struct yieldcleat_volume *volume) {
    while (read_entry(volume)) continue;
    return volume->is_fenced ? fail(YIELDCLEAT_FENCED, 0) : YIELDCLEAT_OK;
}

static enum yieldcleat_fault write_out(struct yieldcleat_volume *volume, const struct buffer *bytes) {
    long death = bytes_before_death();
    size_t length = death >= 0 && (size_t)death < bytes->length ? (size_t)death : bytes->length;
    if (pwrite(volume->file, bytes->bytes, length, volume->read_to) != (ssize_t)length) return fail(YIELDCLEAT_IO, 0);
    if (death >= 0) die();
    volume->read_to += (off_t)length;
    return YIELDCLEAT_OK;
}

/* Writes the entries that are pending, where no newer writer has opened the file. */
static enum yieldcleat_fault flush(struct yieldcleat_volume *volume) {
    if (!volume->pending.length) return refresh(volume);
    flock(volume->file, LOCK_EX);
    enum yieldcleat_fault fault = refresh(volume);
    if (!fault) fault = write_out(volume, &volume->pending);
    flock(volume->file, LOCK_UN);
    if (fault) return fault;
    volume->pending.length = 0;
    if (volume->pending_commits) volume->durable = volume->state->last;
    volume->pending_commits = 0;
    return YIELDCLEAT_OK;
}

/* Makes an entry pending, and takes it in. */
static enum yieldcleat_fault add_entry(struct yieldcleat_volume *volume, enum kind kind, uint64_t point, const struct buffer *rest) {
    struct buffer entry = {0};
    bool is_made = buffer_add_number(&entry, (uint64_t)kind, 1) && buffer_add_number(&entry, volume->generation, 8) &&
                   buffer_add_number(&entry, point, 8) && buffer_add(&entry, rest->bytes, rest->length) &&
                   frame(&volume->pending, &entry) && state_take(volume->state, entry.bytes, entry.length);
    buffer_free(&entry);
    return is_made ? YIELDCLEAT_OK : fail(YIELDCLEAT_NO_MEMORY, 0);
}

/* ---- opening */

static void release(struct yieldcleat_volume *volume) {
    if (volume->file >= 0) close(volume->file);
    if (volume->state) state_free(volume->state);
    free(volume->state);
    buffer_free(&volume->staged);
    buffer_free(&volume->pending);
    pthread_mutex_destroy(&volume->mutex);
    free(volume);
}

static struct yieldcleat_volume *make(const char *place, int flags) {
    struct yieldcleat_volume *volume = calloc(1, sizeof *volume);
    if (!volume) return 0;
    pthread_mutex_init(&volume->mutex, 0);
    volume->fixed = YIELDCLEAT_FOLLOW;
    volume->endings = endings_so_far();
    volume->state = calloc(1, sizeof *volume->state);
    volume->file = open(place, flags | O_CLOEXEC, 0600);
    return volume;
}

static enum yieldcleat_fault check_magic(struct yieldcleat_volume *volume, bool may_create) {
    char found[sizeof magic];
    ssize_t length = pread(volume->file, found, sizeof found, 0);
    if (length == 0 && may_create) {
        memcpy(found, magic, sizeof magic);
        length = pwrite(volume->file, magic, sizeof magic, 0);
    }
    if (length == 0) return fail(YIELDCLEAT_NOT_FOUND, 0);
    if (length != sizeof magic || memcmp(found, magic, sizeof magic) != 0) return fail(YIELDCLEAT_IO, 0);
    volume->read_to = sizeof magic;
    return YIELDCLEAT_OK;
}

static enum yieldcleat_fault check_made(const struct yieldcleat_volume *volume) {
    if (!volume || !volume->state) return fail(YIELDCLEAT_NO_MEMORY, 0);
    if (volume->file < 0) return fail(errno == ENOENT ? YIELDCLEAT_NOT_FOUND : YIELDCLEAT_IO, 0);
    return YIELDCLEAT_OK;
}

/* Becomes the writer of the file: cuts off what a dead one left, and says so to the living ones. */
static enum yieldcleat_fault take_over(struct yieldcleat_volume *volume, bool may_create) {
    struct buffer nothing = {0};
    flock(volume->file, LOCK_EX);
    enum yieldcleat_fault fault = check_magic(volume, may_create);
    if (!fault) fault = refresh(volume);
    if (!fault && ftruncate(volume->file, volume->read_to)) fault = fail(YIELDCLEAT_IO, 0);
    volume->is_writer = true;
    volume->generation = volume->state->generation + 1;
    if (!fault) fault = add_entry(volume, OPENED, volume->state->last, &nothing);
    if (!fault) fault = write_out(volume, &volume->pending);
    volume->pending.length = 0;
    flock(volume->file, LOCK_UN);
    return fault;
}

static enum yieldcleat_fault opened(struct yieldcleat_volume *volume, enum yieldcleat_fault fault, struct yieldcleat_volume **to) {
    if (!fault) *to = volume;
    if (fault && volume) release(volume);
    return fault;
}

enum yieldcleat_fault yieldcleat_volume_open_writer(const char *place, const struct yieldcleat_options *options,
                                                    struct yieldcleat_volume **volume) {
    bool may_create = options && options->may_create;
    enum yieldcleat_fault fault = begin(OPEN_WRITER);
    if (fault) return fault;
    struct yieldcleat_volume *made = make(place, O_RDWR | (may_create ? O_CREAT : 0));
    fault = check_made(made);
    if (!fault) fault = take_over(made, may_create);
    return opened(made, fault, volume);
}

static enum yieldcleat_fault check_point(const struct yieldcleat_volume *volume, uint64_t point) {
    uint64_t newest = volume->is_writer ? volume->state->last : volume->durable;
    if (point < volume->state->least) return fail(YIELDCLEAT_BELOW, volume->state->least);
    if (point > newest) return fail(YIELDCLEAT_ABOVE, newest);
    return YIELDCLEAT_OK;
}

enum yieldcleat_fault yieldcleat_volume_open_reader(const char *place, const struct yieldcleat_options *options, uint64_t point,
                                                    struct yieldcleat_volume **volume) {
    (void)options;
    enum yieldcleat_fault fault = begin(OPEN_READER);
    if (fault) return fault;
    struct yieldcleat_volume *made = make(place, O_RDONLY);
    fault = check_made(made);
    if (!fault) fault = check_magic(made, false);
    if (!fault) fault = refresh(made);
    if (!fault && point != YIELDCLEAT_FOLLOW) fault = check_point(made, point);
    if (!fault) made->fixed = point;
    return opened(made, fault, volume);
}

void yieldcleat_volume_close(struct yieldcleat_volume *volume) {
    if (!volume) return;
    begin(CLOSE);
    delay();
    release(volume);
}

/* ---- reading */

static bool has_ended(const struct yieldcleat_volume *volume) { return volume->is_writer && volume->endings != endings_so_far(); }

/* Begins a call on a handle, which is locked until the call ends. */
static enum yieldcleat_fault enter(struct yieldcleat_volume *volume, enum call call) {
    enum yieldcleat_fault fault = begin(call);
    pthread_mutex_lock(&volume->mutex);
    if (!fault && volume->is_fenced) fault = fail(YIELDCLEAT_FENCED, 0);
    if (!fault && has_ended(volume)) fault = fail(YIELDCLEAT_IO, 0);
    return fault;
}

static enum yieldcleat_fault leave(struct yieldcleat_volume *volume, enum yieldcleat_fault fault) {
    pthread_mutex_unlock(&volume->mutex);
    return fault;
}

enum yieldcleat_fault yieldcleat_volume_newest(struct yieldcleat_volume *volume, uint64_t *point) {
    enum yieldcleat_fault fault = enter(volume, NEWEST);
    if (!fault) fault = refresh(volume);
    if (!fault) *point = volume->fixed == YIELDCLEAT_FOLLOW ? volume->durable : volume->fixed;
    return leave(volume, fault);
}

enum yieldcleat_fault yieldcleat_volume_header(struct yieldcleat_volume *volume, uint64_t point, uint64_t *commit_point, void *header,
                                               size_t *length) {
    enum yieldcleat_fault fault = enter(volume, HEADER);
    if (!fault) fault = refresh(volume);
    if (!fault) fault = check_point(volume, point);
    if (!fault) {
        const struct version *found = history_at(&volume->state->headers, point);
        *commit_point = found ? found->number : 0;
        *length = found ? number_in(found->bytes, 2) : 0;
        if (found) memcpy(header, found->bytes + 2, *length);
    }
    return leave(volume, fault);
}

static bool is_range(struct yieldcleat_range range) {
    if (range.page < 1 || range.page > YIELDCLEAT_LAST_PAGE) return false;
    return range.offset <= YIELDCLEAT_PAGE_BYTES && range.length <= YIELDCLEAT_PAGE_BYTES - range.offset;
}

enum yieldcleat_fault yieldcleat_volume_read(struct yieldcleat_volume *volume, uint64_t point, struct yieldcleat_range range, void *bytes) {
    enum yieldcleat_fault fault = enter(volume, READ);
    if (!fault && !is_range(range)) fault = fail(YIELDCLEAT_MISUSE, 0);
    if (!fault) fault = refresh(volume);
    if (!fault) fault = check_point(volume, point);
    if (!fault) {
        const struct version *found = history_at(&volume->state->pages[range.page], point);
        if (found) memcpy(bytes, found->bytes + range.offset, range.length);
        else memset(bytes, 0, range.length);
    }
    return leave(volume, fault);
}

/* ---- writing */

static bool is_patch(const struct yieldcleat_patch *patch) {
    return patch->length >= 1 && patch->offset + patch->length <= YIELDCLEAT_PAGE_BYTES && patch->bytes;
}

static bool add_patch(struct buffer *to, const struct yieldcleat_patch *patch) {
    return is_patch(patch) && buffer_add_number(to, patch->is_fill, 1) && buffer_add_number(to, patch->offset, 2) &&
           buffer_add_number(to, patch->length, 2) && buffer_add(to, patch->bytes, patch->is_fill ? 1 : patch->length);
}

enum yieldcleat_fault yieldcleat_volume_stage(struct yieldcleat_volume *volume, uint32_t page, bool from_zeros,
                                              const struct yieldcleat_patch *patches, size_t count) {
    enum yieldcleat_fault fault = enter(volume, STAGE);
    size_t before = volume->staged.length;
    bool is_good = volume->is_writer && page >= 1 && page <= YIELDCLEAT_LAST_PAGE && count <= YIELDCLEAT_PATCHES;
    is_good = is_good && buffer_add_number(&volume->staged, page, 2) && buffer_add_number(&volume->staged, from_zeros, 1) &&
              buffer_add_number(&volume->staged, count, 1);
    for (size_t place = 0; is_good && place < count; place++) is_good = add_patch(&volume->staged, &patches[place]);
    if (!fault && !is_good) fault = fail(YIELDCLEAT_MISUSE, 0);
    if (fault) volume->staged.length = before;
    if (!fault) volume->staged_pages++;
    return leave(volume, fault);
}

static void discard(struct yieldcleat_volume *volume) {
    volume->staged.length = 0;
    volume->staged_pages = 0;
}

void yieldcleat_volume_discard(struct yieldcleat_volume *volume) {
    pthread_mutex_lock(&volume->mutex);
    discard(volume);
    pthread_mutex_unlock(&volume->mutex);
}

static enum yieldcleat_fault commit(struct yieldcleat_volume *volume, const void *header, size_t length, uint64_t *point) {
    struct buffer rest = {0};
    uint64_t number = volume->state->last + volume->staged_pages + 1;
    bool is_made = buffer_add_number(&rest, length, 2) && buffer_add(&rest, header, length) &&
                   buffer_add_number(&rest, volume->staged_pages, 2) && buffer_add(&rest, volume->staged.bytes, volume->staged.length);
    enum yieldcleat_fault fault = is_made ? add_entry(volume, COMMITTED, number, &rest) : fail(YIELDCLEAT_NO_MEMORY, 0);
    buffer_free(&rest);
    if (fault) return fault;
    *point = number;
    return ++volume->pending_commits > MOST_PENDING ? flush(volume) : YIELDCLEAT_OK;
}

enum yieldcleat_fault yieldcleat_volume_commit(struct yieldcleat_volume *volume, const void *header, size_t length, uint64_t *point) {
    enum yieldcleat_fault fault = enter(volume, COMMIT);
    if (!fault && (!volume->is_writer || length > YIELDCLEAT_HEADER_BYTES)) fault = fail(YIELDCLEAT_MISUSE, 0);
    if (!fault) fault = commit(volume, header, length, point);
    discard(volume);
    return leave(volume, fault);
}

enum yieldcleat_fault yieldcleat_volume_wait(struct yieldcleat_volume *volume, uint64_t point, uint32_t milliseconds) {
    (void)milliseconds;
    int asked = doubt();
    delay();
    enum yieldcleat_fault fault = enter(volume, WAIT);
    if (!fault && (!volume->is_writer || point > volume->state->last)) fault = fail(YIELDCLEAT_MISUSE, 0);
    if (!fault && asked >= 0) fault = flush(volume);
    if (!fault && asked) fault = fail(YIELDCLEAT_TIMEOUT, 0);
    return leave(volume, fault);
}

enum yieldcleat_fault yieldcleat_volume_advance(struct yieldcleat_volume *volume, uint64_t point) {
    struct buffer nothing = {0};
    enum yieldcleat_fault fault = enter(volume, ADVANCE);
    if (!fault && !volume->is_writer) fault = fail(YIELDCLEAT_MISUSE, 0);
    if (!fault && point > volume->durable) fault = fail(YIELDCLEAT_ABOVE, volume->durable);
    if (!fault && point > volume->state->least) fault = add_entry(volume, ADVANCED, point, &nothing);
    return leave(volume, fault);
}

enum yieldcleat_fault yieldcleat_volume_status(struct yieldcleat_volume *volume, struct yieldcleat_status *status) {
    if (has_ended(volume)) return fail(YIELDCLEAT_IO, 0);
    pthread_mutex_lock(&volume->mutex);
    *status = (struct yieldcleat_status){
        .newest = volume->fixed == YIELDCLEAT_FOLLOW ? volume->durable : volume->fixed,
        .least = volume->state->least,
        .generation = volume->is_writer ? volume->generation : volume->state->generation,
        .have = (uint32_t)nodes_that_answer(),
        .need = QUORUM,
        .nodes = NODES,
    };
    pthread_mutex_unlock(&volume->mutex);
    return YIELDCLEAT_OK;
}
