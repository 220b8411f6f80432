/* Counts what the program that it is preloaded into asks for, and refuses some of it.

   FAIL_ALLOC=N refuses the N-th call that asks for memory, from 1, and with FAIL_ALLOC_LAST=M each of the N-th to the M-th.
   FAIL_START=N refuses the N-th start of a thread, FAIL_READ=N the N-th read of standard input, and FAIL_WRITE=N the N-th write to
   standard output. READ_STEP=N and WRITE_STEP=N let these reads and writes have N bytes at most. With FAIL_REPORT=PATH the number of
   calls that asked for memory, the most bytes that one of them asked for, and the numbers of starts, reads and writes are written to
   that file when the program ends. No header is included, so that the toolchain's own compiler builds it on a machine that has no C
   headers. */

typedef unsigned long size_t;
typedef long ssize_t;

extern void *__libc_malloc(size_t size);
extern void *__libc_calloc(size_t count, size_t size);
extern void *__libc_realloc(void *old, size_t size);
extern void *__libc_memalign(size_t alignment, size_t size);
extern ssize_t __read(int file, void *bytes, size_t count);
extern ssize_t __write(int file, const void *bytes, size_t count);
__attribute__((noreturn)) extern void _Exit(int status);
extern int *__errno_location(void);
extern char *getenv(const char *name);
extern unsigned long strtoul(const char *text, char **end, int base);
extern int creat(const char *path, unsigned int mode);
extern int dprintf(int file, const char *form, ...);
extern int close(int file);
extern void *dlsym(void *handle, const char *name);

enum { INPUT = 0, OUTPUT = 1, BROKEN = 5, TRY_AGAIN = 11, OUT_OF_MEMORY = 12 };

/* The calls of one kind: how many there were, and from which to which they are refused. */
struct calls {
    unsigned long count, first, last;
};

static struct calls allocations, starts, reads, writes;
static size_t greatest, read_step, write_step;

static unsigned long number_of(const char *name) {
    const char *setting = getenv(name);
    return setting == 0 ? 0 : strtoul(setting, 0, 10);
}

static struct calls refused_by(const char *name) {
    unsigned long number = number_of(name);
    return (struct calls){0, number, number};
}

__attribute__((constructor)) static void read_settings(void) {
    allocations = refused_by("FAIL_ALLOC");
    if (number_of("FAIL_ALLOC_LAST") != 0)
        allocations.last = number_of("FAIL_ALLOC_LAST");
    starts = refused_by("FAIL_START");
    reads = refused_by("FAIL_READ");
    writes = refused_by("FAIL_WRITE");
    read_step = number_of("READ_STEP");
    write_step = number_of("WRITE_STEP");
    greatest = 0;
}

__attribute__((destructor)) static void write_report(void) {
    const char *path = getenv("FAIL_REPORT");
    unsigned long allocated = allocations.count;
    size_t most = greatest;
    allocations.first = allocations.last = 0;
    int file = path == 0 ? -1 : creat(path, 0644);
    if (file >= 0) {
        dprintf(file, "%lu %lu %lu %lu %lu\n", allocated, most, starts.count, reads.count, writes.count);
        close(file);
    }
}

/* Counts a call, and says whether it is refused, with this error. */
static int is_refused(struct calls *calls, int error) {
    unsigned long number = __atomic_add_fetch(&calls->count, 1, __ATOMIC_SEQ_CST);
    if (number < calls->first || number > calls->last)
        return 0;
    *__errno_location() = error;
    return 1;
}

static int lacks_memory(size_t size) {
    size_t seen = __atomic_load_n(&greatest, __ATOMIC_SEQ_CST);
    while (seen < size && !__atomic_compare_exchange_n(&greatest, &seen, size, 0, __ATOMIC_SEQ_CST, __ATOMIC_SEQ_CST)) {
    }
    return is_refused(&allocations, OUT_OF_MEMORY);
}

void *malloc(size_t size) { return lacks_memory(size) ? 0 : __libc_malloc(size); }

void *calloc(size_t count, size_t size) {
    size_t total;
    if (__builtin_mul_overflow(count, size, &total))
        total = ~(size_t)0;
    return lacks_memory(total) ? 0 : __libc_calloc(count, size);
}

void *realloc(void *old, size_t size) { return lacks_memory(size) ? 0 : __libc_realloc(old, size); }

void *memalign(size_t alignment, size_t size) { return lacks_memory(size) ? 0 : __libc_memalign(alignment, size); }

void *aligned_alloc(size_t alignment, size_t size) { return memalign(alignment, size); }

int posix_memalign(void **out, size_t alignment, size_t size) {
    void *made = memalign(alignment, size);
    if (made != 0)
        *out = made;
    return made != 0 ? 0 : OUT_OF_MEMORY;
}

int pthread_create(unsigned long *thread, const void *attributes, void *(*body)(void *), void *argument) {
    if (is_refused(&starts, TRY_AGAIN))
        return TRY_AGAIN;
    __typeof__(pthread_create) *next = dlsym((void *)-1l, "pthread_create");
    return next == 0 ? TRY_AGAIN : next(thread, attributes, body, argument);
}

static size_t at_most(size_t step, size_t count) { return step != 0 && step < count ? step : count; }

ssize_t read(int file, void *bytes, size_t count) {
    if (file != INPUT)
        return __read(file, bytes, count);
    return is_refused(&reads, BROKEN) ? -1 : __read(file, bytes, at_most(read_step, count));
}

ssize_t write(int file, const void *bytes, size_t count) {
    if (file != OUTPUT)
        return __write(file, bytes, count);
    return is_refused(&writes, BROKEN) ? -1 : __write(file, bytes, at_most(write_step, count));
}

/* A program that has started threads ends without its destructors. */
__attribute__((noreturn)) void _exit(int status) {
    write_report();
    _Exit(status);
}
