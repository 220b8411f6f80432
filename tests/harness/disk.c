/* What a disk does, preloaded into a program: it takes its time, forgets what was not flushed, and may fail or be full.
 *
 * DISK_DELAY      microseconds that each flush takes before it begins
 * DISK_FAIL_FLUSH the number, from 1, of the flush that fails
 * DISK_FAIL_ERROR the error of that flush, if it is not that of a broken disk
 * DISK_HAS        the bytes that it has of a file although a flush of more has failed: who drops what the system keeps of it finds these alone
 * DISK_FLUSHED    a file to which a line is appended after each flush of a file: its length then, and its path
 * DISK_FULL       while there is a file of this name, a write to a regular file writes half of the bytes, or says that there is no room
 */
typedef unsigned long size;
typedef long offset;

extern char *getenv(const char *name);
extern unsigned long strtoul(const char *text, char **end, int base);
extern int *__errno_location(void);
extern void *dlsym(void *handle, const char *name);
extern int usleep(unsigned microseconds);
extern int access(const char *path, int mode);
extern int snprintf(char *text, size most, const char *form, ...);
extern offset lseek(int file, offset to, int from);
extern long readlink(const char *path, char *text, size most);
extern int open(const char *path, int flags, ...);
extern int close(int file);
extern int ftruncate(int file, offset length);

enum { BROKEN = 5, NO_ROOM = 28, APPEND = 02001 | 0100, AT_END = 2, FROM_HERE = 1, NOT_NEEDED = 4 };

static long real_write(int file, const void *bytes, size count) {
    return ((long (*)(int, const void *, size))dlsym((void *)-1l, "write"))(file, bytes, count);
}

static int path_of(int file, char *path, size most) {
    char name[40];
    snprintf(name, sizeof name, "/proc/self/fd/%d", file);
    long length = readlink(name, path, most - 1);
    if (length < 0)
        return 0;
    path[length] = 0;
    return 1;
}

static int flush(int file, const char *name) {
    static unsigned long flushes;
    const char *delay = getenv("DISK_DELAY"), *flushed = getenv("DISK_FLUSHED");
    const char *failing = getenv("DISK_FAIL_FLUSH"), *error = getenv("DISK_FAIL_ERROR");
    char path[512], line[600];
    if (++flushes == (failing ? strtoul(failing, 0, 10) : 0)) {
        *__errno_location() = error ? (int)strtoul(error, 0, 10) : BROKEN;
        return -1;
    }
    if (delay)
        usleep(strtoul(delay, 0, 10));
    offset length = lseek(file, 0, AT_END);
    int result = ((int (*)(int))dlsym((void *)-1l, name))(file);
    if (result == 0 && flushed && length >= 0 && path_of(file, path, sizeof path)) {
        int count = snprintf(line, sizeof line, "%ld %s\n", length, path), report = open(flushed, APPEND, 0600);
        real_write(report, line, count);
        close(report);
    }
    return result;
}

int fsync(int file) { return flush(file, "fsync"); }
int fdatasync(int file) { return flush(file, "fdatasync"); }

int posix_fadvise(int file, offset from, offset count, int advice) {
    const char *has = getenv("DISK_HAS");
    offset length = has ? (offset)strtoul(has, 0, 10) : 0;
    if (has && advice == NOT_NEEDED && !from && !count && lseek(file, 0, AT_END) > length)
        return ftruncate(file, length);
    return ((int (*)(int, offset, offset, int))dlsym((void *)-1l, "posix_fadvise"))(file, from, count, advice);
}

long write(int file, const void *bytes, size count) {
    const char *full = getenv("DISK_FULL");
    if (!full || file == 2 || access(full, 0) || lseek(file, 0, FROM_HERE) < 0)
        return real_write(file, bytes, count);
    if (count > 1)
        return real_write(file, bytes, count / 2);
    *__errno_location() = NO_ROOM;
    return -1;
}
