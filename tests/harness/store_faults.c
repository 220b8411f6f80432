/* A library that is preloaded into a storage server. It refuses a connection, and delays a process that has freed a lock.

   REFUSE_ACCEPT is the number of a connection, from 1, that is closed when it comes, and REFUSE_ERROR the error that `accept` has then.
   UNLOCK_DELAY is how many microseconds a call takes after it has freed a lock. */
extern char *getenv(const char *name);
extern int atoi(const char *text);
extern int *__errno_location(void);
extern void *dlsym(void *handle, const char *name);
extern int usleep(unsigned microseconds);
extern int close(int file);

int accept4(int socket, void *address, unsigned *length, int flags) {
    static int count;
    const char *refused = getenv("REFUSE_ACCEPT"), *error = getenv("REFUSE_ERROR");
    int made = ((int (*)(int, void *, unsigned *, int))dlsym((void *)-1l, "accept4"))(socket, address, length, flags);
    if (made < 0 || !refused || !error || ++count != atoi(refused))
        return made;
    close(made);
    *__errno_location() = atoi(error);
    return -1;
}

int flock(int file, int how) {
    const char *delay = getenv("UNLOCK_DELAY");
    int done = ((int (*)(int, int))dlsym((void *)-1l, "flock"))(file, how);
    if (how == 8 && delay)
        usleep(atoi(delay));
    return done;
}
