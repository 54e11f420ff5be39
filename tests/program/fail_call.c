/* Loaded before the C library. Of the calls of the function that CALL names, the one whose number
   CALL_NUMBER gives does nothing and fails with the error CALL_ERROR. Each read gives at most SHORT
   bytes, and each write takes at most as many, where that is set. At the end the number of calls is
   written into the file that CALL_COUNT names. The folder / that a run opens and closes as it begins is
   not counted, and neither open nor close of it fails, but if NO_ROOT is set it cannot be opened. */
typedef unsigned long size_t;

extern void *dlsym(void *, const char *);
extern char *getenv(const char *);
extern long strtol(const char *, char **, int);
extern int strcmp(const char *, const char *);
extern int *__errno_location(void);
extern int dprintf(int, const char *, ...);

#define AFTER_THIS ((void *)-1)
#define CREATE_TO_WRITE 01101
#define DENIED 13

static long count;
static int folder = -1;

static int fails(const char *name) {
    const char *call = getenv("CALL");
    if (!call || strcmp(call, name) || ++count != strtol(getenv("CALL_NUMBER"), 0, 10)) return 0;
    *__errno_location() = strtol(getenv("CALL_ERROR"), 0, 10);
    return 1;
}

static size_t cut(size_t size) {
    const char *text = getenv("SHORT");
    size_t most = text ? strtol(text, 0, 10) : size;
    return size < most ? size : most;
}

long read(int file, void *buffer, size_t size) {
    long (*next)(int, void *, size_t) = dlsym(AFTER_THIS, "read");
    return fails("read") ? -1 : next(file, buffer, cut(size));
}

long write(int file, const void *buffer, size_t size) {
    long (*next)(int, const void *, size_t) = dlsym(AFTER_THIS, "write");
    return fails("write") ? -1 : next(file, buffer, cut(size));
}

int open(const char *name, int flags, unsigned mode) {
    int (*next)(const char *, int, unsigned) = dlsym(AFTER_THIS, "open");
    if (!strcmp(name, "/")) {
        if (!getenv("NO_ROOT")) return folder = next(name, flags, mode);
        *__errno_location() = DENIED;
        return -1;
    }
    return fails("open") ? -1 : next(name, flags, mode);
}

long lseek(int file, long place, int from) {
    long (*next)(int, long, int) = dlsym(AFTER_THIS, "lseek");
    return fails("lseek") ? -1 : next(file, place, from);
}

int close(int file) {
    int (*next)(int) = dlsym(AFTER_THIS, "close");
    if (file == folder) {
        folder = -1;
        return next(file);
    }
    return fails("close") ? -1 : next(file);
}

__attribute__((destructor)) static void tell_count(void) {
    int (*next)(const char *, int, unsigned) = dlsym(AFTER_THIS, "open");
    const char *name = getenv("CALL_COUNT");
    if (name) dprintf(next(name, CREATE_TO_WRITE, 0600), "%ld\n", count);
}
