/* Loaded before the C library: by the clock a read takes a second, and a look at it a nanosecond. */
struct timespec {
    long seconds, nanoseconds;
};

extern void *dlsym(void *, const char *);

#define AFTER_THIS ((void *)-1)

static long reads, looks;

long read(int file, void *buffer, unsigned long size) {
    long (*next)(int, void *, unsigned long) = dlsym(AFTER_THIS, "read");
    reads++;
    return next(file, buffer, size);
}

int clock_gettime(int clock, struct timespec *now) {
    (void)clock;
    now->seconds = reads;
    now->nanoseconds = looks++;
    return 0;
}
