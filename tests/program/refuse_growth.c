/* Loaded before the C library: the allocation whose number REFUSE gives is refused, with REFUSE_REST
   each one after it too, and each one of REFUSE_SIZE bytes. At the end the number of allocations is
   written into the file that REFUSE_COUNT names. */
typedef unsigned long size_t;

extern void *__libc_malloc(size_t);
extern void *__libc_realloc(void *, size_t);
extern char *getenv(const char *);
extern long strtol(const char *, char **, int);
extern int open(const char *, int, ...);
extern int dprintf(int, const char *, ...);

#define CREATE_TO_WRITE 01101

static long count, refused_count = -2, refused_size;
static int refuses_rest;

static long number_in(const char *name) {
    const char *text = getenv(name);
    return text ? strtol(text, 0, 10) : -1;
}

static int refuses(size_t size) {
    if (refused_count == -2) {
        refused_count = number_in("REFUSE");
        refused_size = number_in("REFUSE_SIZE");
        refuses_rest = getenv("REFUSE_REST") != 0;
    }
    count++;
    if (refuses_rest && refused_count > 0 && count > refused_count) return 1;
    return count == refused_count || (long)size == refused_size;
}

void *malloc(size_t size) {
    return refuses(size) ? 0 : __libc_malloc(size);
}

void *realloc(void *old, size_t size) {
    return refuses(size) ? 0 : __libc_realloc(old, size);
}

__attribute__((destructor)) static void tell_count(void) {
    const char *name = getenv("REFUSE_COUNT");
    if (name) dprintf(open(name, CREATE_TO_WRITE, 0600), "%ld\n", count);
}
