// The functions that a program of the kit calls and the C library has not: the kit brings them for x86-64, and this file
// for arm64. What each does is said by the contracts of the kit's crates os (src/c.rt) and libc (src/heap.rt). Nothing
// proves that it does so, here as in the kit; tests/library/aarch64 compares them with the kit's.
#include <errno.h>
#include <stdint.h>
#include <stdlib.h>
#include <sys/types.h>

extern char **environ;

// What an allocation answers: whether there is memory, and where. The kit reads a bool, whose register is written whole.
struct tried {
    uint64_t ok;
    void *place;
};

// glibc hands the words to what stands here, before main.
static int count;
static char **words;
static void keep(int argc, char **argv) {
    count = argc;
    words = argv;
}
__attribute__((section(".init_array"), used)) static void (*const keep_first)(int, char **) = keep;

// The length of a text that was copied to the buffer, -1 where there is none, -2 where it does not fit.
static ssize_t copied(const char *text, unsigned char *buffer, size_t room) {
    if (text == NULL) return -1;
    size_t length = 0;
    for (; text[length] != 0; length++) {
        if (length == room) return -2;
        buffer[length] = (unsigned char)text[length];
    }
    return (ssize_t)length;
}

size_t rattle_arg_count(void) { return (size_t)count; }

ssize_t rattle_arg(size_t index, unsigned char *buffer, size_t room) {
    return copied(index < (size_t)count ? words[index] : NULL, buffer, room);
}

ssize_t rattle_env(const char *name, unsigned char *buffer, size_t room) { return copied(getenv(name), buffer, room); }

ssize_t rattle_env_at(size_t index, unsigned char *buffer, size_t room) {
    if (environ == NULL) return -1;
    for (size_t i = 0; i < index; i++)
        if (environ[i] == NULL) return -1;
    return copied(environ[index], buffer, room);
}

int rattle_errno(void) { return errno; }

void rattle_set_errno(int error) { errno = error; }

// An address for a caller that is answered no memory.
static unsigned char nothing[16] __attribute__((aligned(16)));

static struct tried tried(void *place) {
    return place != NULL ? (struct tried){1, place} : (struct tried){0, nothing};
}

struct tried rattle_alloc(size_t size, size_t alignment) { return tried(malloc(size != 0 ? size : alignment)); }

struct tried rattle_realloc(void *place, size_t kept, size_t size, size_t alignment) {
    (void)kept;
    return tried(realloc(place, size != 0 ? size : alignment));
}

void rattle_dealloc(void *place) { free(place); }
