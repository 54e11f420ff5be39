// Compares the functions of packaging/aarch64.c with the kit's of the same names, which a program for x86-64 has: the
// words and the environment of this run at each length of the buffer, the numbers of faults, and memory. See tests/library/aarch64.

#include <stdbool.h>
#include <stdio.h>
#include <string.h>

// ours beside the kit's
#define tried our_tried
#define rattle_arg_count our_arg_count
#define rattle_arg our_arg
#define rattle_env our_env
#define rattle_env_at our_env_at
#define rattle_errno our_errno
#define rattle_set_errno our_set_errno
#define rattle_alloc our_alloc
#define rattle_realloc our_realloc
#define rattle_dealloc our_dealloc
#include "../../packaging/aarch64.c"
#undef tried
#undef rattle_arg_count
#undef rattle_arg
#undef rattle_env
#undef rattle_env_at
#undef rattle_errno
#undef rattle_set_errno
#undef rattle_alloc
#undef rattle_realloc
#undef rattle_dealloc

// as the kit's crates os and libc declare them
struct tried {
    bool ok;
    unsigned char *place;
};
size_t rattle_arg_count(void);
ssize_t rattle_arg(size_t index, unsigned char *buffer, size_t room);
ssize_t rattle_env(const char *name, unsigned char *buffer, size_t room);
ssize_t rattle_env_at(size_t index, unsigned char *buffer, size_t room);
int rattle_errno(void);
void rattle_set_errno(int error);
struct tried rattle_alloc(size_t size, size_t alignment);
struct tried rattle_realloc(void *place, size_t kept, size_t size, size_t alignment);
void rattle_dealloc(void *place);

static unsigned long compared, wrong;

static void judged(const char *what, size_t number, bool is_right) {
    compared++;
    if (!is_right && ++wrong <= 20) printf("%s, %zu: wrong\n", what, number);
}

enum { ROOM = 300 };
static unsigned char ours[ROOM + 1], theirs[ROOM + 1];

// Both get a buffer of each length up to ROOM, which is one byte shorter than the memory.
#define AT_EACH_LENGTH(what, number, our_call, kit_call)                                     \
    for (size_t room = 0; room <= ROOM; room++) {                                            \
        memset(ours, 0xa5, sizeof ours);                                                     \
        memset(theirs, 0xa5, sizeof theirs);                                                 \
        ssize_t got = our_call, want = kit_call;                                             \
        judged(what, number, got == want && memcmp(ours, theirs, sizeof ours) == 0);         \
    }

static void words_are_same(void) {
    size_t count = rattle_arg_count(), beyond[] = {0x7fffffff, 0x80000000, 0xffffffff, 0x100000000, SIZE_MAX};
    judged("the number of words", count, our_arg_count() == count);
    for (size_t index = 0; index < count + 4; index++)
        AT_EACH_LENGTH("a word", index, our_arg(index, ours, room), rattle_arg(index, theirs, room))
    for (size_t i = 0; i < sizeof beyond / sizeof *beyond; i++)
        AT_EACH_LENGTH("no word", beyond[i], our_arg(beyond[i], ours, room), rattle_arg(beyond[i], theirs, room))
}

static void environment_is_same(void) {
    const char *names[] = {"EMPTY", "SHORT", "LONG", "NONE", "", "SHOR", "SHORT=", "=", "TWICE", "PATH"};
    for (size_t i = 0; i < sizeof names / sizeof *names; i++)
        AT_EACH_LENGTH(names[i], i, our_env(names[i], ours, room), rattle_env(names[i], theirs, room))
    for (size_t index = 0; index < 20; index++)
        AT_EACH_LENGTH("a variable", index, our_env_at(index, ours, room), rattle_env_at(index, theirs, room))
    size_t last = SIZE_MAX;
    AT_EACH_LENGTH("no variable", last, our_env_at(last, ours, room), rattle_env_at(last, theirs, room))
}

static void faults_are_same(void) {
    int errors[] = {0, 1, 2, 4, 5, 11, 12, 22, 28, 32, 133, 4095, -1, 0x7fffffff};
    for (size_t i = 0; i < sizeof errors / sizeof *errors; i++) {
        our_set_errno(errors[i]);
        judged("a fault that is set", i, rattle_errno() == errors[i] && our_errno() == errors[i]);
        rattle_set_errno(-2);
        judged("a fault that is read", i, our_errno() == -2);
    }
}

// Whether both have memory, or neither, and where there is none an address that every type may have.
static void answers_are_same(const char *what, size_t size, struct our_tried got, struct tried want) {
    judged(what, size, got.ok <= 1 && got.ok == want.ok && got.place != NULL && (uintptr_t)got.place % 16 == 0);
}

static void memory_is_same(void) {
    size_t sizes[] = {0, 1, 15, 16, 17, 1000, 4096, 1u << 20, (size_t)1 << 46, (size_t)1 << 62, ((size_t)1 << 63) - 1};
    enum { SIZES = sizeof sizes / sizeof *sizes };
    for (size_t i = 0; i < SIZES * SIZES; i++) {
        size_t size = sizes[i / SIZES], next = sizes[i % SIZES], alignment = (size_t)1 << i % 5;
        struct our_tried got = our_alloc(size, alignment);
        struct tried want = rattle_alloc(size, alignment);
        answers_are_same("memory", size, got, want);
        if (!got.ok || !want.ok) continue;
        memset(got.place, 0x5a, size);
        memset(want.place, 0x5a, size);
        size_t kept = size < next ? size : next;
        struct our_tried moved = our_realloc(got.place, kept, next, alignment);
        struct tried wanted = rattle_realloc(want.place, kept, next, alignment);
        answers_are_same("other memory", next, moved, wanted);
        // where there is none, the old block is as it was
        unsigned char *place = moved.ok ? moved.place : got.place;
        size_t whole = moved.ok ? kept : size;
        for (size_t at = 0; at < whole; at++)
            if (place[at] != 0x5a) judged("what was kept", at, false);
        our_dealloc(place);
        rattle_dealloc(wanted.ok ? wanted.place : want.place);
    }
}

int main(void) {
    words_are_same();
    faults_are_same();
    environment_is_same();
    memory_is_same();
    environ = NULL;
    environment_is_same();
    printf("aarch64_functions: %lu comparisons, %lu wrong\n", compared, wrong);
    return wrong != 0;
}
