// What the programs of tests/library/library share: comparisons that are counted, and memory between two pages that no call may
// touch.
#define _GNU_SOURCE
#include <stdio.h>
#include <stdlib.h>
#include <string.h>
#include <sums_hash.h>
#include <sys/mman.h>

static unsigned long compared, wrong;

static void judged(const char *what, size_t length, int ok) {
    compared++;
    if (!ok && ++wrong <= 20) printf("%s, a message of %zu bytes: wrong\n", what, length);
}

static void same(const char *what, size_t length, const void *got, const void *want, size_t count) {
    judged(what, length, memcmp(got, want, count) == 0);
}

static void status(const char *what, uint32_t got, uint32_t want) {
    compared++;
    if (got != want && ++wrong <= 20) printf("%s: status %u, not %u\n", what, got, want);
}

// ends: the last line of a program, and its status
static int ends(const char *program) {
    printf("%s: %lu comparisons, %lu wrong\n", program, compared, wrong);
    return wrong != 0;
}

enum { PAGE = 4096, ROOM = 352 * PAGE };

// An area of ROOM bytes with a page on each side that ends the program where it is touched.
static uint8_t *area(void) {
    uint8_t *pages = mmap(NULL, ROOM + 2 * PAGE, PROT_NONE, MAP_PRIVATE | MAP_ANONYMOUS, -1, 0);
    if (pages == MAP_FAILED || mprotect(pages + PAGE, ROOM, PROT_READ | PROT_WRITE) != 0) {
        perror("mmap");
        exit(2);
    }
    return pages + PAGE;
}

// So many bytes of an area, at its end or at its beginning.
static uint8_t *at_edge(uint8_t *area, size_t size, int at_end) {
    return at_end ? area + ROOM - size : area;
}
