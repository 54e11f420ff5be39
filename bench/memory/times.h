// Times several implementations of one function side by side and prints a table. Every implementation takes its
// turn in each round, for some 50 microseconds, so that what else runs on the machine falls on all of them alike.
// A row gives the speed at the first percentile of an implementation's rounds; behind it, in brackets, stand how
// many times as fast ours is by that percentile, and by the median over the rounds of the ratio within a round.

#include <alloca.h>
#include <stdint.h>
#include <stdio.h>
#include <stdlib.h>
#include <string.h>
#include <time.h>

struct way {
    const char *name;
    // Hashes the input in pieces of so many bytes, or whole where that is 0.
    void (*hash)(const uint8_t *input, size_t length, size_t piece, uint8_t *digest);
};

struct row {
    size_t length, piece;
};

enum { WAYS = 8, ROUNDS = 200000, DIGEST = 64 };

static double times[WAYS][ROUNDS], ratios[ROUNDS];

static double seconds(void) {
    struct timespec t;
    clock_gettime(CLOCK_MONOTONIC, &t);
    return t.tv_sec + 1e-9 * t.tv_nsec;
}

static int by_size(const void *a, const void *b) {
    double x = *(const double *)a, y = *(const double *)b;
    return (x > y) - (x < y);
}

static uint8_t *random_bytes(size_t length) {
    uint8_t *bytes = aligned_alloc(4096, length);
    if (!bytes) exit(2);
    for (size_t i = 0; i < length; i++) bytes[i] = rand();
    return bytes;
}

// The time of one call among `calls`, with the stack moved down by `offset` bytes first: where the stack lies
// against the input changes some implementations by several percent.
static __attribute__((noinline)) double time_of(const struct way *way, const uint8_t *input, struct row row,
                                                int calls, size_t offset) {
    volatile uint8_t *moved = alloca(offset + 16);
    moved[0] = 0;
    uint8_t digest[DIGEST];
    double start = seconds();
    for (int i = 0; i < calls; i++) way->hash(input, row.length, row.piece, digest);
    return (seconds() - start) / calls;
}

static void print_size(size_t bytes) {
    if (bytes >= 1 << 20 && bytes % (1 << 20) == 0) printf("%zu MiB", bytes >> 20);
    else if (bytes >= 1 << 10 && bytes % (1 << 10) == 0) printf("%zu KiB", bytes >> 10);
    else printf("%zu B", bytes);
}

static void print_row(const struct way *ways, int count, const uint8_t *input, struct row row, double budget) {
    double least = 50e-6;
    for (int i = 0; i < 100; i++) {
        double time = time_of(&ways[0], input, row, 1, 0);
        if (time < least) least = time;
    }
    int calls = 50e-6 / least + 0.5;
    int rounds = 0;
    for (double start = seconds(); rounds < ROUNDS && (rounds < 100 || seconds() - start < budget); rounds++)
        for (int turn = 0; turn < count; turn++) {
            int k = (rounds + turn) % count;
            times[k][rounds] = time_of(&ways[k], input, row, calls, 64 * (rounds % 61));
        }
    printf("| ");
    print_size(row.length);
    if (row.piece) {
        printf(" in pieces of ");
        print_size(row.piece);
    }
    double middle[WAYS];
    for (int k = 1; k < count; k++) {
        for (int i = 0; i < rounds; i++) ratios[i] = times[k][i] / times[0][i];
        qsort(ratios, rounds, sizeof *ratios, by_size);
        middle[k] = ratios[rounds / 2];
    }
    double first = 0;
    for (int k = 0; k < count; k++) {
        qsort(times[k], rounds, sizeof *times[k], by_size);
        double time = times[k][rounds / 100];
        if (k == 0) first = time;
        printf(" | %.0f", row.length / time / 1e6);
        if (k > 0) printf(" (%.2f, %.2f)", time / first, middle[k]);
    }
    printf(" |\n");
    fflush(stdout);
}

static void print_table(const char *title, const struct way *ways, int count, const uint8_t *input,
                        const struct row *rows, size_t row_count, double budget) {
    printf("\n%s, MB/s\n\n| message", title);
    for (int k = 0; k < count; k++) printf(" | %s", ways[k].name);
    printf(" |\n|---");
    for (int k = 0; k < count; k++) printf("|---");
    printf("|\n");
    for (size_t i = 0; i < row_count; i++) print_row(ways, count, input, rows[i], budget);
}

// How many digests of these messages and cuts are not those that the last implementation gives.
static int wrong_digests(const struct way *ways, int count, const uint8_t *input, const size_t *lengths,
                         size_t length_count, const size_t *pieces, size_t piece_count) {
    int wrong = 0, compared = 0;
    for (size_t l = 0; l < length_count; l++)
        for (size_t p = 0; p < piece_count; p++) {
            uint8_t right[DIGEST] = {0}, digest[DIGEST];
            ways[count - 1].hash(input, lengths[l], 0, right);
            for (int k = 0; k < count; k++, compared++) {
                memset(digest, 0, DIGEST);
                ways[k].hash(input, lengths[l], pieces[p], digest);
                if (memcmp(right, digest, DIGEST) == 0) continue;
                printf("%s is wrong at %zu bytes in pieces of %zu\n", ways[k].name, lengths[l], pieces[p]);
                wrong++;
            }
        }
    printf("%d of %d digests are equal\n", compared - wrong, compared);
    return wrong;
}
