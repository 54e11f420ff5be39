// The C library's calls where the stack begins at each multiple of 16 bytes of a page: the median of these positions,
// and the worst of them. See bench/library.

#define SUMS_HASH_UNCHECKED // no length here is refused
#include "times.h"
#include <sums_hash.h>

#define COUNT(array) (sizeof(array) / sizeof *(array))

enum { POSITIONS = 256, STEP = 16, MOST = 65536 };

static uint8_t many[MOST]; // the digests of all pieces

static void blake2b(const uint8_t *input, size_t length, size_t piece, uint8_t *digest) {
    if (piece) sums_blake2b_pieces(many, length / piece * 64, 64, input, length, piece);
    else sums_blake2b(digest, 64, input, length, NULL, 0);
}
static void blake2s(const uint8_t *input, size_t length, size_t piece, uint8_t *digest) {
    if (piece) sums_blake2s_pieces(many, length / piece * 32, 32, input, length, piece);
    else sums_blake2s(digest, 32, input, length, NULL, 0);
}
static void blake3(const uint8_t *input, size_t length, size_t piece, uint8_t *digest) {
    if (piece) sums_blake3_pieces(many, length / piece * 32, input, length, piece);
    else sums_blake3(digest, 32, 0, input, length);
}
static void sha256(const uint8_t *input, size_t length, size_t piece, uint8_t *digest) {
    if (piece) sums_sha256_pieces(many, length / piece * 32, input, length, piece);
    else sums_sha256(digest, input, length);
}
static void sha512(const uint8_t *input, size_t length, size_t piece, uint8_t *digest) {
    if (piece) sums_sha512_pieces(many, length / piece * 64, input, length, piece);
    else sums_sha512(digest, input, length);
}

static const struct way ways[] = {
    {"BLAKE2b", blake2b}, {"BLAKE2s", blake2s}, {"BLAKE3", blake3}, {"SHA-256", sha256}, {"SHA-512", sha512},
};
static const struct row rows[] = {{64}, {1024}, {4096}, {8192}, {16384}, {65536}, {65536, 1024}};

// The speed at each position, of the best call there, the slowest first; each position takes its turn.
static void at_positions(const struct way *way, const uint8_t *input, struct row row, double budget, double *speeds) {
    for (int k = 0; k < POSITIONS; k++) times[0][k] = 1;
    double once = time_of(way, input, row, 1, 0);
    for (int i = 0; i < 100; i++) {
        double time = time_of(way, input, row, 1, 0);
        if (time < once) once = time;
    }
    int calls = 5e-6 / once + 1;
    double start = seconds();
    for (int round = 0; round < 10 || seconds() - start < budget; round++)
        for (int k = 0; k < POSITIONS; k++) {
            double time = time_of(way, input, row, calls, STEP * k);
            if (time < times[0][k]) times[0][k] = time;
        }
    for (int k = 0; k < POSITIONS; k++) speeds[k] = row.length / times[0][k] / 1e6;
    qsort(speeds, POSITIONS, sizeof *speeds, by_size);
}

// usage: positions LEVEL SECONDS    so many seconds for each row
int main(int count, char **words) {
    if (count != 3) return 2;
    const uint8_t *input = random_bytes(MOST);
    printf("\nPositions of the stack, %s, MB/s: the median, and the worst, with its ratio to the median\n\n| message",
           words[1]);
    for (size_t i = 0; i < COUNT(ways); i++) printf(" | %s", ways[i].name);
    printf(" |\n|---|---|---|---|---|---|\n");
    for (size_t r = 0; r < COUNT(rows); r++) {
        printf("| ");
        print_size(rows[r].length);
        if (rows[r].piece) {
            printf(" in pieces of ");
            print_size(rows[r].piece);
        }
        for (size_t i = 0; i < COUNT(ways); i++) {
            double speeds[POSITIONS];
            at_positions(&ways[i], input, rows[r], atof(words[2]), speeds);
            printf(" | %.0f, %.0f (%.2f)", speeds[POSITIONS / 2], speeds[0], speeds[0] / speeds[POSITIONS / 2]);
            fflush(stdout);
        }
        printf(" |\n");
    }
}
