// BLAKE3 of messages in memory, ours beside the C library at the same processor level. See bench/blake3.

#include "times.h"
#include <blake3.h>

#define COUNT(array) (sizeof(array) / sizeof *(array))

// The exports of our library, and of the same library from another checkout.
void bench_blake3(size_t, const uint8_t *, size_t, uint8_t *, size_t);
void bench_part(const uint8_t *, size_t, uint8_t *, size_t);
void before_blake3(size_t, const uint8_t *, size_t, uint8_t *, size_t);

static void ours(const uint8_t *input, size_t length, size_t piece, uint8_t *digest) {
    bench_blake3(piece, input, length, digest, 32);
}
#ifdef BEFORE
static void before(const uint8_t *input, size_t length, size_t piece, uint8_t *digest) {
    before_blake3(piece, input, length, digest, 32);
}
#endif
static void in_c(const uint8_t *input, size_t length, size_t piece, uint8_t *digest) {
    blake3_hasher hasher;
    blake3_hasher_init(&hasher);
    if (piece == 0) piece = length ? length : 1;
    for (size_t i = 0; i < length; i += piece)
        blake3_hasher_update(&hasher, input + i, length - i < piece ? length - i : piece);
    blake3_hasher_finalize(&hasher, digest, 32);
}

static void as_part(const uint8_t *input, size_t length, size_t piece, uint8_t *digest) {
    bench_part(input, length, digest, 32);
}

static const struct way ways[] = {
    {"ours", ours},
#ifdef BEFORE
    {"before", before},
#endif
    {"C", in_c},
};

// A part beside the hasher: both take the message whole.
static const struct way parts[] = {{"part", as_part}, {"hasher", ours}};

#define MIB 1048576
static const struct row rows[] = {
    {64}, {256}, {1024}, {2048}, {3072}, {4096}, {8192}, {16384}, {65536}, {262144}, {MIB},
    {MIB, 16384}, {MIB, 65536}, {MIB, 262144},
};
static const struct row part_rows[] = {{65536}, {65537}, {102400}, {130000}, {262144}, {700000}, {MIB}};
static const size_t lengths[] = {
    0, 1, 63, 64, 65, 1023, 1024, 1025, 2048, 2049, 3072, 4096, 5000, 8191, 8192, 8193, 9216, 16384, 16385, 31744,
    65536, 65537, 100000, 131072, 200000, 262144, 262145, 500000, MIB,
};
static const size_t whole[] = {0};
static const size_t pieces[] = {0, 63, 64, 1000, 1024, 4096, 7168, 8192, 8193, 16384, 65536};

// usage: blake3 LEVEL SECONDS    so many seconds for each row
int main(int count, char **words) {
    if (count != 3) return 2;
    uint8_t *input = random_bytes(MIB);
    if (wrong_digests(ways, COUNT(ways), input, lengths, COUNT(lengths), pieces, COUNT(pieces)) +
        wrong_digests(parts, COUNT(parts), input, lengths, COUNT(lengths), whole, 1))
        return 1;
    char title[64];
    snprintf(title, sizeof title, "BLAKE3, %s", words[1]);
    print_table(title, ways, COUNT(ways), input, rows, COUNT(rows), atof(words[2]));
    snprintf(title, sizeof title, "A part of BLAKE3, %s", words[1]);
    print_table(title, parts, COUNT(parts), input, part_rows, COUNT(part_rows), atof(words[2]));
}
