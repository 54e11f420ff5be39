// The C library's calls on the pieces of a buffer, beside a call for each piece, of ours and of other libraries. With
// MANY the crates blake2b_simd and blake2s_simd, which hash several at once too. See bench/library.

#define SUMS_HASH_UNCHECKED // no length here is refused
#include "times.h"
#include <blake2.h>
#include <blake3.h>
#include <openssl/evp.h>
#include <sums_hash.h>

#define COUNT(array) (sizeof(array) / sizeof *(array))

enum { KIB = 1024, LONGEST = KIB * KIB, MOST_PIECES = KIB };

static EVP_MD_CTX *context;
static const EVP_MD *evp_blake2b, *evp_blake2s, *evp_sha256, *evp_sha512;
static uint8_t digests[MOST_PIECES * DIGEST];

static size_t pieces(size_t length, size_t piece) {
    return (length + piece - 1) / piece;
}

// ---- all pieces in one call

static void ours_sha256(const uint8_t *input, size_t length, size_t piece, uint8_t *digest) {
    sums_sha256_pieces(digests, 32 * pieces(length, piece), input, length, piece);
}
static void ours_sha512(const uint8_t *input, size_t length, size_t piece, uint8_t *digest) {
    sums_sha512_pieces(digests, 64 * pieces(length, piece), input, length, piece);
}
static void ours_blake2b(const uint8_t *input, size_t length, size_t piece, uint8_t *digest) {
    sums_blake2b_pieces(digests, 64 * pieces(length, piece), 64, input, length, piece);
}
static void ours_blake2s(const uint8_t *input, size_t length, size_t piece, uint8_t *digest) {
    sums_blake2s_pieces(digests, 32 * pieces(length, piece), 32, input, length, piece);
}
static void ours_blake3(const uint8_t *input, size_t length, size_t piece, uint8_t *digest) {
    sums_blake3_pieces(digests, 32 * pieces(length, piece), input, length, piece);
}

#ifdef MANY
// bench/memory/simd
void simd_blake2b_many(const uint8_t *input, size_t length, size_t piece, uint8_t *digests);
void simd_blake2s_many(const uint8_t *input, size_t length, size_t piece, uint8_t *digests);

static void many_blake2b(const uint8_t *input, size_t length, size_t piece, uint8_t *digest) {
    simd_blake2b_many(input, length, piece, digests);
}
static void many_blake2s(const uint8_t *input, size_t length, size_t piece, uint8_t *digest) {
    simd_blake2s_many(input, length, piece, digests);
}
#endif

// ---- a call for each piece

// OpenSSL, with its function and its context made before.
static void openssl(const EVP_MD *function, const uint8_t *input, size_t length, uint8_t *digest) {
    EVP_DigestInit_ex(context, function, NULL);
    EVP_DigestUpdate(context, input, length);
    EVP_DigestFinal_ex(context, digest, NULL);
}

static void in_c(const uint8_t *input, size_t length, uint8_t *digest) {
    blake3_hasher hasher;
    blake3_hasher_init(&hasher);
    blake3_hasher_update(&hasher, input, length);
    blake3_hasher_finalize(&hasher, digest, 32);
}

// `call` hashes `count` bytes at `from`, and writes the digest at `to`.
#define EACH(name, digest_len, call)                                                              \
    static void name(const uint8_t *input, size_t length, size_t piece, uint8_t *digest) {        \
        uint8_t *to = digests;                                                                    \
        for (size_t at = 0; at < length; at += piece, to += digest_len) {                         \
            const uint8_t *from = input + at;                                                     \
            size_t count = length - at < piece ? length - at : piece;                             \
            call;                                                                                 \
        }                                                                                         \
    }

EACH(each_sha256, 32, sums_sha256(to, from, count))
EACH(each_sha512, 64, sums_sha512(to, from, count))
EACH(each_blake2b, 64, sums_blake2b(to, 64, from, count, NULL, 0))
EACH(each_blake2s, 32, sums_blake2s(to, 32, from, count, NULL, 0))
EACH(each_blake3, 32, sums_blake3(to, 32, 0, from, count))
EACH(openssl_sha256, 32, openssl(evp_sha256, from, count, to))
EACH(openssl_sha512, 64, openssl(evp_sha512, from, count, to))
EACH(openssl_blake2b, 64, openssl(evp_blake2b, from, count, to))
EACH(openssl_blake2s, 32, openssl(evp_blake2s, from, count, to))
EACH(libb2_blake2b, 64, blake2b(to, from, NULL, 64, count, 0))
EACH(libb2_blake2s, 32, blake2s(to, from, NULL, 32, count, 0))
EACH(c_blake3, 32, in_c(from, count, to))

// ---- the tables

static const struct way ways_sha256[] = {
    {"ours", ours_sha256}, {"ours, each", each_sha256}, {"OpenSSL, each", openssl_sha256}};
static const struct way ways_sha512[] = {
    {"ours", ours_sha512}, {"ours, each", each_sha512}, {"OpenSSL, each", openssl_sha512}};
static const struct way ways_blake2b[] = {
    {"ours", ours_blake2b},
    {"ours, each", each_blake2b},
#ifdef MANY
    {"blake2b_simd, many", many_blake2b},
#endif
    {"OpenSSL, each", openssl_blake2b},
    {"libb2, each", libb2_blake2b},
};
static const struct way ways_blake2s[] = {
    {"ours", ours_blake2s},
    {"ours, each", each_blake2s},
#ifdef MANY
    {"blake2s_simd, many", many_blake2s},
#endif
    {"OpenSSL, each", openssl_blake2s},
    {"libb2, each", libb2_blake2s},
};
static const struct way ways_blake3[] = {{"ours", ours_blake3}, {"ours, each", each_blake3}, {"C, each", c_blake3}};

static const struct function {
    const char *name;
    int count;
    const struct way *ways;
} functions[] = {
    {"SHA-256", COUNT(ways_sha256), ways_sha256},
    {"SHA-512", COUNT(ways_sha512), ways_sha512},
    {"BLAKE2b", COUNT(ways_blake2b), ways_blake2b},
    {"BLAKE2s", COUNT(ways_blake2s), ways_blake2s},
    {"BLAKE3", COUNT(ways_blake3), ways_blake3},
};

static const struct row rows[] = {
    {64 * KIB, 64}, {64 * KIB, 256}, {64 * KIB, KIB}, {64 * KIB, 4 * KIB}, {256 * KIB, 16 * KIB}, {LONGEST, 64 * KIB},
};
static const struct row compared[] = {
    {0, 64}, {1, 64}, {64, 64}, {65, 64}, {7 * 64, 64}, {1000, 100}, {9 * KIB, KIB}, {65535, 1000},
    {100 * KIB, 8 * KIB}, {LONGEST, 65537},
};

// How many outputs are not those of the last implementation.
static int wrong_outputs(const struct function *function, const uint8_t *input, const struct row *tried, size_t count) {
    static uint8_t right[sizeof digests];
    int wrong = 0;
    for (size_t i = 0; i < count; i++)
        for (int k = function->count - 1; k >= 0; k--) {
            memset(digests, 0, sizeof digests);
            function->ways[k].hash(input, tried[i].length, tried[i].piece, digests);
            if (k == function->count - 1) memcpy(right, digests, sizeof digests);
            if (memcmp(right, digests, sizeof digests) == 0) continue;
            printf("%s, %s is wrong: %zu bytes in pieces of %zu\n", function->name, function->ways[k].name,
                   tried[i].length, tried[i].piece);
            wrong++;
        }
    return wrong;
}

// usage: pieces LEVEL SECONDS    so many seconds for each row
int main(int count, char **words) {
    if (count != 3) return 2;
    context = EVP_MD_CTX_new();
    evp_blake2b = EVP_MD_fetch(NULL, "BLAKE2B-512", NULL);
    evp_blake2s = EVP_MD_fetch(NULL, "BLAKE2S-256", NULL);
    evp_sha256 = EVP_MD_fetch(NULL, "SHA256", NULL);
    evp_sha512 = EVP_MD_fetch(NULL, "SHA512", NULL);
    if (!context || !evp_blake2b || !evp_blake2s || !evp_sha256 || !evp_sha512) return 2;
    uint8_t *input = random_bytes(LONGEST);
    for (size_t i = 0; i < COUNT(functions); i++)
        if (wrong_outputs(&functions[i], input, compared, COUNT(compared)) ||
            wrong_outputs(&functions[i], input, rows, COUNT(rows)))
            return 1;
    for (size_t i = 0; i < COUNT(functions); i++) {
        char title[64];
        snprintf(title, sizeof title, "%s of pieces, %s", functions[i].name, words[1]);
        print_table(title, functions[i].ways, functions[i].count, input, rows, COUNT(rows), atof(words[2]));
    }
}
