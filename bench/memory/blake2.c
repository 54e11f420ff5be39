// BLAKE2b-512 and BLAKE2s-256 of messages in memory, ours beside other libraries. See bench/blake2.

#include "times.h"
#include <blake2.h>
#include <openssl/evp.h>

#define COUNT(array) (sizeof(array) / sizeof *(array))

// The exports of our library, and of the same library from another checkout.
void bench_blake2b(const uint8_t *, size_t, uint8_t *, size_t);
void bench_blake2s(const uint8_t *, size_t, uint8_t *, size_t);
void before_blake2b(const uint8_t *, size_t, uint8_t *, size_t);
void before_blake2s(const uint8_t *, size_t, uint8_t *, size_t);
// bench/memory/simd
void simd_blake2b(const uint8_t *, size_t, uint8_t *);
void simd_blake2s(const uint8_t *, size_t, uint8_t *);

static EVP_MD_CTX *context;
static const EVP_MD *evp_2b, *evp_2s;

static void ours_2b(const uint8_t *input, size_t length, size_t piece, uint8_t *digest) {
    bench_blake2b(input, length, digest, 64);
}
static void ours_2s(const uint8_t *input, size_t length, size_t piece, uint8_t *digest) {
    bench_blake2s(input, length, digest, 32);
}
#ifdef BEFORE
static void old_2b(const uint8_t *input, size_t length, size_t piece, uint8_t *digest) {
    before_blake2b(input, length, digest, 64);
}
static void old_2s(const uint8_t *input, size_t length, size_t piece, uint8_t *digest) {
    before_blake2s(input, length, digest, 32);
}
#endif
static void crate_2b(const uint8_t *input, size_t length, size_t piece, uint8_t *digest) {
    simd_blake2b(input, length, digest);
}
static void crate_2s(const uint8_t *input, size_t length, size_t piece, uint8_t *digest) {
    simd_blake2s(input, length, digest);
}
static void libb2_2b(const uint8_t *input, size_t length, size_t piece, uint8_t *digest) {
    blake2b(digest, input, NULL, 64, length, 0);
}
static void libb2_2s(const uint8_t *input, size_t length, size_t piece, uint8_t *digest) {
    blake2s(digest, input, NULL, 32, length, 0);
}
static void openssl(const EVP_MD *function, const uint8_t *input, size_t length, uint8_t *digest) {
    EVP_DigestInit_ex(context, function, NULL);
    EVP_DigestUpdate(context, input, length);
    EVP_DigestFinal_ex(context, digest, NULL);
}
static void openssl_2b(const uint8_t *input, size_t length, size_t piece, uint8_t *digest) {
    openssl(evp_2b, input, length, digest);
}
static void openssl_2s(const uint8_t *input, size_t length, size_t piece, uint8_t *digest) {
    openssl(evp_2s, input, length, digest);
}

static const struct way ways_2b[] = {
    {"ours", ours_2b},
#ifdef BEFORE
    {"before", old_2b},
#endif
    {"blake2b_simd", crate_2b},
    {"OpenSSL", openssl_2b},
    {"libb2", libb2_2b},
};
static const struct way ways_2s[] = {
    {"ours", ours_2s},
#ifdef BEFORE
    {"before", old_2s},
#endif
    {"blake2s_simd", crate_2s},
    {"OpenSSL", openssl_2s},
    {"libb2", libb2_2s},
};

static const struct row rows[] = {{64}, {256}, {1024}, {4096}, {16384}, {65536}, {262144}};
static const size_t lengths[] = {0, 1, 63, 64, 65, 127, 128, 129, 255, 256, 257, 1000, 1024, 65537, 262144};
static const size_t whole[] = {0};

// usage: blake2 LEVEL SECONDS    so many seconds for each row
int main(int count, char **words) {
    if (count != 3) return 2;
    context = EVP_MD_CTX_new();
    evp_2b = EVP_MD_fetch(NULL, "BLAKE2B-512", NULL);
    evp_2s = EVP_MD_fetch(NULL, "BLAKE2S-256", NULL);
    if (!context || !evp_2b || !evp_2s) return 2;
    uint8_t *input = random_bytes(262144);
    int wrong = wrong_digests(ways_2b, COUNT(ways_2b), input, lengths, COUNT(lengths), whole, 1) +
                wrong_digests(ways_2s, COUNT(ways_2s), input, lengths, COUNT(lengths), whole, 1);
    if (wrong) return 1;
    char title[64];
    snprintf(title, sizeof title, "BLAKE2b, %s", words[1]);
    print_table(title, ways_2b, COUNT(ways_2b), input, rows, COUNT(rows), atof(words[2]));
    snprintf(title, sizeof title, "BLAKE2s, %s", words[1]);
    print_table(title, ways_2s, COUNT(ways_2s), input, rows, COUNT(rows), atof(words[2]));
}
