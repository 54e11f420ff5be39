// The C library's calls on whole messages, beside other libraries. See bench/library.

#define SUMS_HASH_UNCHECKED // no length here is refused
#include "times.h"
#include <blake2.h>
#include <blake3.h>
#include <openssl/evp.h>
#include <sums_hash.h>

#define COUNT(array) (sizeof(array) / sizeof *(array))

static EVP_MD_CTX *context;
static const EVP_MD *evp_blake2b, *evp_blake2s, *evp_sha256, *evp_sha512;

static void ours_blake2b(const uint8_t *input, size_t length, size_t piece, uint8_t *digest) {
    sums_blake2b(digest, 64, input, length, NULL, 0);
}
static void ours_blake2s(const uint8_t *input, size_t length, size_t piece, uint8_t *digest) {
    sums_blake2s(digest, 32, input, length, NULL, 0);
}
static void ours_blake3(const uint8_t *input, size_t length, size_t piece, uint8_t *digest) {
    sums_blake3(digest, 32, 0, input, length);
}
static void ours_sha256(const uint8_t *input, size_t length, size_t piece, uint8_t *digest) {
    sums_sha256(digest, input, length);
}
static void ours_sha512(const uint8_t *input, size_t length, size_t piece, uint8_t *digest) {
    sums_sha512(digest, input, length);
}

static void libb2_blake2b(const uint8_t *input, size_t length, size_t piece, uint8_t *digest) {
    blake2b(digest, input, NULL, 64, length, 0);
}
static void libb2_blake2s(const uint8_t *input, size_t length, size_t piece, uint8_t *digest) {
    blake2s(digest, input, NULL, 32, length, 0);
}

static void in_c_blake3(const uint8_t *input, size_t length, size_t piece, uint8_t *digest) {
    blake3_hasher hasher;
    blake3_hasher_init(&hasher);
    blake3_hasher_update(&hasher, input, length);
    blake3_hasher_finalize(&hasher, digest, 32);
}

// OpenSSL, with its function and its context made before.
static void openssl(const EVP_MD *function, const uint8_t *input, size_t length, uint8_t *digest) {
    EVP_DigestInit_ex(context, function, NULL);
    EVP_DigestUpdate(context, input, length);
    EVP_DigestFinal_ex(context, digest, NULL);
}
static void openssl_blake2b(const uint8_t *input, size_t length, size_t piece, uint8_t *digest) {
    openssl(evp_blake2b, input, length, digest);
}
static void openssl_blake2s(const uint8_t *input, size_t length, size_t piece, uint8_t *digest) {
    openssl(evp_blake2s, input, length, digest);
}
static void openssl_sha256(const uint8_t *input, size_t length, size_t piece, uint8_t *digest) {
    openssl(evp_sha256, input, length, digest);
}
static void openssl_sha512(const uint8_t *input, size_t length, size_t piece, uint8_t *digest) {
    openssl(evp_sha512, input, length, digest);
}

static const struct function {
    const char *name;
    int count;
    struct way ways[3];
} functions[] = {
    {"BLAKE2b", 3, {{"ours", ours_blake2b}, {"OpenSSL", openssl_blake2b}, {"libb2", libb2_blake2b}}},
    {"BLAKE2s", 3, {{"ours", ours_blake2s}, {"OpenSSL", openssl_blake2s}, {"libb2", libb2_blake2s}}},
    {"BLAKE3", 2, {{"ours", ours_blake3}, {"C", in_c_blake3}}},
    {"SHA-256", 2, {{"ours", ours_sha256}, {"OpenSSL", openssl_sha256}}},
    {"SHA-512", 2, {{"ours", ours_sha512}, {"OpenSSL", openssl_sha512}}},
};

#define MIB 1048576
// with lengths that end within a chunk of BLAKE3, whose last chunk is hashed by itself
static const struct row rows[] = {
    {64},   {128},  {256},  {448},   {512},   {1024},  {1500},  {2048}, {2500},
    {4096}, {5500}, {8192}, {10000}, {12288}, {16384}, {65536}, {MIB},
};
static const size_t lengths[] = {0, 1, 63, 64, 65, 127, 128, 129, 1023, 1024, 1025, 16384, 100000, MIB};
static const size_t whole[] = {0};

// usage: library LEVEL SECONDS    so many seconds for each row
int main(int count, char **words) {
    if (count != 3) return 2;
    context = EVP_MD_CTX_new();
    evp_blake2b = EVP_MD_fetch(NULL, "BLAKE2B-512", NULL);
    evp_blake2s = EVP_MD_fetch(NULL, "BLAKE2S-256", NULL);
    evp_sha256 = EVP_MD_fetch(NULL, "SHA256", NULL);
    evp_sha512 = EVP_MD_fetch(NULL, "SHA512", NULL);
    if (!context || !evp_blake2b || !evp_blake2s || !evp_sha256 || !evp_sha512) return 2;
    uint8_t *input = random_bytes(MIB);
    for (size_t i = 0; i < COUNT(functions); i++)
        if (wrong_digests(functions[i].ways, functions[i].count, input, lengths, COUNT(lengths), whole, 1)) return 1;
    for (size_t i = 0; i < COUNT(functions); i++) {
        char title[64];
        snprintf(title, sizeof title, "%s, %s", functions[i].name, words[1]);
        print_table(title, functions[i].ways, functions[i].count, input, rows, COUNT(rows), atof(words[2]));
    }
}
