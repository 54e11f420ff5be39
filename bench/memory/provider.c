// Digests and MACs through OpenSSL's interface, by the provider of sums and by OpenSSL's own. See bench/provider.

#include "times.h"
#include <openssl/core_names.h>
#include <openssl/evp.h>
#include <openssl/params.h>
#include <openssl/provider.h>

#define COUNT(array) (sizeof(array) / sizeof *(array))

enum { OURS, OWN, PROVIDERS };
static const char *const properties[PROVIDERS] = {"provider=sums", "provider=default"};

enum { SHA256, SHA512, BLAKE2B, BLAKE2S, BLAKE3, DIGESTS };
static const char *const digest_names[DIGESTS] = {"SHA2-256", "SHA2-512", "BLAKE2B-512", "BLAKE2S-256", "BLAKE3"};

enum { BLAKE2BMAC, BLAKE2SMAC, BLAKE3MAC, MACS };
static const char *const mac_names[MACS] = {"BLAKE2BMAC", "BLAKE2SMAC", "BLAKE3MAC"};

// Functions and contexts are made before; OpenSSL has no BLAKE3.
static EVP_MD_CTX *context;
static EVP_MD *digests[DIGESTS][PROVIDERS];
static EVP_MAC_CTX *macs[MACS][PROVIDERS];

static void find(void) {
    context = EVP_MD_CTX_new();
    for (int p = 0; p < PROVIDERS; p++) {
        for (int i = 0; i < DIGESTS; i++) digests[i][p] = EVP_MD_fetch(NULL, digest_names[i], properties[p]);
        for (int i = 0; i < MACS; i++) {
            EVP_MAC *mac = EVP_MAC_fetch(NULL, mac_names[i], properties[p]);
            macs[i][p] = mac ? EVP_MAC_CTX_new(mac) : NULL;
        }
    }
}

static void digest_of(const EVP_MD *function, const uint8_t *input, size_t length, uint8_t *digest) {
    EVP_DigestInit_ex2(context, function, NULL);
    EVP_DigestUpdate(context, input, length);
    EVP_DigestFinal_ex(context, digest, NULL);
}

static void mac_of(EVP_MAC_CTX *mac, const uint8_t *input, size_t length, uint8_t *digest) {
    static const uint8_t key[32];
    size_t written;
    EVP_MAC_init(mac, key, sizeof key, NULL);
    EVP_MAC_update(mac, input, length);
    EVP_MAC_final(mac, digest, &written, DIGEST);
}

#define WAY(call, functions, row, provider)                                                                 \
    static void row##_##provider(const uint8_t *input, size_t length, size_t piece, uint8_t *digest) {      \
        call(functions[row][provider], input, length, digest);                                              \
    }
#define WAYS_OF(call, functions, row) WAY(call, functions, row, OURS) WAY(call, functions, row, OWN)
WAYS_OF(digest_of, digests, SHA256)
WAYS_OF(digest_of, digests, SHA512)
WAYS_OF(digest_of, digests, BLAKE2B)
WAYS_OF(digest_of, digests, BLAKE2S)
WAY(digest_of, digests, BLAKE3, OURS)
WAYS_OF(mac_of, macs, BLAKE2BMAC)
WAYS_OF(mac_of, macs, BLAKE2SMAC)
WAY(mac_of, macs, BLAKE3MAC, OURS)

static const struct function {
    const char *name;
    int count;
    struct way ways[PROVIDERS];
} functions[] = {
    {"SHA-256", 2, {{"ours", SHA256_OURS}, {"OpenSSL", SHA256_OWN}}},
    {"SHA-512", 2, {{"ours", SHA512_OURS}, {"OpenSSL", SHA512_OWN}}},
    {"BLAKE2b", 2, {{"ours", BLAKE2B_OURS}, {"OpenSSL", BLAKE2B_OWN}}},
    {"BLAKE2s", 2, {{"ours", BLAKE2S_OURS}, {"OpenSSL", BLAKE2S_OWN}}},
    {"BLAKE3", 1, {{"ours", BLAKE3_OURS}}},
    {"BLAKE2b under a key", 2, {{"ours", BLAKE2BMAC_OURS}, {"OpenSSL", BLAKE2BMAC_OWN}}},
    {"BLAKE2s under a key", 2, {{"ours", BLAKE2SMAC_OURS}, {"OpenSSL", BLAKE2SMAC_OWN}}},
    {"BLAKE3 under a key", 1, {{"ours", BLAKE3MAC_OURS}}},
};

#define MIB 1048576
static const struct row rows[] = {{64}, {1024}, {16384}, {MIB}};
static const size_t lengths[] = {0, 1, 63, 64, 65, 127, 128, 129, 1023, 1024, 1025, 16384, 100000, MIB};
static const size_t whole[] = {0};

// usage: provider LEVEL SECONDS    so many seconds for each row, with the module in the folder OPENSSL_MODULES
int main(int count, char **words) {
    if (count != 3 || !OSSL_PROVIDER_load(NULL, "sums") || !OSSL_PROVIDER_load(NULL, "default")) return 2;
    find();
    uint8_t *input = random_bytes(MIB);
    for (size_t i = 0; i < COUNT(functions); i++)
        if (wrong_digests(functions[i].ways, functions[i].count, input, lengths, COUNT(lengths), whole, 1)) return 1;
    printf("%s\n", OpenSSL_version(OPENSSL_VERSION));
    for (size_t i = 0; i < COUNT(functions); i++) {
        char title[64];
        snprintf(title, sizeof title, "%s, %s", functions[i].name, words[1]);
        print_table(title, functions[i].ways, functions[i].count, input, rows, COUNT(rows), atof(words[2]));
    }
}
