// The vectors of tests/tables/vectors through OpenSSL's interface: digests and MACs of our provider, and HMAC and HKDF of
// OpenSSL over our digests. See tests/languages/provider.
// usage: provider_vectors MODULES VECTORS    the folders of the module and of the tables

#include "provider.h"
#include <openssl/kdf.h>

// ---- the tables

enum { CELLS = 7, LONGEST = 1 << 20 };

struct bytes {
    uint8_t *at;
    size_t count;
};

// The bytes that a cell stands for, as a table says at its head; they are freed by the caller.
static struct bytes read_cell(const char *cell) {
    struct bytes bytes = {calloc(LONGEST, 1), 0};
    unsigned first, count;
    if (strncmp(cell, "text:", 5) == 0) {
        bytes.count = strlen(cell + 5);
        memcpy(bytes.at, cell + 5, bytes.count);
    } else if (sscanf(cell, "count:%u:%u", &first, &count) == 2) {
        for (; bytes.count < count; bytes.count++) bytes.at[bytes.count] = first + bytes.count;
    } else if (sscanf(cell, "repeat:%2x:%u", &first, &count) == 2) {
        for (; bytes.count < count; bytes.count++) bytes.at[bytes.count] = first;
    } else if (sscanf(cell, "cycle:%u", &count) == 1) {
        for (; bytes.count < count; bytes.count++) bytes.at[bytes.count] = bytes.count % 251;
    } else if (strcmp(cell, "-") != 0) {
        const char *digits = strncmp(cell, "hex:", 4) == 0 ? cell + 4 : cell;
        for (; sscanf(digits + 2 * bytes.count, "%2x", &first) == 1; bytes.count++) bytes.at[bytes.count] = first;
    }
    return bytes;
}

// Hands each row of a table to a function: the first cell as it is, and of all the bytes that they stand for.
static void each_row(const char *folder, const char *name, void (*row)(char *cells[], struct bytes bytes[])) {
    static char path[4096], line[LONGEST];
    snprintf(path, sizeof path, "%s/%s.tsv", folder, name);
    FILE *file = fopen(path, "r");
    int rows = 0;
    while (file && fgets(line, sizeof line, file)) {
        char *cells[CELLS], *rest = line;
        struct bytes bytes[CELLS] = {{0}};
        if (line[0] == '#') continue;
        if (rows++ == 0) continue; // the headings
        for (int i = 0; i < CELLS; i++) {
            cells[i] = rest ? strsep(&rest, "\t\n") : "-";
            bytes[i] = read_cell(cells[i]);
        }
        row(cells, bytes);
        for (int i = 0; i < CELLS; i++) free(bytes[i].at);
    }
    judged(path, 0, rows > 1);
    if (file) fclose(file);
}

// ---- digests and MACs

static const struct {
    const char *name, *digest, *mac;
} hashes[] = {
    {"sha256", "SHA2-256", NULL},
    {"sha512", "SHA2-512", NULL},
    {"blake2b", "BLAKE2B-512", "BLAKE2BMAC"},
    {"blake2s", "BLAKE2S-256", "BLAKE2SMAC"},
};

static int hash_of(const char *name) {
    int i = 0;
    while (strcmp(hashes[i].name, name) != 0) i++;
    return i;
}

// A digest of a message in pieces of so many bytes, with a parameter `size` where that is asked for.
static void of_pieces(const char *name, struct bytes message, size_t piece, struct bytes want, int is_sized) {
    uint8_t got[EVP_MAX_MD_SIZE];
    unsigned count;
    OSSL_PARAM size[] = {OSSL_PARAM_construct_size_t("size", &want.count), OSSL_PARAM_END};
    EVP_MD *function = digest(name, OURS);
    EVP_MD_CTX *hasher = EVP_MD_CTX_new();
    DONE(EVP_DigestInit_ex2(hasher, function, is_sized ? size : NULL));
    for (size_t at = 0; at < message.count; at += piece)
        DONE(EVP_DigestUpdate(hasher, message.at + at, message.count - at < piece ? message.count - at : piece));
    DONE(EVP_DigestFinal_ex(hasher, got, &count));
    judged(name, message.count, count == want.count);
    same(name, message.count, got, want.at, want.count);
    EVP_MD_CTX_free(hasher);
    EVP_MD_free(function);
}

static void digest_is(const char *name, struct bytes message, struct bytes want, int is_sized) {
    of_pieces(name, message, 61, want, is_sized);
    of_pieces(name, message, LONGEST, want, is_sized);
}

// The bytes of a MAC's output from a position on.
static void mac_is(const char *name, OSSL_PARAM params[], struct bytes message, size_t position, struct bytes want) {
    EVP_MAC_CTX *tag = mac(name, OURS);
    uint8_t *got = calloc(1, position + want.count);
    size_t count, half = message.count / 2;
    DONE(EVP_MAC_init(tag, NULL, 0, params));
    DONE(EVP_MAC_update(tag, message.at, half));
    DONE(EVP_MAC_update(tag, message.at + half, message.count - half));
    DONE(EVP_MAC_final(tag, got, &count, position + want.count));
    judged(name, message.count, count == position + want.count);
    same(name, message.count, got + position, want.at, want.count);
    EVP_MAC_CTX_free(tag);
    free(got);
}

static void sha2_row(char *cells[], struct bytes bytes[]) {
    digest_is(hashes[hash_of(cells[0])].digest, bytes[1], bytes[2], 0);
}

// hash, key, salt, personalization, message, digest; a salt without a key is none of OpenSSL's.
static void blake2_row(char *cells[], struct bytes bytes[]) {
    int hash = hash_of(cells[0]);
    OSSL_PARAM params[] = {
        OSSL_PARAM_construct_octet_string("key", bytes[1].at, bytes[1].count),
        OSSL_PARAM_construct_octet_string("salt", bytes[2].at, bytes[2].count),
        OSSL_PARAM_construct_octet_string("custom", bytes[3].at, bytes[3].count),
        OSSL_PARAM_construct_size_t("size", &bytes[5].count),
        OSSL_PARAM_END,
    };
    if (bytes[1].count > 0)
        mac_is(hashes[hash].mac, params, bytes[4], 0, bytes[5]);
    else if (bytes[2].count == 0 && bytes[3].count == 0)
        digest_is(hashes[hash].digest, bytes[4], bytes[5], 1);
}

// The bytes of BLAKE3's output from a position on.
static void output_is(struct bytes message, size_t position, struct bytes want) {
    EVP_MD *function = digest("BLAKE3", OURS);
    EVP_MD_CTX *hasher = EVP_MD_CTX_new();
    uint8_t *got = calloc(1, position + want.count);
    DONE(EVP_DigestInit_ex2(hasher, function, NULL));
    DONE(EVP_DigestUpdate(hasher, message.at, message.count));
    DONE(EVP_DigestFinalXOF(hasher, got, position + want.count));
    same("BLAKE3", message.count, got + position, want.at, want.count);
    free(got);
    EVP_MD_CTX_free(hasher);
    EVP_MD_free(function);
}

// key, context, message, position, output; OpenSSL has no output from a position on, and here none for a context.
static void blake3_row(char *cells[], struct bytes bytes[]) {
    unsigned long long position = strtoull(cells[3], NULL, 10);
    size_t size = position + bytes[4].count;
    OSSL_PARAM params[] = {
        OSSL_PARAM_construct_octet_string("key", bytes[0].at, bytes[0].count),
        OSSL_PARAM_construct_size_t("size", &size),
        OSSL_PARAM_END,
    };
    if (bytes[1].count > 0 || position > LONGEST) return;
    if (bytes[0].count > 0) {
        mac_is("BLAKE3MAC", params, bytes[2], position, bytes[4]);
        return;
    }
    output_is(bytes[2], position, bytes[4]);
    if (position > 0 || bytes[4].count < 32) return;
    bytes[4].count = 32;
    digest_is("BLAKE3", bytes[2], bytes[4], 0);
    digest_is("BLAKE3-256", bytes[2], bytes[4], 0);
}

// ---- OpenSSL's HMAC and HKDF over our digests

// hash, key, text, tag, which may be shortened
static void hmac_row(char *cells[], struct bytes bytes[]) {
    EVP_MAC_CTX *tag = mac("HMAC", THEIRS);
    uint8_t got[EVP_MAX_MD_SIZE];
    size_t count;
    OSSL_PARAM params[] = {
        OSSL_PARAM_construct_utf8_string("digest", (char *)hashes[hash_of(cells[0])].digest, 0),
        OSSL_PARAM_construct_utf8_string("properties", OURS, 0),
        OSSL_PARAM_END,
    };
    DONE(EVP_MAC_init(tag, bytes[1].at, bytes[1].count, params));
    DONE(EVP_MAC_update(tag, bytes[2].at, bytes[2].count));
    DONE(EVP_MAC_final(tag, got, &count, sizeof got));
    judged("HMAC", bytes[2].count, count >= bytes[3].count);
    same("HMAC", bytes[2].count, got, bytes[3].at, bytes[3].count);
    EVP_MAC_CTX_free(tag);
}

// hash, salt, material, info, pseudorandom key, output
static void hkdf_row(char *cells[], struct bytes bytes[]) {
    EVP_KDF *function = EVP_KDF_fetch(context, "HKDF", THEIRS);
    EVP_KDF_CTX *derivation = EVP_KDF_CTX_new(function);
    uint8_t *got = calloc(1, LONGEST);
    OSSL_PARAM params[] = {
        OSSL_PARAM_construct_utf8_string("digest", (char *)hashes[hash_of(cells[0])].digest, 0),
        OSSL_PARAM_construct_utf8_string("properties", OURS, 0),
        OSSL_PARAM_construct_octet_string("salt", bytes[1].at, bytes[1].count),
        OSSL_PARAM_construct_octet_string("key", bytes[2].at, bytes[2].count),
        OSSL_PARAM_construct_octet_string("info", bytes[3].at, bytes[3].count),
        OSSL_PARAM_END,
    };
    DONE(EVP_KDF_derive(derivation, got, bytes[5].count, params));
    same("HKDF", bytes[2].count, got, bytes[5].at, bytes[5].count);
    free(got);
    EVP_KDF_CTX_free(derivation);
    EVP_KDF_free(function);
}

int main(int count, char **words) {
    if (count != 3) return 2;
    load(words[1]);
    each_row(words[2], "sha2", sha2_row);
    each_row(words[2], "blake2", blake2_row);
    each_row(words[2], "blake3", blake3_row);
    each_row(words[2], "hmac", hmac_row);
    each_row(words[2], "hkdf", hkdf_row);
    unload();
    return ends("vectors through OpenSSL");
}
