// Uses of the provider through OpenSSL's interface that are right and wrong: beside OpenSSL's own provider and the
// library itself, with refused parameters, after failed calls, of copies, in threads, after a fork and after the
// provider was given up. See tests/languages/provider.
// usage: provider_uses MODULES [ROUNDS [SEED]]    the folder of the module, and how many random calls of one kind are
//                                                 compared with those of OpenSSL's own provider

#define SUMS_HASH_UNCHECKED // no length here is refused
#include "provider.h"
#include <pthread.h>
#include <sys/wait.h>
#include <unistd.h>

enum { LONGEST = 300000 };

static uint8_t data[LONGEST];
static uint64_t seed = 88172645463325252u;
static long rounds = 10000;

static uint32_t below(uint32_t bound) {
    seed ^= seed << 13;
    seed ^= seed >> 7;
    seed ^= seed << 17;
    return (uint32_t)(seed >> 32) % bound;
}

// The length of a message, often a short one.
static size_t some_length(void) {
    return below(4) == 0 ? below(LONGEST) : below(2) ? below(300) : 64 * below(40);
}

// ---- parameters

#define NUMBER(name, value) (OSSL_PARAM[]){OSSL_PARAM_construct_size_t(name, &(size_t){value}), OSSL_PARAM_END}
#define OCTETS(name, length) (OSSL_PARAM[]){OSSL_PARAM_construct_octet_string(name, data, length), OSSL_PARAM_END}

// ---- names and what is told of the provider

static const char *provider_of(const EVP_MD *function) {
    return OSSL_PROVIDER_get0_name(EVP_MD_get0_provider(function));
}

static void is_named(const char *name) {
    EVP_MD *of_sums = digest(name, OURS), *own = digest(name, THEIRS), *preferred = digest(name, "?provider=sums");
    judged(name, 0, strcmp(provider_of(of_sums), "sums") == 0 && strcmp(provider_of(own), "default") == 0);
    judged(name, 0, strcmp(provider_of(preferred), "sums") == 0);
    judged(name, 0, EVP_MD_get_size(of_sums) == EVP_MD_get_size(own));
    judged(name, 0, EVP_MD_get_block_size(of_sums) == EVP_MD_get_block_size(own));
    judged(name, 0, EVP_MD_get_flags(of_sums) == EVP_MD_get_flags(own));
    judged(name, 0, EVP_MD_get_type(of_sums) == EVP_MD_get_type(own));
    EVP_MD_free(of_sums);
    EVP_MD_free(own);
    EVP_MD_free(preferred);
}

static void names(void) {
    static const char *const known[] = {
        "SHA2-256", "SHA-256", "sha256", "2.16.840.1.101.3.4.2.1", "SHA2-512", "SHA-512", "SHA512",
        "2.16.840.1.101.3.4.2.3", "BLAKE2B-512", "BLAKE2b512", "1.3.6.1.4.1.1722.12.2.1.16", "BLAKE2S-256",
        "blake2s256", "1.3.6.1.4.1.1722.12.2.2.8",
    };
    static const char *const others[] = {"SHA1", "SHA2-384", "SHA3-256", "HMAC"};
    for (size_t i = 0; i < sizeof known / sizeof *known; i++) is_named(known[i]);
    for (size_t i = 0; i < sizeof others / sizeof *others; i++)
        judged(others[i], 0, !EVP_MD_fetch(context, others[i], OURS) && !EVP_MAC_fetch(context, others[i], OURS));
    judged("BLAKE3 of another", 0, !EVP_MD_fetch(context, "BLAKE3", THEIRS));
    ERR_clear_error();
    EVP_MD *open = digest("BLAKE3", OURS), *fixed = digest("BLAKE3-256", OURS);
    judged("BLAKE3", 0, EVP_MD_get_size(open) == 32 && EVP_MD_get_block_size(open) == 64);
    judged("BLAKE3", 0, EVP_MD_get_flags(open) & EVP_MD_FLAG_XOF);
    judged("BLAKE3-256", 0, EVP_MD_get_size(fixed) == 32 && !(EVP_MD_get_flags(fixed) & EVP_MD_FLAG_XOF));
    EVP_MD_free(open);
    EVP_MD_free(fixed);
}

static void about(void) {
    char *name = NULL, *version = NULL;
    int is_running = 0;
    OSSL_PARAM params[] = {
        OSSL_PARAM_construct_utf8_ptr("name", &name, 0),
        OSSL_PARAM_construct_utf8_ptr("version", &version, 0),
        OSSL_PARAM_construct_int("status", &is_running),
        OSSL_PARAM_END,
    };
    DONE(OSSL_PROVIDER_get_params(ours, params));
    judged("name", 0, name && strncmp(name, "sums", 4) == 0);
    judged("version", 0, version && strcmp(version, SUMS_HASH_VERSION) == 0);
    judged("status", 0, is_running == 1);
    DONE(OSSL_PROVIDER_self_test(ours));
}

// ---- digests

static const struct {
    const char *name;
    size_t size; // of the longest digest
    uint32_t (*of)(uint8_t *out, size_t out_len, const uint8_t *input, size_t input_len, const uint8_t *key, size_t);
    const char *mac;
    size_t salt_size;
} blake2[] = {
    {"BLAKE2B-512", 64, sums_blake2b, "BLAKE2BMAC", 16},
    {"BLAKE2S-256", 32, sums_blake2s, "BLAKE2SMAC", 8},
};

// One random message in pieces through both providers, which goes on as a copy now and then.
static void same_message(EVP_MD_CTX *mine, EVP_MD_CTX *own, EVP_MD_CTX *other) {
    uint8_t got[EVP_MAX_MD_SIZE], want[EVP_MAX_MD_SIZE];
    unsigned got_size, want_size;
    size_t length = some_length();
    for (size_t at = 0, piece; at < length; at += piece) {
        piece = 1 + below(below(2) ? 300 : LONGEST);
        if (piece > length - at) piece = length - at;
        DONE(EVP_DigestUpdate(mine, data + at, piece));
        DONE(EVP_DigestUpdate(own, data + at, piece));
        if (below(4) != 0) continue;
        DONE(EVP_MD_CTX_copy_ex(other, mine));
        DONE(EVP_DigestFinal_ex(mine, got, &got_size));
        DONE(EVP_MD_CTX_copy_ex(mine, other));
    }
    DONE(EVP_DigestFinal_ex(mine, got, &got_size));
    DONE(EVP_DigestFinal_ex(own, want, &want_size));
    judged("size", length, got_size == want_size);
    same("digest", length, got, want, want_size);
}

static void same_digests(void) {
    static const char *const all[] = {"SHA2-256", "SHA2-512", "BLAKE2B-512", "BLAKE2S-256"};
    for (int i = 0; i < 4; i++) {
        EVP_MD *of_sums = digest(all[i], OURS), *own_one = digest(all[i], THEIRS);
        EVP_MD_CTX *mine = EVP_MD_CTX_new(), *own = EVP_MD_CTX_new(), *other = EVP_MD_CTX_new();
        for (int round = 0; round < 150; round++) {
            DONE(EVP_DigestInit_ex2(mine, of_sums, NULL));
            DONE(EVP_DigestInit_ex2(own, own_one, NULL));
            same_message(mine, own, other);
        }
        EVP_MD_CTX_free(mine);
        EVP_MD_CTX_free(own);
        EVP_MD_CTX_free(other);
        EVP_MD_free(of_sums);
        EVP_MD_free(own_one);
    }
}

// The digest of a message of BLAKE2 has so many bytes, which it has behind it.
static void has_size(EVP_MD_CTX *hasher, int i, size_t length, size_t size) {
    uint8_t got[EVP_MAX_MD_SIZE] = {0}, want[EVP_MAX_MD_SIZE] = {0};
    unsigned count;
    DONE(EVP_DigestFinal_ex(hasher, got, &count));
    judged(blake2[i].name, size, count == size);
    blake2[i].of(want, size, data, length, NULL, 0);
    same(blake2[i].name, length, got, want, sizeof want);
}

static void blake2_sizes(int i) {
    EVP_MD *function = digest(blake2[i].name, OURS);
    EVP_MD_CTX *hasher = EVP_MD_CTX_new();
    size_t told = 0, most = blake2[i].size;
    for (size_t size = 1; size <= most; size++) {
        OSSL_PARAM tell[] = {OSSL_PARAM_construct_size_t("size", &told), OSSL_PARAM_END};
        DONE(EVP_DigestInit_ex2(hasher, function, NUMBER("size", size)));
        DONE(EVP_MD_CTX_get_params(hasher, tell));
        judged("size", size, told == size);
        DONE(EVP_DigestUpdate(hasher, data, 1000));
        has_size(hasher, i, 1000, size);
    }
    REFUSED("invalid digest size: sums: a digest has", EVP_DigestInit_ex2(hasher, function, NUMBER("size", 0)))
    REFUSED("invalid digest size", EVP_DigestInit_ex2(hasher, function, NUMBER("size", most + 1)))
    REFUSED("invalid digest size", EVP_DigestInit_ex2(hasher, function, NUMBER("size", SIZE_MAX)))
    REFUSED("not xof or invalid length", EVP_DigestInit_ex2(hasher, function, NUMBER("xoflen", 20)))
    // before a message has bytes its size can change, and then no more
    DONE(EVP_DigestInit_ex2(hasher, function, NUMBER("size", 7)));
    DONE(EVP_MD_CTX_set_params(hasher, NUMBER("size", 20)));
    DONE(EVP_DigestUpdate(hasher, data, 5));
    REFUSED("is set before the message", EVP_MD_CTX_set_params(hasher, NUMBER("size", 9)))
    DONE(EVP_MD_CTX_set_params(hasher, NUMBER("size", 20)));
    has_size(hasher, i, 5, 20);
    EVP_MD_CTX_free(hasher);
    EVP_MD_free(function);
}

// A number of any width and type, which is one or is refused.
static void numbers(void) {
    EVP_MD *function = digest("BLAKE2B-512", OURS);
    EVP_MD_CTX *hasher = EVP_MD_CTX_new();
    uint8_t wide[16] = {20}, narrow = 20, below_0 = 0xff;
    double real = 20;
    const struct {
        const char *told; // of the refusal, or NULL
        OSSL_PARAM param;
    } rows[] = {
        {NULL, {"size", OSSL_PARAM_UNSIGNED_INTEGER, &narrow, 1, 0}},
        {NULL, {"size", OSSL_PARAM_INTEGER, &narrow, 1, 0}},
        {NULL, {"size", OSSL_PARAM_UNSIGNED_INTEGER, wide, 16, 0}},
        {NULL, {"other", OSSL_PARAM_UTF8_STRING, "20", 2, 0}},
        {"size is too large", {"size", OSSL_PARAM_UNSIGNED_INTEGER, (uint8_t[16]){[15] = 1}, 16, 0}},
        {"size is below 0", {"size", OSSL_PARAM_INTEGER, &below_0, 1, 0}},
        {"size is no number", {"size", OSSL_PARAM_UTF8_STRING, "20", 2, 0}},
        {"size is no number", {"size", OSSL_PARAM_REAL, &real, sizeof real, 0}},
        {"size is no number", {"size", OSSL_PARAM_UNSIGNED_INTEGER, NULL, 8, 0}},
        {"size is no number", {"size", OSSL_PARAM_UNSIGNED_INTEGER, wide, 0, 0}},
    };
    for (size_t i = 0; i < sizeof rows / sizeof *rows; i++) {
        OSSL_PARAM params[] = {rows[i].param, OSSL_PARAM_END};
        if (rows[i].told)
            REFUSED(rows[i].told, EVP_DigestInit_ex2(hasher, function, params))
        else
            DONE(EVP_DigestInit_ex2(hasher, function, params));
    }
    EVP_MD_CTX_free(hasher);
    EVP_MD_free(function);
}

// ---- BLAKE3

static void outputs(void) {
    static const size_t lengths[] = {0, 1, 31, 32, 33, 64, 65, 1000, LONGEST};
    static uint8_t got[LONGEST], want[LONGEST];
    EVP_MD *function = digest("BLAKE3", OURS);
    EVP_MD_CTX *hasher = EVP_MD_CTX_new(), *other = EVP_MD_CTX_new();
    for (int round = 0; round < 150; round++) {
        size_t length = some_length(), count = lengths[below(sizeof lengths / sizeof *lengths)];
        unsigned size = 0;
        DONE(EVP_DigestInit_ex2(hasher, function, NULL));
        DONE(EVP_DigestUpdate(hasher, data, length / 2));
        DONE(EVP_MD_CTX_copy_ex(other, hasher));
        DONE(EVP_DigestUpdate(hasher, data + length / 2, length - length / 2));
        memset(got, 1, sizeof got);
        memset(want, 1, sizeof want);
        DONE(EVP_DigestFinalXOF(hasher, got, count));
        sums_blake3(want, count, 0, data, length);
        same("output", length, got, want, sizeof want);
        // a copy, and the next message, have a digest again
        DONE(EVP_DigestUpdate(other, data + length / 2, length - length / 2));
        DONE(EVP_DigestInit_ex2(hasher, NULL, NULL));
        DONE(EVP_DigestUpdate(hasher, data, length));
        sums_blake3(want, 32, 0, data, length);
        DONE(EVP_DigestFinal_ex(other, got, &size));
        judged("size of a copy", length, size == 32 && memcmp(got, want, 32) == 0);
        DONE(EVP_DigestFinal_ex(hasher, got, &size));
        judged("size of the next message", length, size == 32 && memcmp(got, want, 32) == 0);
    }
    EVP_MD_CTX_free(hasher);
    EVP_MD_CTX_free(other);
    EVP_MD_free(function);
}

// EVP_DigestFinal_ex after a length that was set, at the beginning or later: as many bytes as OpenSSL's own SHAKE256 has.
static void set_lengths(const char *name, const char *provider) {
    static const size_t lengths[] = {1, 16, 32, 33, 64, 1000};
    EVP_MD *function = digest(name, provider);
    EVP_MD_CTX *hasher = EVP_MD_CTX_new();
    for (size_t i = 0; i < sizeof lengths / sizeof *lengths; i++)
        for (int when = 0; when < 3; when++) {
            uint8_t got[1100], want[1100];
            unsigned count = 0;
            memset(got, 1, sizeof got);
            memset(want, 1, sizeof want);
            DONE(EVP_DigestInit_ex2(hasher, function, when == 0 ? NUMBER("xoflen", lengths[i]) : NULL));
            if (when == 1) DONE(EVP_MD_CTX_set_params(hasher, NUMBER("xoflen", lengths[i])));
            DONE(EVP_DigestUpdate(hasher, data, 100));
            if (when == 2) DONE(EVP_MD_CTX_set_params(hasher, NUMBER("xoflen", lengths[i])));
            DONE(EVP_DigestFinal_ex(hasher, got, &count));
            judged(name, lengths[i], count == lengths[i]);
            if (strcmp(name, "BLAKE3") != 0) continue;
            sums_blake3(want, lengths[i], 0, data, 100);
            same(name, lengths[i], got, want, sizeof want);
        }
    EVP_MD_CTX_free(hasher);
    EVP_MD_free(function);
}

#if OPENSSL_VERSION_NUMBER >= 0x30300000L
static void squeezes(void) {
    static uint8_t got[5000], want[5000];
    EVP_MD *function = digest("BLAKE3", OURS);
    EVP_MD_CTX *hasher = EVP_MD_CTX_new(), *other = EVP_MD_CTX_new();
    sums_blake3(want, sizeof want, 0, data, 3000);
    DONE(EVP_DigestInit_ex2(hasher, function, NULL));
    DONE(EVP_DigestUpdate(hasher, data, 3000));
    for (size_t at = 0, piece; at < sizeof got; at += piece) {
        piece = below(300);
        if (piece > sizeof got - at) piece = sizeof got - at;
        DONE(EVP_DigestSqueeze(hasher, got + at, piece));
    }
    same("squeezed", 3000, got, want, sizeof want);
    DONE(EVP_MD_CTX_copy_ex(other, hasher));
    DONE(EVP_DigestSqueeze(hasher, got, 10));
    DONE(EVP_DigestSqueeze(other, want, 10));
    same("squeezed from a copy", 3000, got, want, 10);
    REFUSED("", EVP_DigestUpdate(hasher, data, 1))
    REFUSED("", EVP_DigestFinalXOF(hasher, got, 10))
    DONE(EVP_DigestInit_ex2(hasher, function, NULL));
    DONE(EVP_DigestFinal_ex(hasher, got, NULL));
    REFUSED("", EVP_DigestSqueeze(hasher, got, 10))
    EVP_MD_CTX_free(hasher);
    EVP_MD_CTX_free(other);
    EVP_MD_free(function);
}
#else
static void squeezes(void) {}
#endif

// ---- MACs

static size_t tag_of(EVP_MAC_CTX *tag, const OSSL_PARAM params[], size_t key, size_t length, uint8_t *out) {
    size_t count = 0;
    DONE(EVP_MAC_init(tag, data, key, params));
    DONE(EVP_MAC_update(tag, data, length / 3));
    DONE(EVP_MAC_update(tag, data + length / 3, length - length / 3));
    DONE(EVP_MAC_final(tag, out, &count, EVP_MAX_MD_SIZE));
    return count;
}

static void same_macs(int i) {
    EVP_MAC_CTX *mine = mac(blake2[i].mac, OURS), *own = mac(blake2[i].mac, THEIRS);
    for (int round = 0; round < 200; round++) {
        uint8_t got[EVP_MAX_MD_SIZE] = {0}, want[EVP_MAX_MD_SIZE] = {0};
        size_t size = 1 + below(blake2[i].size), length = some_length(), key = 1 + below(blake2[i].size);
        OSSL_PARAM params[] = {
            OSSL_PARAM_construct_size_t("size", &size),
            OSSL_PARAM_construct_octet_string("salt", data + 100, below(blake2[i].salt_size + 1)),
            OSSL_PARAM_construct_octet_string("custom", data + 200, below(blake2[i].salt_size + 1)),
            OSSL_PARAM_END,
        };
        judged("size", size, tag_of(mine, params, key, length, got) == size);
        judged("size", size, tag_of(own, params, key, length, want) == size);
        same(blake2[i].mac, length, got, want, sizeof want);
    }
    EVP_MAC_CTX_free(mine);
    EVP_MAC_CTX_free(own);
}

static void blake2_refusals(int i) {
    EVP_MAC_CTX *tag = mac(blake2[i].mac, OURS);
    size_t most = blake2[i].size, salt = blake2[i].salt_size, count;
    uint8_t got[EVP_MAX_MD_SIZE], want[EVP_MAX_MD_SIZE];
    REFUSED("no key set: sums", EVP_MAC_init(tag, NULL, 0, NULL))
    REFUSED("invalid key length: sums: a key has 1 to", EVP_MAC_init(tag, data, most + 1, NULL))
    REFUSED("invalid key length", EVP_MAC_init(tag, data, 0, NULL))
    REFUSED("invalid key length", EVP_MAC_init(tag, NULL, 0, OCTETS("key", most + 1)))
    REFUSED("invalid salt length: sums: salt has up to", EVP_MAC_init(tag, data, 1, OCTETS("salt", salt + 1)))
    REFUSED("invalid custom length", EVP_MAC_init(tag, data, 1, OCTETS("custom", salt + 1)))
    REFUSED("not xof or invalid length: sums: a digest has 1 to", EVP_MAC_init(tag, data, 1, NUMBER("size", most + 1)))
    REFUSED("not xof or invalid length", EVP_MAC_init(tag, data, 1, NUMBER("size", 0)))
    REFUSED("not xof or invalid length", EVP_MAC_init(tag, data, 1, NUMBER("xof", 1)))
    REFUSED("salt is no octet string", EVP_MAC_init(tag, data, 1, NUMBER("salt", 1)))
    // refused parameters leave those that stand beside them as they were
    OSSL_PARAM some[] = {OSSL_PARAM_construct_size_t("size", &(size_t){9}),
                         OSSL_PARAM_construct_octet_string("salt", data, salt + 1), OSSL_PARAM_END};
    DONE(EVP_MAC_init(tag, data, 1, NULL));
    REFUSED("invalid salt length", EVP_MAC_CTX_set_params(tag, some))
    DONE(EVP_MAC_final(tag, got, &count, sizeof got));
    judged("the size after a refusal", count, count == most);
    blake2[i].of(want, most, NULL, 0, data, 1);
    same("the tag after a refusal", 0, got, want, most);
    EVP_MAC_CTX_free(tag);
}

// What is set behind the beginning: the message goes on with what it began with, but for the bytes of its tag.
static void set_later(int i, const OSSL_PARAM *params, size_t want_size, size_t before) {
    EVP_MAC_CTX *pair[] = {mac(blake2[i].mac, OURS), mac(blake2[i].mac, THEIRS)};
    for (int message = 0; message < 2; message++) {
        uint8_t tags[2][EVP_MAX_MD_SIZE] = {{0}};
        size_t counts[2];
        for (int k = 0; k < 2; k++) {
            DONE(EVP_MAC_init(pair[k], message ? NULL : data, message ? 0 : 9, NULL));
            DONE(EVP_MAC_update(pair[k], data, before));
            if (!message) DONE(EVP_MAC_CTX_set_params(pair[k], params));
            DONE(EVP_MAC_update(pair[k], data, 200));
            DONE(EVP_MAC_final(pair[k], tags[k], &counts[k], EVP_MAX_MD_SIZE));
        }
        judged(params->key, before, counts[0] == want_size && counts[1] == want_size);
        same(params->key, before, tags[0], tags[1], want_size);
        for (size_t k = want_size; k < EVP_MAX_MD_SIZE; k++) judged("behind a tag", k, tags[0][k] == 0);
    }
    EVP_MAC_CTX_free(pair[0]);
    EVP_MAC_CTX_free(pair[1]);
}

// A greater size than a message began with is refused at its end; OpenSSL's own counts bytes that it has not written.
static void greater_size(int i) {
    EVP_MAC_CTX *tag = mac(blake2[i].mac, OURS);
    uint8_t got[EVP_MAX_MD_SIZE], want[EVP_MAX_MD_SIZE];
    size_t most = blake2[i].size, count = 0;
    DONE(EVP_MAC_init(tag, data, 1, NUMBER("size", 20)));
    DONE(EVP_MAC_CTX_set_params(tag, NUMBER("size", 21)));
    DONE(EVP_MAC_update(tag, data, 5));
    REFUSED("invalid state: sums: the message began with a size of 20, not 21",
            EVP_MAC_final(tag, got, &count, sizeof got))
    DONE(EVP_MAC_CTX_set_params(tag, NUMBER("size", 19)));
    DONE(EVP_MAC_final(tag, got, &count, sizeof got));
    blake2[i].of(want, 20, data, 5, data, 1);
    judged("a smaller size", count, count == 19 && memcmp(got, want, 19) == 0);
    DONE(EVP_MAC_CTX_set_params(tag, NUMBER("size", most)));
    DONE(EVP_MAC_init(tag, NULL, 0, NULL));
    DONE(EVP_MAC_final(tag, got, &count, sizeof got));
    blake2[i].of(want, most, data, 0, data, 1);
    judged("the size of the next message", count, count == most && memcmp(got, want, most) == 0);
    EVP_MAC_CTX_free(tag);
}

static void all_set_later(int i) {
    size_t most = blake2[i].size;
    static const size_t befores[] = {0, 1, 500};
    for (int k = 0; k < 3; k++) {
        set_later(i, OCTETS("custom", 4), most, befores[k]);
        set_later(i, OCTETS("salt", 3), most, befores[k]);
        set_later(i, OCTETS("key", 12), most, befores[k]);
        set_later(i, NUMBER("size", 20), 20, befores[k]);
    }
    greater_size(i);
}

static void blake3_macs(void) {
    EVP_MAC_CTX *tag = mac("BLAKE3MAC", OURS);
    static uint8_t got[1000], want[1000];
    size_t count;
    for (int round = 0; round < 100; round++) {
        size_t length = some_length(), size = 1 + below(below(2) ? 64 : sizeof got);
        memset(got, 1, sizeof got);
        memset(want, 1, sizeof want);
        DONE(EVP_MAC_init(tag, data, 32, NUMBER("size", size)));
        DONE(EVP_MAC_update(tag, data, length));
        REFUSED("", EVP_MAC_final(tag, got, &count, size - 1))
        DONE(EVP_MAC_final(tag, got, &count, sizeof got));
        judged("size", size, count == size);
        sums_blake3_keyed(want, size, 0, data, length, data);
        same("BLAKE3MAC", length, got, want, sizeof want);
    }
    // an output that is as long as its room, and no longer so for the next message
    DONE(EVP_MAC_init(tag, data, 32, NUMBER("size", 32)));
    DONE(EVP_MAC_finalXOF(tag, got, sizeof got));
    sums_blake3_keyed(want, sizeof want, 0, NULL, 0, data);
    same("EVP_MAC_finalXOF", 0, got, want, sizeof want);
    DONE(EVP_MAC_init(tag, NULL, 0, NULL));
    DONE(EVP_MAC_final(tag, got, &count, sizeof got));
    judged("the size after EVP_MAC_finalXOF", count, count == 32);
    // what is set behind the beginning: a size counts for this message, and a key for the next one
    OSSL_PARAM later[] = {OSSL_PARAM_construct_size_t("size", &(size_t){100}),
                          OSSL_PARAM_construct_octet_string("key", data + 50, 32), OSSL_PARAM_END};
    DONE(EVP_MAC_init(tag, NULL, 0, NULL));
    DONE(EVP_MAC_CTX_set_params(tag, later));
    for (int message = 0; message < 2; message++) {
        if (message) DONE(EVP_MAC_init(tag, NULL, 0, NULL));
        DONE(EVP_MAC_update(tag, data, 10));
        DONE(EVP_MAC_final(tag, got, &count, sizeof got));
        sums_blake3_keyed(want, 100, 0, data, 10, data + 50 * message);
        judged("what is set later", message, count == 100 && memcmp(got, want, 100) == 0);
    }
    REFUSED("invalid key length: sums: a key has 32 to 32 bytes, not 31", EVP_MAC_init(tag, data, 31, NULL))
    REFUSED("invalid key length", EVP_MAC_init(tag, data, 33, NULL))
    REFUSED("invalid output length", EVP_MAC_init(tag, data, 32, NUMBER("size", 0)))
    REFUSED("invalid custom length", EVP_MAC_init(tag, data, 32, OCTETS("custom", 1)))
    EVP_MAC_CTX_free(tag);
}

// ---- random calls, in the same order to OpenSSL's own provider

// A context of each provider with the same calls behind it. Once a message has ended, a new one is begun first, since
// OpenSSL's own says nothing of other calls.
struct pair {
    EVP_MAC_CTX *mine, *own;
    size_t begun; // the size that its message began with, or 0 where there is none
};

static void make_pair(struct pair *pair, int i) {
    EVP_MAC_CTX_free(pair->mine);
    EVP_MAC_CTX_free(pair->own);
    *pair = (struct pair){mac(blake2[i].mac, OURS), mac(blake2[i].mac, THEIRS), 0};
}

// Both providers do it, or both refuse it with the same reason. Then the pair is made anew, since OpenSSL's own has
// taken what stood before the refused parameter.
static int both(struct pair *pair, int i, int mine, int own, unsigned long fault) {
    int reason = ERR_GET_REASON(fault), wanted = own ? 0 : ERR_GET_REASON(ERR_peek_last_error());
    judged("the answer of a random call", reason, mine == own && (mine || reason == wanted));
    ERR_clear_error();
    if (!mine || !own) make_pair(pair, i);
    return mine && own;
}

#define BOTH(call_of_mine, call_of_own)                                                        \
    ({                                                                                         \
        ERR_clear_error();                                                                     \
        int mine_done = call_of_mine > 0;                                                      \
        unsigned long fault = ERR_peek_last_error();                                           \
        ERR_clear_error();                                                                     \
        int own_done = call_of_own > 0;                                                        \
        both(pair, i, mine_done, own_done, fault);                                             \
    })

enum { MOST_PARAMS = 5 };

// Some parameters, of which one in twenty or so is refused.
static void some_params(OSSL_PARAM params[MOST_PARAMS], size_t *size, int i) {
    OSSL_PARAM *next = params;
    size_t wrong = below(20), salt = blake2[i].salt_size + (wrong < 2), most = blake2[i].size + (wrong == 2);
    *size = 1 - (wrong == 3) + below(most);
    if (below(2)) *next++ = OSSL_PARAM_construct_size_t("size", size);
    if (below(3) == 0) *next++ = OSSL_PARAM_construct_octet_string("key", data + below(1000), below(most + 1));
    if (below(3) == 0) *next++ = OSSL_PARAM_construct_octet_string("custom", data + below(1000), below(salt + 1));
    if (below(3) == 0) *next++ = OSSL_PARAM_construct_octet_string("salt", data + below(1000), below(salt + 1));
    *next = OSSL_PARAM_construct_end();
}

static void begin_both(struct pair *pair, int i, const OSSL_PARAM params[]) {
    const uint8_t *key = below(3) ? data + below(1000) : NULL;
    size_t length = key ? below(blake2[i].size + 2) : 0;
    if (BOTH(EVP_MAC_init(pair->mine, key, length, params), EVP_MAC_init(pair->own, key, length, params)))
        pair->begun = EVP_MAC_CTX_get_mac_size(pair->own);
}

static void end_both(struct pair *pair, int i) {
    uint8_t got[EVP_MAX_MD_SIZE] = {0}, want[EVP_MAX_MD_SIZE] = {0};
    size_t got_size = 0, want_size = 0, size = EVP_MAC_CTX_get_mac_size(pair->own);
    judged("the size that is told", size, EVP_MAC_CTX_get_mac_size(pair->mine) == size);
    if (size > pair->begun) {
        REFUSED("the message began with a size of", EVP_MAC_final(pair->mine, got, &got_size, sizeof got))
        make_pair(pair, i);
        return;
    }
    DONE(EVP_MAC_final(pair->mine, got, &got_size, size));
    DONE(EVP_MAC_final(pair->own, want, &want_size, sizeof want));
    judged("the size of a tag", size, got_size == size && want_size == size);
    same("a tag of random calls", size, got, want, size);
    pair->begun = 0;
}

static void copy_both(struct pair *to, const struct pair *from) {
    EVP_MAC_CTX *mine = EVP_MAC_CTX_dup(from->mine), *own = EVP_MAC_CTX_dup(from->own);
    judged("copies", 0, mine && own);
    EVP_MAC_CTX_free(to->mine);
    EVP_MAC_CTX_free(to->own);
    *to = (struct pair){mine, own, from->begun};
}

static void mac_calls(int i) {
    enum { PAIRS = 3 };
    struct pair pairs[PAIRS] = {{NULL, NULL, 0}};
    for (int k = 0; k < PAIRS; k++) make_pair(&pairs[k], i);
    for (long round = 0; round < rounds; round++) {
        struct pair *pair = &pairs[below(PAIRS)];
        OSSL_PARAM params[MOST_PARAMS];
        size_t size, length = below(8) ? below(300) : below(3000), chosen = below(pair->begun ? 8 : 3);
        some_params(params, &size, i);
        if (chosen == 0 || (chosen == 1 && !pair->begun)) begin_both(pair, i, below(2) ? params : NULL);
        else if (chosen == 1) end_both(pair, i);
        else if (chosen < 4) BOTH(EVP_MAC_CTX_set_params(pair->mine, params), EVP_MAC_CTX_set_params(pair->own, params));
        else if (chosen == 4) copy_both(&pairs[below(PAIRS)], &(struct pair){pair->mine, pair->own, pair->begun});
        else BOTH(EVP_MAC_update(pair->mine, data, length), EVP_MAC_update(pair->own, data, length));
    }
    for (int k = 0; k < PAIRS; k++) EVP_MAC_CTX_free(pairs[k].mine), EVP_MAC_CTX_free(pairs[k].own);
}

// The same of digests, whose contexts are copied onto each other.
static void digest_calls(void) {
    static const char *const all[] = {"SHA2-256", "SHA2-512", "BLAKE2B-512", "BLAKE2S-256"};
    enum { PAIRS = 4 };
    EVP_MD *functions[4][2];
    EVP_MD_CTX *pairs[PAIRS][2];
    int is_begun[PAIRS] = {0};
    for (int i = 0; i < 4; i++) functions[i][0] = digest(all[i], OURS), functions[i][1] = digest(all[i], THEIRS);
    for (int k = 0; k < PAIRS; k++) pairs[k][0] = EVP_MD_CTX_new(), pairs[k][1] = EVP_MD_CTX_new();
    for (long round = 0; round < rounds; round++) {
        uint8_t got[2][EVP_MAX_MD_SIZE] = {{0}};
        unsigned counts[2] = {0, 0};
        int to = below(PAIRS), from = below(PAIRS), hash = below(4), chosen = is_begun[to] ? below(8) : 0;
        size_t length = below(8) ? below(300) : below(3000), at = below(1000);
        for (int k = 0; k < 2; k++) {
            if (chosen < 2) DONE(EVP_DigestInit_ex2(pairs[to][k], functions[hash][k], NULL));
            else if (chosen == 2 && is_begun[from] && from != to) DONE(EVP_MD_CTX_copy_ex(pairs[to][k], pairs[from][k]));
            else if (chosen == 3) DONE(EVP_DigestFinal_ex(pairs[to][k], got[k], &counts[k]));
            else DONE(EVP_DigestUpdate(pairs[to][k], data + at, length));
        }
        is_begun[to] = chosen != 3;
        judged("the size of a digest of random calls", counts[0], counts[0] == counts[1]);
        same("a digest of random calls", round, got[0], got[1], EVP_MAX_MD_SIZE);
    }
    for (int k = 0; k < PAIRS; k++) EVP_MD_CTX_free(pairs[k][0]), EVP_MD_CTX_free(pairs[k][1]);
    for (int i = 0; i < 4; i++) EVP_MD_free(functions[i][0]), EVP_MD_free(functions[i][1]);
}

// ---- contexts that fail, are copied and are freed

static void after_failures(void) {
    uint8_t got[EVP_MAX_MD_SIZE], want[EVP_MAX_MD_SIZE];
    size_t count;
    EVP_MD *function = digest("BLAKE2B-512", OURS);
    EVP_MD_CTX *hasher = EVP_MD_CTX_new();
    DONE(EVP_DigestInit_ex2(hasher, function, NULL));
    DONE(EVP_DigestUpdate(hasher, data, 100));
    REFUSED("invalid digest size", EVP_DigestInit_ex2(hasher, function, NUMBER("size", 65)))
    REFUSED("", EVP_DigestUpdate(hasher, data, 100))
    REFUSED("", EVP_DigestFinal_ex(hasher, got, NULL))
    DONE(EVP_DigestInit_ex2(hasher, function, NULL));
    has_size(hasher, 0, 0, 64);
    EVP_MAC_CTX *tag = mac("BLAKE3MAC", OURS);
    REFUSED("no message is begun", EVP_MAC_update(tag, data, 1))
    REFUSED("no message is begun", EVP_MAC_final(tag, got, &count, sizeof got))
    DONE(EVP_MAC_init(tag, data, 32, NULL));
    DONE(EVP_MAC_update(tag, data, 100));
    REFUSED("invalid key length", EVP_MAC_init(tag, data, 31, NULL))
    REFUSED("no message is begun", EVP_MAC_update(tag, data, 1))
    EVP_MAC_CTX *other = EVP_MAC_CTX_dup(tag);
    REFUSED("no message is begun", EVP_MAC_final(other, got, &count, sizeof got))
    DONE(EVP_MAC_init(other, NULL, 0, NULL));
    DONE(EVP_MAC_final(other, got, &count, sizeof got));
    sums_blake3_keyed(want, 32, 0, NULL, 0, data);
    same("after failures", 0, got, want, 32);
    EVP_MAC_CTX_free(tag);
    EVP_MAC_CTX_free(other);
    EVP_MD_CTX_free(hasher);
    EVP_MD_free(function);
}

// Contexts of several hashes are copied onto each other at each stage and freed in each order.
static void copies(void) {
    static const char *const all[] = {"SHA2-256", "SHA2-512", "BLAKE2B-512", "BLAKE2S-256", "BLAKE3", "BLAKE3-256"};
    enum { CONTEXTS = 8, FUNCTIONS = sizeof all / sizeof *all };
    EVP_MD *functions[FUNCTIONS];
    EVP_MD_CTX *hashers[CONTEXTS] = {NULL};
    uint8_t out[EVP_MAX_MD_SIZE];
    for (int i = 0; i < FUNCTIONS; i++) functions[i] = digest(all[i], OURS);
    for (int round = 0; round < 20000; round++) {
        EVP_MD_CTX **one = &hashers[below(CONTEXTS)], *other = hashers[below(CONTEXTS)];
        if (!*one) *one = EVP_MD_CTX_new();
        switch (below(6)) {
        case 0: DONE(EVP_DigestInit_ex2(*one, functions[below(FUNCTIONS)], NULL)); break;
        case 1: EVP_DigestUpdate(*one, data, below(300)); break;
        case 2: EVP_DigestFinal_ex(*one, out, NULL); break;
        case 3: EVP_MD_CTX_set_params(*one, NUMBER("size", 1 + below(40))); break;
        case 4: EVP_MD_CTX_free(*one), *one = NULL; break;
        default: if (other && other != *one) EVP_MD_CTX_copy_ex(*one, other);
        }
        ERR_clear_error();
    }
    for (int i = 0; i < CONTEXTS; i++) EVP_MD_CTX_free(hashers[i]);
    for (int i = 0; i < FUNCTIONS; i++) EVP_MD_free(functions[i]);
}

// ---- parameters of any name, type, length and content

static OSSL_PARAM any_param(uint8_t *bytes, size_t room) {
    static const char *const all[] = {"size", "xoflen", "key", "custom", "salt", "xof", "block-size", "digest"};
    size_t length = below(room);
    for (size_t i = 0; i < length; i++) bytes[i] = below(3) ? 0 : below(256);
    if (below(2)) length = length < 8 ? length : 8;
    return (OSSL_PARAM){all[below(sizeof all / sizeof *all)], 1 + below(7), below(20) ? bytes : NULL, length, 0};
}

static void any_params(void) {
    enum { MOST = 5, ROOM = 80 };
    EVP_MD *functions[] = {digest("BLAKE3", OURS), digest("BLAKE2B-512", OURS), digest("SHA2-256", OURS)};
    EVP_MAC_CTX *tags[] = {mac("BLAKE3MAC", OURS), mac("BLAKE2BMAC", OURS), mac("BLAKE2SMAC", OURS)};
    EVP_MD_CTX *hasher = EVP_MD_CTX_new();
    uint8_t out[300];
    size_t count;
    for (int round = 0; round < 20000; round++) {
        OSSL_PARAM params[MOST + 1];
        uint8_t *bytes = malloc(MOST * ROOM);
        size_t some = below(MOST + 1);
        for (size_t i = 0; i < some; i++) params[i] = any_param(bytes + i * ROOM, ROOM);
        params[some] = OSSL_PARAM_construct_end();
        if (below(2)) {
            EVP_DigestInit_ex2(hasher, functions[below(3)], below(2) ? params : NULL);
            EVP_MD_CTX_set_params(hasher, params);
            EVP_DigestUpdate(hasher, data, below(200));
            if (below(2)) EVP_DigestFinalXOF(hasher, out, below(sizeof out));
            EVP_MD_CTX_get_params(hasher, params);
        } else {
            EVP_MAC_CTX *tag = tags[below(3)];
            EVP_MAC_init(tag, below(2) ? data : NULL, below(70), params);
            EVP_MAC_update(tag, data, below(200));
            EVP_MAC_final(tag, out, &count, below(sizeof out));
            EVP_MAC_CTX_get_params(tag, params);
        }
        free(bytes);
        ERR_clear_error();
    }
    for (int i = 0; i < 3; i++) EVP_MD_free(functions[i]), EVP_MAC_CTX_free(tags[i]);
    EVP_MD_CTX_free(hasher);
}

// ---- threads, processes, and a provider that is given up

static const char *modules;

// The digest by a provider that this thread loads and gives up.
static int is_right_alone(size_t length, const uint8_t want[32]) {
    OSSL_LIB_CTX *alone = OSSL_LIB_CTX_new();
    OSSL_PROVIDER_set_default_search_path(alone, modules);
    OSSL_PROVIDER *provider = OSSL_PROVIDER_load(alone, "sums");
    EVP_MD *function = EVP_MD_fetch(alone, "BLAKE3", NULL);
    uint8_t got[32];
    int is_right = function && EVP_Digest(data, length, got, NULL, function, NULL) && memcmp(got, want, 32) == 0;
    EVP_MD_free(function);
    OSSL_PROVIDER_unload(provider);
    OSSL_LIB_CTX_free(alone);
    return is_right;
}

static void *in_thread(void *number) {
    size_t length = 100 + 1000 * (size_t)number;
    intptr_t wrongs = 0;
    uint8_t want[32] = {0}, got[32];
    sums_blake3(want, 32, 0, data, length);
    for (int round = 0; round < 500; round++) {
        EVP_MD *function = EVP_MD_fetch(context, "BLAKE3-256", OURS);
        if (!function || !EVP_Digest(data, length, got, NULL, function, NULL) || memcmp(got, want, 32) != 0) wrongs++;
        EVP_MD_free(function);
        if (round % 25 == 0 && !is_right_alone(length, want)) wrongs++;
        // a refusal goes into the queue of its own thread
        EVP_MAC *keyed = EVP_MAC_fetch(context, "BLAKE3MAC", OURS);
        EVP_MAC_CTX *tag = EVP_MAC_CTX_new(keyed);
        if (!tag || EVP_MAC_init(tag, data, 1, NULL) || !ERR_get_error() || ERR_get_error()) wrongs++;
        EVP_MAC_CTX_free(tag);
        EVP_MAC_free(keyed);
    }
    return (void *)wrongs;
}

static void threads(void) {
    enum { THREADS = 8 };
    pthread_t running[THREADS];
    void *wrongs;
    for (size_t i = 0; i < THREADS; i++) pthread_create(&running[i], NULL, in_thread, (void *)i);
    for (int i = 0; i < THREADS; i++) {
        pthread_join(running[i], &wrongs);
        judged("a thread", 0, wrongs == NULL);
    }
}

// The rest of a message, in the process that began it and in one that was forked.
static int ends_right(EVP_MD_CTX *hasher, const uint8_t want[32]) {
    uint8_t got[32];
    return EVP_DigestUpdate(hasher, data + 1000, 1000) && EVP_DigestFinal_ex(hasher, got, NULL)
        && memcmp(got, want, 32) == 0;
}

static void forks(void) {
    EVP_MD *function = digest("SHA2-256", OURS);
    EVP_MD_CTX *hasher = EVP_MD_CTX_new();
    uint8_t want[32] = {0};
    int ended;
    sums_sha256(want, data, 2000);
    DONE(EVP_DigestInit_ex2(hasher, function, NULL));
    DONE(EVP_DigestUpdate(hasher, data, 1000));
    for (int i = 0; i < 10; i++) {
        pid_t child = fork();
        if (child == 0) _exit(!ends_right(hasher, want));
        judged("a process", 0, waitpid(child, &ended, 0) == child && ended == 0);
    }
    judged("the first process", 0, ends_right(hasher, want));
    EVP_MD_CTX_free(hasher);
    EVP_MD_free(function);
}

// A context goes on when nobody else has the provider any more.
static void given_up(void) {
    for (int round = 0; round < 50; round++) {
        OSSL_LIB_CTX *alone = OSSL_LIB_CTX_new();
        OSSL_PROVIDER_set_default_search_path(alone, modules);
        OSSL_PROVIDER *provider = OSSL_PROVIDER_load(alone, "sums");
        EVP_MD *function = EVP_MD_fetch(alone, "BLAKE3", NULL);
        EVP_MD_CTX *hasher = EVP_MD_CTX_new();
        uint8_t got[32], want[32] = {0};
        DONE(EVP_DigestInit_ex2(hasher, function, NULL));
        DONE(EVP_DigestUpdate(hasher, data, 10));
        DONE(OSSL_PROVIDER_unload(provider));
        EVP_MD_free(function);
        DONE(EVP_DigestUpdate(hasher, data + 10, 10));
        DONE(EVP_DigestFinal_ex(hasher, got, NULL));
        sums_blake3(want, 32, 0, data, 20);
        same("a provider that is given up", 20, got, want, 32);
        judged("a provider that is given up", 0, !EVP_MD_fetch(alone, "BLAKE3", NULL));
        ERR_clear_error();
        EVP_MD_CTX_free(hasher);
        OSSL_LIB_CTX_free(alone);
    }
}

int main(int count, char **words) {
    if (count < 2) return 2;
    modules = words[1];
    if (count > 2) rounds = atol(words[2]);
    if (count > 3) seed += strtoull(words[3], NULL, 10);
    for (size_t i = 0; i < sizeof data; i++) data[i] = below(256);
    load(modules);
    names();
    about();
    same_digests();
    numbers();
    outputs();
    squeezes();
    set_lengths("SHAKE256", THEIRS);
    set_lengths("BLAKE3", OURS);
    for (int i = 0; i < 2; i++) {
        blake2_sizes(i);
        same_macs(i);
        blake2_refusals(i);
        all_set_later(i);
        mac_calls(i);
    }
    digest_calls();
    blake3_macs();
    after_failures();
    copies();
    any_params();
    threads();
    forks();
    given_up();
    unload();
    return ends("uses through OpenSSL");
}
