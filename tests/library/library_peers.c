// Random messages, pieces, keys, salts, positions and lengths against OpenSSL and libb2, and with PEER_BLAKE3 against
// the C BLAKE3. Each input, output and state lies at an edge of an area between pages that end the program where they
// are touched. See tests/library/library.
// usage: library_peers [ROUNDS] [SEED]

#define SUMS_HASH_UNCHECKED // no length here is refused
#include "library.h"
#include <blake2.h>
#include <openssl/evp.h>
#include <openssl/hmac.h>
#include <openssl/kdf.h>
#include <openssl/core_names.h>
#include <openssl/params.h>
#ifdef PEER_BLAKE3
#include <blake3.h>
#endif

enum { LONGEST = 40000 };

static uint64_t seed = 88172645463325252u;

static uint32_t below(uint32_t bound) {
    seed ^= seed << 13;
    seed ^= seed >> 7;
    seed ^= seed << 17;
    return (uint32_t)(seed >> 32) % bound;
}

// Areas for what a call is given: the library sees of them the bytes at one edge.
static uint8_t *message_area, *key_area, *salt_area, *info_area, *out_area, *state_area, *copy_area;
static int at_end;

static uint8_t *random_bytes(uint8_t *area, size_t count) {
    uint8_t *bytes = at_edge(area, count, at_end);
    for (size_t i = 0; i < count; i++) bytes[i] = below(256);
    return bytes;
}

// An output of so many bytes, and the same area filled with zeros.
static uint8_t *output(size_t count) {
    uint8_t *bytes = at_edge(out_area, count, at_end);
    memset(bytes, 0, count);
    return bytes;
}

static void must(int ok, const char *what) {
    if (ok) return;
    printf("the peer failed: %s\n", what);
    exit(2);
}

// The next cut of a message of which so many bytes are left. Some pieces are empty.
static size_t piece_of(size_t left) {
    size_t piece = below(4) == 0 ? 0 : 1 + below(below(2) ? 300 : 9000);
    return piece < left ? piece : left;
}

// Feeds a message in random pieces to a state, which goes on as a copy of itself now and then, and after its digest
// was asked for.
#define FEED(update, finish, state, other, text, length)          \
    for (size_t at = 0, piece; at < (length); at += piece) {      \
        piece = piece_of((length) - at);                          \
        status(#update, update(state, (text) + at, piece), 0);    \
        if (below(8) == 0) {                                      \
            status(#finish, finish, 0);                           \
            memcpy(other, state, sizeof *(state));                \
            memset(state, 0, sizeof *(state));                    \
            memcpy(state, other, sizeof *(state));                \
        }                                                         \
    }

// ---- BLAKE2

static void peer_blake2b(uint8_t *out, size_t count, const uint8_t *text, size_t length, const uint8_t *key,
                         size_t key_len, const uint8_t *salt, const uint8_t *personal) {
    blake2b_param parameters = {.digest_length = count, .key_length = key_len, .fanout = 1, .depth = 1};
    blake2b_state state;
    uint8_t block[128] = {0};
    memcpy(parameters.salt, salt, 16);
    memcpy(parameters.personal, personal, 16);
    memcpy(block, key, key_len);
    must(blake2b_init_param(&state, &parameters) == 0, "blake2b_init_param");
    if (key_len > 0) blake2b_update(&state, block, sizeof block);
    blake2b_update(&state, text, length);
    blake2b_final(&state, out, count);
}

static void peer_blake2s(uint8_t *out, size_t count, const uint8_t *text, size_t length, const uint8_t *key,
                         size_t key_len, const uint8_t *salt, const uint8_t *personal) {
    blake2s_param parameters = {.digest_length = count, .key_length = key_len, .fanout = 1, .depth = 1};
    blake2s_state state;
    uint8_t block[64] = {0};
    memcpy(parameters.salt, salt, 8);
    memcpy(parameters.personal, personal, 8);
    memcpy(block, key, key_len);
    must(blake2s_init_param(&state, &parameters) == 0, "blake2s_init_param");
    if (key_len > 0) blake2s_update(&state, block, sizeof block);
    blake2s_update(&state, text, length);
    blake2s_final(&state, out, count);
}

#define BLAKE2(function, most, salt_len)                                                                        \
    static void function##_round(const uint8_t *text, size_t length) {                                          \
        size_t count = 1 + below(most), key_len = below(2) ? below(most + 1) : 0;                               \
        uint8_t *key = random_bytes(key_area, key_len), *out = output(count), want[most];                       \
        uint8_t *salt = random_bytes(salt_area, salt_len), *personal = random_bytes(info_area, salt_len);       \
        sums_##function##_state *state = (void *)at_edge(state_area, sizeof *state, at_end);                    \
        sums_##function##_state *other = (void *)at_edge(copy_area, sizeof *other, at_end);                     \
        must(function(want, text, key, count, length, key_len) == 0, #function);                                \
        status(#function, sums_##function(out, count, text, length, key, key_len), 0);                          \
        same(#function, length, out, want, count);                                                              \
        memset(state, below(256), sizeof *state);                                                               \
        status("init", sums_##function##_init(state, count, key, key_len), 0);                                  \
        out = output(count);                                                                                    \
        FEED(sums_##function##_update, sums_##function##_finish(state, out, count), state, other, text, length) \
        status("finish", sums_##function##_finish(state, out, count), 0);                                       \
        same(#function " in pieces", length, out, want, count);                                                 \
        peer_##function(want, count, text, length, key, key_len, salt, personal);                               \
        out = output(count);                                                                                    \
        status("salted", sums_##function##_salted(out, count, text, length, key, key_len, salt, personal), 0);  \
        same(#function ", salted", length, out, want, count);                                                   \
        status("init", sums_##function##_init_salted(state, count, key, key_len, salt, personal), 0);           \
        out = output(count);                                                                                    \
        FEED(sums_##function##_update, sums_##function##_finish(state, out, count), state, other, text, length) \
        status("finish", sums_##function##_finish(state, out, count), 0);                                       \
        same(#function ", salted, in pieces", length, out, want, count);                                        \
    }

BLAKE2(blake2b, 64, 16)
BLAKE2(blake2s, 32, 8)

// ---- SHA-2

static void digest(const EVP_MD *hash, uint8_t *out, const uint8_t *text, size_t length) {
    must(EVP_Digest(text, length, out, NULL, hash, NULL), "EVP_Digest");
}

#define SHA2(function, count)                                                                           \
    static void function##_round(const uint8_t *text, size_t length) {                                  \
        uint8_t *out = output(count), want[count];                                                      \
        sums_##function##_state *state = (void *)at_edge(state_area, sizeof *state, at_end);            \
        sums_##function##_state *other = (void *)at_edge(copy_area, sizeof *other, at_end);             \
        digest(EVP_##function(), want, text, length);                                                   \
        sums_##function(out, text, length);                                                             \
        same(#function, length, out, want, count);                                                      \
        memset(state, below(256), sizeof *state);                                                       \
        sums_##function##_init(state);                                                                  \
        out = output(count);                                                                            \
        FEED(sums_##function##_update, sums_##function##_finish(state, out), state, other, text, length) \
        status("finish", sums_##function##_finish(state, out), 0);                                      \
        same(#function " in pieces", length, out, want, count);                                         \
    }

SHA2(sha256, 32)
SHA2(sha512, 64)

// ---- HMAC and HKDF

static EVP_KDF *openssl_hkdf;

static void peer_hkdf(int mode, const EVP_MD *hash, uint8_t *out, size_t count, const uint8_t *material,
                      size_t material_len, const uint8_t *salt, size_t salt_len, const uint8_t *info, size_t info_len) {
    OSSL_PARAM parameters[] = {
        OSSL_PARAM_construct_int(OSSL_KDF_PARAM_MODE, &mode),
        OSSL_PARAM_construct_utf8_string(OSSL_KDF_PARAM_DIGEST, (char *)EVP_MD_get0_name(hash), 0),
        OSSL_PARAM_construct_octet_string(OSSL_KDF_PARAM_KEY, (void *)material, material_len),
        OSSL_PARAM_construct_octet_string(OSSL_KDF_PARAM_SALT, (void *)salt, salt_len),
        OSSL_PARAM_construct_octet_string(OSSL_KDF_PARAM_INFO, (void *)info, info_len),
        OSSL_PARAM_construct_end(),
    };
    EVP_KDF_CTX *context = EVP_KDF_CTX_new(openssl_hkdf);
    must(context && EVP_KDF_derive(context, out, count, parameters) == 1, "HKDF");
    EVP_KDF_CTX_free(context);
}

#define KEYED(name, hash, count)                                                                                   \
    static void hmac_##name##_round(const uint8_t *text, size_t length) {                                          \
        size_t out_len = count / 2 + below(count / 2 + 1), key_len = below(below(2) ? 40 : 300);                   \
        uint8_t *key = random_bytes(key_area, key_len), *out = output(out_len), want[count];                       \
        must(HMAC(hash, key_len ? key : (uint8_t *)"", key_len, text, length, want, NULL) != NULL, "HMAC");        \
        status("hmac_" #name, sums_hmac_##name(out, out_len, text, length, key, key_len), 0);                      \
        same("hmac_" #name, length, out, want, out_len);                                                           \
    }                                                                                                              \
    static void hkdf_##name##_round(const uint8_t *text, size_t length) {                                          \
        size_t salt_len = below(200), info_len = below(300), prk_len = count + (below(2) ? 0 : below(100));        \
        size_t out_len = 1 + below(below(4) ? 300 : 255 * count);                                                  \
        uint8_t *salt = random_bytes(salt_area, salt_len), *info = random_bytes(info_area, info_len);              \
        uint8_t *out = output(out_len), *prk = random_bytes(key_area, prk_len), want[255 * 64];                    \
        if (length == 0) return; /* OpenSSL's HKDF wants material */                                               \
        peer_hkdf(EVP_KDF_HKDF_MODE_EXTRACT_AND_EXPAND, hash, want, out_len, text, length, salt, salt_len, info,   \
                  info_len);                                                                                       \
        status("hkdf_" #name, sums_hkdf_##name(out, out_len, text, length, salt, salt_len, info, info_len), 0);    \
        same("hkdf_" #name, length, out, want, out_len);                                                           \
        out = output(out_len);                                                                                     \
        peer_hkdf(EVP_KDF_HKDF_MODE_EXPAND_ONLY, hash, want, out_len, prk, prk_len, salt, 0, info, info_len);      \
        status("expand_" #name, sums_hkdf_expand_##name(out, out_len, prk, prk_len, info, info_len), 0);           \
        same("hkdf_expand_" #name, length, out, want, out_len);                                                    \
        out = output(count);                                                                                       \
        peer_hkdf(EVP_KDF_HKDF_MODE_EXTRACT_ONLY, hash, want, count, text, length, salt, salt_len, info, 0);       \
        status("extract_" #name, sums_hkdf_extract_##name(out, text, length, salt, salt_len), 0);                  \
        same("hkdf_extract_" #name, length, out, want, count);                                                     \
    }

KEYED(sha256, EVP_sha256(), 32)
KEYED(sha512, EVP_sha512(), 64)
KEYED(blake2b, EVP_blake2b512(), 64)
KEYED(blake2s, EVP_blake2s256(), 32)

#define KEYED_PIECES(name, hash, count)                                                                            \
    static void hmac_##name##_pieces_round(const uint8_t *text, size_t length) {                                   \
        size_t out_len = count / 2 + below(count / 2 + 1), key_len = below(below(2) ? 40 : 300);                   \
        uint8_t *key = random_bytes(key_area, key_len), *out = output(out_len), want[count];                       \
        sums_hmac_##name##_state *state = (void *)at_edge(state_area, sizeof *state, at_end);                      \
        sums_hmac_##name##_state *other = (void *)at_edge(copy_area, sizeof *other, at_end);                       \
        must(HMAC(hash, key_len ? key : (uint8_t *)"", key_len, text, length, want, NULL) != NULL, "HMAC");        \
        memset(state, below(256), sizeof *state);                                                                  \
        status("hmac_" #name "_init", sums_hmac_##name##_init(state, key, key_len), 0);                            \
        FEED(sums_hmac_##name##_update, sums_hmac_##name##_finish(state, out, out_len), state, other, text, length) \
        status("hmac_" #name "_finish", sums_hmac_##name##_finish(state, out, out_len), 0);                        \
        same("hmac_" #name " in pieces", length, out, want, out_len);                                              \
    }

KEYED_PIECES(sha256, EVP_sha256(), 32)
KEYED_PIECES(sha512, EVP_sha512(), 64)
KEYED_PIECES(blake2b, EVP_blake2b512(), 64)
KEYED_PIECES(blake2s, EVP_blake2s256(), 32)

// ---- BLAKE3

enum mode { HASH, KEYED_HASH, DERIVE };

// What is known of the output: the peer's where there is one, else that of the call on the whole message.
static void peer_blake3(enum mode mode, uint8_t *out, size_t count, uint64_t position, const uint8_t *text,
                        size_t length, const uint8_t *key, const uint8_t *context, size_t context_len) {
#ifdef PEER_BLAKE3
    blake3_hasher hasher;
    if (mode == HASH) blake3_hasher_init(&hasher);
    else if (mode == KEYED_HASH) blake3_hasher_init_keyed(&hasher, key);
    else blake3_hasher_init_derive_key_raw(&hasher, context, context_len);
    blake3_hasher_update(&hasher, text, length);
    blake3_hasher_finalize_seek(&hasher, position, out, count);
#else
    if (mode == HASH) sums_blake3(out, count, position, text, length);
    else if (mode == KEYED_HASH) sums_blake3_keyed(out, count, position, text, length, key);
    else sums_blake3_derive(out, count, position, text, length, context, context_len);
#endif
}

static void blake3_round(const uint8_t *text, size_t length) {
    size_t count = below(300), context_len = below(below(2) ? 60 : 3000);
    uint64_t position = below(2) ? below(2000) : (uint64_t)below(UINT32_MAX) << below(32);
    uint8_t *key = random_bytes(key_area, 32), *context = random_bytes(info_area, context_len), want[300];
    sums_blake3_state *state = (void *)at_edge(state_area, sizeof *state, at_end);
    sums_blake3_state *other = (void *)at_edge(copy_area, sizeof *other, at_end);
    for (enum mode mode = HASH; mode <= DERIVE; mode++) {
        uint8_t *out = output(count);
        uint32_t got;
        peer_blake3(mode, want, count, position, text, length, key, context, context_len);
        if (mode == HASH) got = sums_blake3(out, count, position, text, length);
        else if (mode == KEYED_HASH) got = sums_blake3_keyed(out, count, position, text, length, key);
        else got = sums_blake3_derive(out, count, position, text, length, context, context_len);
        status("blake3", got, 0);
        same("blake3", length, out, want, count);
        if (mode == HASH) {
            peer_blake3(mode, want, 32, 0, text, length, key, context, context_len);
            out = output(32);
            sums_blake3_hash(out, text, length);
            same("blake3_hash", length, out, want, 32);
            peer_blake3(mode, want, count, position, text, length, key, context, context_len);
        }
        memset(state, below(256), sizeof *state);
        if (mode == HASH) sums_blake3_init(state);
        else if (mode == KEYED_HASH) sums_blake3_init_keyed(state, key);
        else sums_blake3_init_derive(state, context, context_len);
        out = output(count);
        FEED(sums_blake3_update, sums_blake3_output(state, position, out, count), state, other, text, length)
        status("blake3_output", sums_blake3_output(state, position, out, count), 0);
        same("blake3 in pieces", length, out, want, count);
        status("blake3_reset", sums_blake3_reset(state), 0);
        status("blake3_update", sums_blake3_update(state, text, length), 0);
        out = output(count);
        status("blake3_output", sums_blake3_output(state, position, out, count), 0);
        same("blake3 after a reset", length, out, want, count);
    }
}

// ---- the pieces of a buffer

// The digests of up to 200 pieces, of `count` bytes each, beside the peer's of each piece alone.
#define PIECES(function, count, call, peer)                                                            \
    static void function##_pieces_round(const uint8_t *text, size_t length) {                          \
        size_t piece_len = 1 + length / 200 + below(below(2) ? 300 : 9000), digest_len = count;        \
        size_t pieces = length / piece_len + (length % piece_len != 0), out_len = pieces * digest_len; \
        uint8_t *out = output(out_len), want[64];                                                      \
        status(#function "_pieces", call, 0);                                                          \
        for (size_t at = 0; at < length; at += piece_len, out += digest_len) {                         \
            size_t piece = length - at < piece_len ? length - at : piece_len;                          \
            peer;                                                                                      \
            same(#function "_pieces", piece, out, want, digest_len);                                   \
        }                                                                                              \
    }

PIECES(sha256, 32, sums_sha256_pieces(out, out_len, text, length, piece_len),
       digest(EVP_sha256(), want, text + at, piece))
PIECES(sha512, 64, sums_sha512_pieces(out, out_len, text, length, piece_len),
       digest(EVP_sha512(), want, text + at, piece))
PIECES(blake2b, 1 + below(64), sums_blake2b_pieces(out, out_len, digest_len, text, length, piece_len),
       must(blake2b(want, text + at, NULL, digest_len, piece, 0) == 0, "blake2b"))
PIECES(blake2s, 1 + below(32), sums_blake2s_pieces(out, out_len, digest_len, text, length, piece_len),
       must(blake2s(want, text + at, NULL, digest_len, piece, 0) == 0, "blake2s"))
PIECES(blake3, 32, sums_blake3_pieces(out, out_len, text, length, piece_len),
       peer_blake3(HASH, want, 32, 0, text + at, piece, NULL, NULL, 0))

int main(int count, char **words) {
    int rounds = count > 1 ? atoi(words[1]) : 3000;
    if (count > 2) seed = strtoull(words[2], NULL, 10) * 2 + 1;
    message_area = area(), key_area = area(), salt_area = area(), info_area = area();
    out_area = area(), state_area = area(), copy_area = area();
    openssl_hkdf = EVP_KDF_fetch(NULL, "HKDF", NULL);
    must(openssl_hkdf != NULL, "HKDF");
    for (int round = 0; round < rounds; round++) {
        size_t length = below(3) ? below(700) : below(LONGEST);
        at_end = below(2);
        uint8_t *text = random_bytes(message_area, length);
        blake2b_round(text, length);
        blake2s_round(text, length);
        blake3_round(text, length);
        sha256_round(text, length);
        sha512_round(text, length);
        hmac_sha256_round(text, length);
        hmac_sha512_round(text, length);
        hmac_blake2b_round(text, length);
        hmac_blake2s_round(text, length);
        hmac_sha256_pieces_round(text, length);
        hmac_sha512_pieces_round(text, length);
        hmac_blake2b_pieces_round(text, length);
        hmac_blake2s_pieces_round(text, length);
        hkdf_sha256_round(text, length);
        hkdf_sha512_round(text, length);
        hkdf_blake2b_round(text, length);
        hkdf_blake2s_round(text, length);
        sha256_pieces_round(text, length);
        sha512_pieces_round(text, length);
        blake2b_pieces_round(text, length);
        blake2s_pieces_round(text, length);
        blake3_pieces_round(text, length);
    }
    return ends("peers");
}
