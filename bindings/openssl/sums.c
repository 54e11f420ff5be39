// SPDX-License-Identifier: MIT OR Apache-2.0
// A provider for OpenSSL 3: the digests and keyed hashes of sums_hash.h under the names and parameters that OpenSSL's
// own have, and BLAKE3, which it has not. A row of `hashes` is a hash, and a row of `digests` or `macs` is an offer.
//
// OpenSSL chooses a provider by a name, before it knows any parameter. An HMAC or a key derivation of these hashes
// alone would be chosen for all others too, so there is none here: OpenSSL's own run over these digests.
//
// Nothing of libcrypto is called but what it hands in. So one file is for each OpenSSL from 3.0 on, whether a program
// takes it as a shared library or has it linked in.
//
// Lengths: what C is told is the length of memory that OpenSSL hands in with that length, or which a row here sizes; of
// BLAKE3 it may be the length that a caller has set by xoflen (see digest_final).
//
// Threads: a context is one thread's at a time, as OpenSSL asks of its users. All else is constant, or written once
// before anything is offered.
#include <openssl/core.h>
#include <openssl/core_dispatch.h>
#include <openssl/core_names.h>
#include <openssl/err.h>
#include <openssl/params.h>
#include <openssl/proverr.h>
#include <stdarg.h>
#include <stdlib.h>
#include <string.h>

#include "sums_hash.h"

_Static_assert(__BYTE_ORDER__ == __ORDER_LITTLE_ENDIAN__, "a number of a parameter is read from its lowest byte on");

enum {
    MOST_KEY = 64,    // the bytes of the longest key
    MOST_SALT = 16,   // those of the longest salt, and of the longest personalization
    MOST_DIGEST = 64, // those of the longest digest of BLAKE2
};

// functions of later OpenSSLs, by the numbers of their headers; an earlier one passes them over
enum { DIGEST_SQUEEZE = 14, DIGEST_COPYCTX = 15 };

typedef void (*call)(void);

// ---- what the core hands in, and faults, which go into its queue

struct provider {
    const OSSL_CORE_HANDLE *core;
    OSSL_FUNC_core_new_error_fn *new_error;
    OSSL_FUNC_core_set_error_debug_fn *set_place;
    OSSL_FUNC_core_vset_error_fn *set_reason;
};

// Tells a fault: a reason as OpenSSL's own providers give it, and a text beside it. It is always 0.
__attribute__((format(printf, 5, 6))) static int refuse(const struct provider *provider, const char *function, int line,
                                                        uint32_t reason, const char *format, ...)
{
    va_list values;
    provider->new_error(provider->core);
    provider->set_place(provider->core, "sums.c", line, function);
    va_start(values, format);
    provider->set_reason(provider->core, ERR_PACK(ERR_LIB_PROV, 0, reason), format, values);
    va_end(values);
    return 0;
}
#define REFUSE(provider, reason, ...) refuse(provider, __func__, __LINE__, reason, __VA_ARGS__)

// Whether a call of C did its work; else its status, which is one of these, is told.
static int judged(const struct provider *provider, const char *function, int line, uint32_t status)
{
    static const struct {
        uint32_t reason;
        const char *text;
    } refusals[] = {
        [SUMS_DIGEST_LENGTH] = {PROV_R_INVALID_DIGEST_SIZE, "sums: the hash has no digest of that length"},
        [SUMS_KEY_LENGTH] = {PROV_R_INVALID_KEY_LENGTH, "sums: the hash takes no key of that length"},
        [SUMS_INPUT_TOO_LONG] = {PROV_R_INVALID_INPUT_LENGTH, "sums: the message is longer than the hash takes"},
        [SUMS_NOT_BEGUN] = {PROV_R_INVALID_STATE, "sums: no message is begun"},
        [SUMS_END_OF_OUTPUT] = {PROV_R_INVALID_OUTPUT_LENGTH, "sums: the output has no such bytes"},
    };
    if (status == SUMS_OK) return 1;
    // a later library may have some that are not known here
    if (status >= sizeof refusals / sizeof *refusals)
        return refuse(provider, function, line, ERR_R_INTERNAL_ERROR, "sums: status %u", (unsigned)status);
    return refuse(provider, function, line, refusals[status].reason, "%s", refusals[status].text);
}
#define JUDGED(provider, status) judged(provider, __func__, __LINE__, status)

// ---- parameters

// The parameter of that name, or NULL.
static OSSL_PARAM *find(const OSSL_PARAM *params, const char *name)
{
    for (; params && params->key; params++)
        if (strcmp(params->key, name) == 0) return (OSSL_PARAM *)params;
    return NULL;
}

static int is_number(const OSSL_PARAM *param)
{
    return param->data_type == OSSL_PARAM_UNSIGNED_INTEGER || param->data_type == OSSL_PARAM_INTEGER;
}

// Reads a number, of whatever width it is.
static int read_number(const struct provider *provider, const OSSL_PARAM *param, size_t *to)
{
    const uint8_t *bytes = param->data;
    size_t length = param->data_size, number = 0;
    if (!is_number(param) || !bytes || !length)
        return REFUSE(provider, PROV_R_FAILED_TO_GET_PARAMETER, "sums: %s is no number", param->key);
    if (param->data_type == OSSL_PARAM_INTEGER && bytes[length - 1] >= 128)
        return REFUSE(provider, PROV_R_FAILED_TO_GET_PARAMETER, "sums: %s is below 0", param->key);
    while (length-- > 0) {
        if (length < sizeof number)
            number = number << 8 | bytes[length];
        else if (bytes[length])
            return REFUSE(provider, PROV_R_FAILED_TO_GET_PARAMETER, "sums: %s is too large", param->key);
    }
    *to = number;
    return 1;
}

// Writes a number where it is asked for, in as many bytes as there are for it; whether they take it.
static int write_number(OSSL_PARAM params[], const char *name, size_t number)
{
    OSSL_PARAM *param = find(params, name);
    if (!param) return 1;
    if (!is_number(param)) return 0;
    uint8_t *bytes = param->data;
    param->return_size = sizeof number;
    if (!bytes) return 1;
    for (size_t i = param->data_size; i < sizeof number; i++)
        if (number >> 8 * i) return 0;
    for (size_t i = 0; i < param->data_size; i++) bytes[i] = i < sizeof number ? (uint8_t)(number >> 8 * i) : 0;
    param->return_size = param->data_size;
    return param->data_type != OSSL_PARAM_INTEGER || !param->data_size || bytes[param->data_size - 1] < 128;
}

static int is_octets(const struct provider *provider, const OSSL_PARAM *param)
{
    if (param->data_type == OSSL_PARAM_OCTET_STRING && (param->data || !param->data_size)) return 1;
    return REFUSE(provider, PROV_R_FAILED_TO_GET_PARAMETER, "sums: %s is no octet string", param->key);
}

// ---- the hashes: their calls of C, by a pointer to any state

// What a message begins with.
struct start {
    size_t length;  // of the digest
    size_t is_open; // whether the output of a MAC is as long as its room, whatever the length
    size_t key_length;
    uint8_t key[MOST_KEY], salt[MOST_SALT], personal[MOST_SALT];
};

struct hash {
    size_t state_size, block_size, digest_size;
    enum { FIXED, UP_TO_DIGEST, ANY } lengths; // of a digest: its size alone, up to that, or any
    size_t least_key, most_key, salt_size;     // a personalization is as long as a salt
    uint32_t (*begin)(void *state, const struct start *start);
    uint32_t (*update)(void *state, const uint8_t *piece, size_t length);
    uint32_t (*write)(const void *state, uint64_t position, uint8_t *out, size_t length);
};

#define UPDATE(name) \
    static uint32_t update_##name(void *state, const uint8_t *piece, size_t length) \
    { \
        return sums_##name##_update(state, piece, length); \
    }

#define SHA2(name) \
    static uint32_t begin_##name(void *state, const struct start *start) \
    { \
        (void)start; \
        sums_##name##_init(state); \
        return SUMS_OK; \
    } \
    UPDATE(name) \
    static uint32_t write_##name(const void *state, uint64_t position, uint8_t *out, size_t length) \
    { \
        (void)position, (void)length; \
        return sums_##name##_finish(state, out); \
    }

#define BLAKE2(name) \
    static uint32_t begin_##name(void *state, const struct start *start) \
    { \
        return sums_##name##_init_salted(state, start->length, start->key, start->key_length, start->salt, \
                                         start->personal); \
    } \
    UPDATE(name) \
    static uint32_t write_##name(const void *state, uint64_t position, uint8_t *out, size_t length) \
    { \
        (void)position; \
        return sums_##name##_finish(state, out, length); \
    }

SHA2(sha256)
SHA2(sha512)
BLAKE2(blake2b)
BLAKE2(blake2s)
UPDATE(blake3)

static uint32_t begin_blake3(void *state, const struct start *start)
{
    if (start->key_length)
        sums_blake3_init_keyed(state, start->key);
    else
        sums_blake3_init(state);
    return SUMS_OK;
}

static uint32_t write_blake3(const void *state, uint64_t position, uint8_t *out, size_t length)
{
    return sums_blake3_output(state, position, out, length);
}

#define CALLS(name) .begin = begin_##name, .update = update_##name, .write = write_##name

enum { SHA256, SHA512, BLAKE2B, BLAKE2S, BLAKE3, BLAKE3_256 };

static const struct hash hashes[] = {
    [SHA256] = {sizeof(sums_sha256_state), 64, 32, FIXED, CALLS(sha256)},
    [SHA512] = {sizeof(sums_sha512_state), 128, 64, FIXED, CALLS(sha512)},
    [BLAKE2B] = {sizeof(sums_blake2b_state), 128, 64, UP_TO_DIGEST, 1, 64, 16, CALLS(blake2b)},
    [BLAKE2S] = {sizeof(sums_blake2s_state), 64, 32, UP_TO_DIGEST, 1, 32, 8, CALLS(blake2s)},
    [BLAKE3] = {sizeof(sums_blake3_state), 64, 32, ANY, 32, 32, 0, CALLS(blake3)},
    // for programs that ask the user for a length wherever it can be chosen, as hashlib of Python does
    [BLAKE3_256] = {sizeof(sums_blake3_state), 64, 32, FIXED, CALLS(blake3)},
};

// ---- messages, which digests and MACs have in common

struct message {
    const struct provider *provider;
    const struct hash *hash;
    struct start start; // of this message, and where it is a MAC's of the next one
    size_t begun;       // the length of the digest that this message began with
    // A digest may be written again; behind bytes that were squeezed out only more of them can follow.
    enum { UNBEGUN, BEGUN, FED, ENDED, SQUEEZED } stage;
    uint64_t position; // of the output that is squeezed out next
    uint64_t state[];
};

static size_t message_size(const struct hash *hash)
{
    return sizeof(struct message) + hash->state_size;
}

static void *message_new(const struct provider *provider, const struct hash *hash)
{
    struct message *message = calloc(1, message_size(hash));
    if (!message) {
        REFUSE(provider, ERR_R_MALLOC_FAILURE, "sums: no memory for a context");
        return NULL;
    }
    message->provider = provider;
    message->hash = hash;
    message->start.length = hash->digest_size;
    return message;
}

static void message_free(void *context)
{
    struct message *message = context;
    if (!message) return;
    explicit_bzero(message, message_size(message->hash));
    free(message);
}

// Both are of the same hash, as OpenSSL sees to.
static void message_copy(void *to, void *from)
{
    memcpy(to, from, message_size(((struct message *)from)->hash));
}

static void *message_dup(void *context)
{
    struct message *from = context;
    void *to = message_new(from->provider, from->hash);
    if (to) message_copy(to, from);
    return to;
}

static int message_begin(struct message *message)
{
    message->stage = UNBEGUN;
    message->position = 0;
    message->begun = message->start.length;
    if (!JUDGED(message->provider, message->hash->begin(message->state, &message->start))) return 0;
    message->stage = BEGUN;
    return 1;
}

static int message_update(void *context, const unsigned char *piece, size_t length)
{
    struct message *message = context;
    if (message->stage != BEGUN && message->stage != FED)
        return REFUSE(message->provider, PROV_R_INVALID_STATE, "sums: no message is begun, or it has ended");
    if (!length) return 1;
    message->stage = FED;
    return JUDGED(message->provider, message->hash->update(message->state, piece, length));
}

static int write_output(const struct message *message, unsigned char *out, size_t length)
{
    if (length) memset(out, 0, length); // the library writes into initialised memory
    return JUDGED(message->provider, message->hash->write(message->state, message->position, out, length));
}

// Writes a digest. BLAKE2 has the one that its message began with, and a shorter one is the beginning of it.
static int write_digest(const struct message *message, unsigned char *out, size_t length)
{
    uint8_t whole[MOST_DIGEST];
    if (message->hash->lengths == ANY || length == message->begun) return write_output(message, out, length);
    int done = write_output(message, whole, message->begun);
    if (done) memcpy(out, whole, length);
    explicit_bzero(whole, sizeof whole);
    return done;
}

static int message_final(struct message *message, unsigned char *out, size_t *written, size_t length, size_t room)
{
    *written = 0;
    if (message->stage == UNBEGUN || message->stage == SQUEEZED)
        return REFUSE(message->provider, PROV_R_INVALID_STATE, "sums: no message is begun, or its output was squeezed");
    if (room < length)
        return REFUSE(message->provider, PROV_R_OUTPUT_BUFFER_TOO_SMALL, "sums: %zu bytes, and room for %zu", length,
                      room);
    if (message->hash->lengths != ANY && length > message->begun)
        return REFUSE(message->provider, PROV_R_INVALID_STATE, "sums: the message began with a size of %zu, not %zu",
                      message->begun, length);
    if (!write_digest(message, out, length)) return 0;
    *written = length;
    message->stage = ENDED;
    return 1;
}

static int message_squeeze(void *context, unsigned char *out, size_t *written, size_t room)
{
    struct message *message = context;
    *written = 0;
    if (message->stage == UNBEGUN || message->stage == ENDED)
        return REFUSE(message->provider, PROV_R_INVALID_STATE, "sums: no message is begun, or its digest was written");
    if (!write_output(message, out, room)) return 0;
    *written = room;
    message->stage = SQUEEZED;
    message->position += room;
    return 1;
}

// Reads the length of a digest that a parameter sets, where there is one; `reason` is that of one that BLAKE2 has not.
static int read_length(const struct message *message, const OSSL_PARAM *param, uint32_t reason, size_t *to)
{
    size_t length;
    if (!param) return 1;
    if (!read_number(message->provider, param, &length)) return 0;
    if (message->hash->lengths == UP_TO_DIGEST && (length < 1 || length > message->hash->digest_size))
        return REFUSE(message->provider, reason, "sums: a digest has 1 to %zu bytes, not %zu",
                      message->hash->digest_size, length);
    *to = length;
    return 1;
}

static int tell_number(const struct message *message, OSSL_PARAM params[], const char *name, size_t number)
{
    if (write_number(params, name, number)) return 1;
    return REFUSE(message->provider, PROV_R_FAILED_TO_SET_PARAMETER, "sums: %s is %zu, and has no room", name, number);
}

// ---- digests

// Has a message that has no bytes yet begin with this length. One that has ended stays at its end only where its
// digest is as long as before.
static int settle(struct message *message, size_t length)
{
    int changes = length != message->start.length;
    // BLAKE2 begins with its length, and BLAKE3 ends with it
    if (changes && message->hash->lengths == UP_TO_DIGEST && message->stage == FED)
        return REFUSE(message->provider, PROV_R_INVALID_STATE, "sums: %s is set before the message",
                      OSSL_DIGEST_PARAM_SIZE);
    message->start.length = length;
    if (message->stage == BEGUN) return message_begin(message);
    if (changes && message->hash->lengths == UP_TO_DIGEST) message->stage = UNBEGUN;
    return 1;
}

static int digest_set(void *context, const OSSL_PARAM params[])
{
    struct message *message = context;
    const OSSL_PARAM *param = find(params, OSSL_DIGEST_PARAM_XOFLEN);
    size_t length = message->start.length;
    if (message->hash->lengths == FIXED) return 1;
    if (param && message->hash->lengths != ANY)
        return REFUSE(message->provider, PROV_R_NOT_XOF_OR_INVALID_LENGTH, "sums: BLAKE2 takes %s",
                      OSSL_DIGEST_PARAM_SIZE);
    if (!param) param = find(params, OSSL_DIGEST_PARAM_SIZE);
    return read_length(message, param, PROV_R_INVALID_DIGEST_SIZE, &length) && settle(message, length);
}

static int digest_init(void *context, const OSSL_PARAM params[])
{
    struct message *message = context;
    message->stage = UNBEGUN;
    // that of the message before may have been set by EVP_DigestFinalXOF
    if (message->hash->lengths == ANY) message->start.length = message->hash->digest_size;
    return digest_set(message, params) && message_begin(message);
}

// EVP_DigestFinal_ex of OpenSSL 3.0 hands in the size of the hash as the room, whatever length was set by xoflen. A
// caller who has set a greater one has room for that, as with SHAKE256 of OpenSSL's own.
static int digest_final(void *context, unsigned char *out, size_t *written, size_t room)
{
    struct message *message = context;
    size_t length = message->start.length;
    int is_of_hash = message->hash->lengths == ANY && room == message->hash->digest_size;
    return message_final(message, out, written, length, is_of_hash && room < length ? length : room);
}

static int digest_get(void *context, OSSL_PARAM params[])
{
    const struct message *message = context;
    size_t length = message->start.length;
    return tell_number(message, params, OSSL_DIGEST_PARAM_SIZE, length)
        && (message->hash->lengths != ANY || tell_number(message, params, OSSL_DIGEST_PARAM_XOFLEN, length));
}

static int digest_facts(const struct hash *hash, OSSL_PARAM params[])
{
    return write_number(params, OSSL_DIGEST_PARAM_BLOCK_SIZE, hash->block_size)
        && write_number(params, OSSL_DIGEST_PARAM_SIZE, hash->digest_size)
        && write_number(params, OSSL_DIGEST_PARAM_XOF, hash->lengths == ANY)
        && write_number(params, OSSL_DIGEST_PARAM_ALGID_ABSENT, hash->lengths == FIXED);
}

static const OSSL_PARAM *digest_gettable(void *provider)
{
    static const OSSL_PARAM params[] = {
        OSSL_PARAM_size_t(OSSL_DIGEST_PARAM_BLOCK_SIZE, NULL), OSSL_PARAM_size_t(OSSL_DIGEST_PARAM_SIZE, NULL),
        OSSL_PARAM_int(OSSL_DIGEST_PARAM_XOF, NULL), OSSL_PARAM_int(OSSL_DIGEST_PARAM_ALGID_ABSENT, NULL),
        OSSL_PARAM_END,
    };
    (void)provider;
    return params;
}

static const OSSL_PARAM lengths_of_blake3[] = {
    OSSL_PARAM_size_t(OSSL_DIGEST_PARAM_XOFLEN, NULL),
    OSSL_PARAM_size_t(OSSL_DIGEST_PARAM_SIZE, NULL),
    OSSL_PARAM_END,
};

static const OSSL_PARAM *blake3_lengths(void *context, void *provider)
{
    (void)context, (void)provider;
    return lengths_of_blake3;
}

static const OSSL_PARAM *blake2_lengths(void *context, void *provider)
{
    (void)context, (void)provider;
    return lengths_of_blake3 + 1;
}

// OpenSSL hands these two nothing that tells the hash.
#define FOR_ITSELF(name, row) \
    static void *new_##name(void *provider) \
    { \
        return message_new(provider, &hashes[row]); \
    } \
    static int facts_##name(OSSL_PARAM params[]) \
    { \
        return digest_facts(&hashes[row], params); \
    }

#define DIGEST(name) \
    {OSSL_FUNC_DIGEST_NEWCTX, (call)new_##name}, {OSSL_FUNC_DIGEST_GET_PARAMS, (call)facts_##name}, \
    {OSSL_FUNC_DIGEST_FREECTX, (call)message_free}, {OSSL_FUNC_DIGEST_DUPCTX, (call)message_dup}, \
    {DIGEST_COPYCTX, (call)message_copy}, {OSSL_FUNC_DIGEST_INIT, (call)digest_init}, \
    {OSSL_FUNC_DIGEST_UPDATE, (call)message_update}, {OSSL_FUNC_DIGEST_FINAL, (call)digest_final}, \
    {OSSL_FUNC_DIGEST_GETTABLE_PARAMS, (call)digest_gettable}

#define LENGTHS(list) \
    {OSSL_FUNC_DIGEST_SET_CTX_PARAMS, (call)digest_set}, {OSSL_FUNC_DIGEST_GET_CTX_PARAMS, (call)digest_get}, \
    {OSSL_FUNC_DIGEST_SETTABLE_CTX_PARAMS, (call)list}, {OSSL_FUNC_DIGEST_GETTABLE_CTX_PARAMS, (call)list}

FOR_ITSELF(sha256, SHA256)
FOR_ITSELF(sha512, SHA512)
FOR_ITSELF(blake2b, BLAKE2B)
FOR_ITSELF(blake2s, BLAKE2S)
FOR_ITSELF(blake3, BLAKE3)
FOR_ITSELF(blake3_256, BLAKE3_256)

static const OSSL_DISPATCH digest_sha256[] = {DIGEST(sha256), {0, NULL}};
static const OSSL_DISPATCH digest_sha512[] = {DIGEST(sha512), {0, NULL}};
static const OSSL_DISPATCH digest_blake2b[] = {DIGEST(blake2b), LENGTHS(blake2_lengths), {0, NULL}};
static const OSSL_DISPATCH digest_blake2s[] = {DIGEST(blake2s), LENGTHS(blake2_lengths), {0, NULL}};
static const OSSL_DISPATCH digest_blake3[] = {
    DIGEST(blake3), LENGTHS(blake3_lengths), {DIGEST_SQUEEZE, (call)message_squeeze}, {0, NULL}};
static const OSSL_DISPATCH digest_blake3_256[] = {DIGEST(blake3_256), {0, NULL}};

// ---- MACs: the hashes that take a key

static int take_key(const struct message *message, const void *key, size_t length, struct start *start)
{
    size_t least = message->hash->least_key, most = message->hash->most_key;
    if (length < least || length > most)
        return REFUSE(message->provider, PROV_R_INVALID_KEY_LENGTH, "sums: a key has %zu to %zu bytes, not %zu", least,
                      most, length);
    memcpy(start->key, key, length);
    start->key_length = length;
    return 1;
}

static int read_key(const struct message *message, const OSSL_PARAM *param, struct start *start)
{
    if (!param) return 1;
    return is_octets(message->provider, param) && take_key(message, param->data, param->data_size, start);
}

// Reads a salt or a personalization, where there is one. A shorter one gets zeros behind it, as OpenSSL has it.
static int read_salt(const struct message *message, const OSSL_PARAM *param, uint32_t reason, uint8_t to[MOST_SALT])
{
    size_t most = message->hash->salt_size;
    if (!param) return 1;
    if (!is_octets(message->provider, param)) return 0;
    if (param->data_size > most)
        return REFUSE(message->provider, reason, "sums: %s has up to %zu bytes, not %zu", param->key, most,
                      param->data_size);
    memset(to, 0, MOST_SALT);
    if (param->data_size) memcpy(to, param->data, param->data_size);
    return 1;
}

// Reads whether the output is as long as its room, as EVP_MAC_finalXOF asks for it.
static int read_openness(const struct message *message, const OSSL_PARAM *param, size_t *to)
{
    if (!param) return 1;
    if (!read_number(message->provider, param, to)) return 0;
    if (!*to || message->hash->lengths == ANY) return 1;
    return REFUSE(message->provider, PROV_R_NOT_XOF_OR_INVALID_LENGTH, "sums: BLAKE2 takes %s", OSSL_MAC_PARAM_SIZE);
}

static int read_start(const struct message *message, const OSSL_PARAM params[], struct start *start)
{
    if (!read_length(message, find(params, OSSL_MAC_PARAM_SIZE), PROV_R_NOT_XOF_OR_INVALID_LENGTH, &start->length))
        return 0;
    if (!start->length)
        return REFUSE(message->provider, PROV_R_INVALID_OUTPUT_LENGTH, "sums: a MAC has 1 byte or more");
    // where several are refused, OpenSSL's own tells the first in this order
    return read_key(message, find(params, OSSL_MAC_PARAM_KEY), start)
        && read_salt(message, find(params, OSSL_MAC_PARAM_CUSTOM), PROV_R_INVALID_CUSTOM_LENGTH, start->personal)
        && read_salt(message, find(params, OSSL_MAC_PARAM_SALT), PROV_R_INVALID_SALT_LENGTH, start->salt)
        && read_openness(message, find(params, OSSL_MAC_PARAM_XOF), &start->is_open);
}

// Takes all parameters, and a key that is none of them where there is one. Where one is refused, none counts.
static int take_start(struct message *message, const OSSL_PARAM params[], const void *key, size_t length)
{
    struct start start = message->start;
    int done = read_start(message, params, &start) && (!key || take_key(message, key, length, &start));
    if (done) message->start = start;
    explicit_bzero(&start, sizeof start);
    return done;
}

// A message goes on with the key, the salt and the personalization that it began with, as in OpenSSL's own.
static int mac_set(void *context, const OSSL_PARAM params[])
{
    return take_start(context, params, NULL, 0);
}

static int mac_init(void *context, const unsigned char *key, size_t length, const OSSL_PARAM params[])
{
    struct message *message = context;
    message->stage = UNBEGUN;
    message->start.is_open = 0; // EVP_MAC_finalXOF may have asked for it before
    if (!take_start(message, params, key, length)) return 0;
    if (!message->start.key_length) return REFUSE(message->provider, PROV_R_NO_KEY_SET, "sums: a MAC has a key");
    return message_begin(message);
}

// The size is the one that is set now, as in OpenSSL's own.
static int mac_final(void *context, unsigned char *out, size_t *written, size_t room)
{
    struct message *message = context;
    return message_final(message, out, written, message->start.is_open ? room : message->start.length, room);
}

static int mac_get(void *context, OSSL_PARAM params[])
{
    const struct message *message = context;
    return tell_number(message, params, OSSL_MAC_PARAM_SIZE, message->start.length)
        && tell_number(message, params, OSSL_MAC_PARAM_BLOCK_SIZE, message->hash->block_size);
}

static const OSSL_PARAM *mac_gettable(void *context, void *provider)
{
    static const OSSL_PARAM params[] = {
        OSSL_PARAM_size_t(OSSL_MAC_PARAM_SIZE, NULL),
        OSSL_PARAM_size_t(OSSL_MAC_PARAM_BLOCK_SIZE, NULL),
        OSSL_PARAM_END,
    };
    (void)context, (void)provider;
    return params;
}

#define OF_EACH_MAC OSSL_PARAM_size_t(OSSL_MAC_PARAM_SIZE, NULL), OSSL_PARAM_octet_string(OSSL_MAC_PARAM_KEY, NULL, 0)

static const OSSL_PARAM *blake2_settable(void *context, void *provider)
{
    static const OSSL_PARAM params[] = {
        OF_EACH_MAC,
        OSSL_PARAM_octet_string(OSSL_MAC_PARAM_CUSTOM, NULL, 0),
        OSSL_PARAM_octet_string(OSSL_MAC_PARAM_SALT, NULL, 0),
        OSSL_PARAM_END,
    };
    (void)context, (void)provider;
    return params;
}

static const OSSL_PARAM *blake3_settable(void *context, void *provider)
{
    static const OSSL_PARAM params[] = {OF_EACH_MAC, OSSL_PARAM_int(OSSL_MAC_PARAM_XOF, NULL), OSSL_PARAM_END};
    (void)context, (void)provider;
    return params;
}

#define MAC(name, settable) \
    {OSSL_FUNC_MAC_NEWCTX, (call)new_##name}, {OSSL_FUNC_MAC_FREECTX, (call)message_free}, \
    {OSSL_FUNC_MAC_DUPCTX, (call)message_dup}, {OSSL_FUNC_MAC_INIT, (call)mac_init}, \
    {OSSL_FUNC_MAC_UPDATE, (call)message_update}, {OSSL_FUNC_MAC_FINAL, (call)mac_final}, \
    {OSSL_FUNC_MAC_SET_CTX_PARAMS, (call)mac_set}, {OSSL_FUNC_MAC_SETTABLE_CTX_PARAMS, (call)settable}, \
    {OSSL_FUNC_MAC_GET_CTX_PARAMS, (call)mac_get}, {OSSL_FUNC_MAC_GETTABLE_CTX_PARAMS, (call)mac_gettable}, \
    {0, NULL}

static const OSSL_DISPATCH mac_blake2b[] = {MAC(blake2b, blake2_settable)};
static const OSSL_DISPATCH mac_blake2s[] = {MAC(blake2s, blake2_settable)};
static const OSSL_DISPATCH mac_blake3[] = {MAC(blake3, blake3_settable)};

// ---- the provider

#define OFFER(names, functions, title) {names, "provider=sums", functions, title " of sums"}

static const OSSL_ALGORITHM digests[] = {
    OFFER("SHA2-256:SHA-256:SHA256:2.16.840.1.101.3.4.2.1", digest_sha256, "SHA-256"),
    OFFER("SHA2-512:SHA-512:SHA512:2.16.840.1.101.3.4.2.3", digest_sha512, "SHA-512"),
    OFFER("BLAKE2B-512:BLAKE2b512:1.3.6.1.4.1.1722.12.2.1.16", digest_blake2b, "BLAKE2b"),
    OFFER("BLAKE2S-256:BLAKE2s256:1.3.6.1.4.1.1722.12.2.2.8", digest_blake2s, "BLAKE2s"),
    OFFER("BLAKE3", digest_blake3, "BLAKE3 with output of any length"),
    OFFER("BLAKE3-256", digest_blake3_256, "BLAKE3 with output of 32 bytes"),
    {NULL, NULL, NULL, NULL},
};

static const OSSL_ALGORITHM macs[] = {
    OFFER("BLAKE2BMAC:1.3.6.1.4.1.1722.12.2.1", mac_blake2b, "keyed BLAKE2b"),
    OFFER("BLAKE2SMAC:1.3.6.1.4.1.1722.12.2.2", mac_blake2s, "keyed BLAKE2s"),
    OFFER("BLAKE3MAC", mac_blake3, "keyed BLAKE3"),
    {NULL, NULL, NULL, NULL},
};

static const OSSL_ALGORITHM *offered(void *provider, int operation, int *no_cache)
{
    (void)provider;
    *no_cache = 0;
    switch (operation) {
    case OSSL_OP_DIGEST: return digests;
    case OSSL_OP_MAC: return macs;
    default: return NULL;
    }
}

static const OSSL_PARAM *about_gettable(void *provider)
{
    static const OSSL_PARAM params[] = {
        OSSL_PARAM_DEFN(OSSL_PROV_PARAM_NAME, OSSL_PARAM_UTF8_PTR, NULL, 0),
        OSSL_PARAM_DEFN(OSSL_PROV_PARAM_VERSION, OSSL_PARAM_UTF8_PTR, NULL, 0),
        OSSL_PARAM_DEFN(OSSL_PROV_PARAM_BUILDINFO, OSSL_PARAM_UTF8_PTR, NULL, 0),
        OSSL_PARAM_int(OSSL_PROV_PARAM_STATUS, NULL),
        OSSL_PARAM_END,
    };
    (void)provider;
    return params;
}

// Writes where a text is, where it is asked for.
static int write_text(OSSL_PARAM params[], const char *name, const char *text)
{
    OSSL_PARAM *param = find(params, name);
    if (!param) return 1;
    if (param->data_type != OSSL_PARAM_UTF8_PTR) return 0;
    param->return_size = strlen(text);
    if (param->data) *(const char **)param->data = text;
    return 1;
}

static int about(void *provider, OSSL_PARAM params[])
{
    (void)provider;
    return write_text(params, OSSL_PROV_PARAM_NAME, "sums: BLAKE2, BLAKE3 and SHA-2 of a proved library")
        && write_text(params, OSSL_PROV_PARAM_VERSION, SUMS_HASH_VERSION)
        && write_text(params, OSSL_PROV_PARAM_BUILDINFO, SUMS_HASH_VERSION)
        && write_number(params, OSSL_PROV_PARAM_STATUS, 1);
}

// Takes what the core offers; whether that is enough.
static int take_core(struct provider *provider, const OSSL_DISPATCH *offers)
{
    for (; offers->function_id; offers++) {
        switch (offers->function_id) {
        case OSSL_FUNC_CORE_NEW_ERROR: provider->new_error = OSSL_FUNC_core_new_error(offers); break;
        case OSSL_FUNC_CORE_SET_ERROR_DEBUG: provider->set_place = OSSL_FUNC_core_set_error_debug(offers); break;
        case OSSL_FUNC_CORE_VSET_ERROR: provider->set_reason = OSSL_FUNC_core_vset_error(offers); break;
        default: break;
        }
    }
    return provider->new_error && provider->set_place && provider->set_reason;
}

__attribute__((visibility("default"))) int OSSL_provider_init(const OSSL_CORE_HANDLE *core, const OSSL_DISPATCH *in,
                                                              const OSSL_DISPATCH **out, void **context)
{
    static const OSSL_DISPATCH functions[] = {
        {OSSL_FUNC_PROVIDER_TEARDOWN, (call)free},
        {OSSL_FUNC_PROVIDER_GETTABLE_PARAMS, (call)about_gettable},
        {OSSL_FUNC_PROVIDER_GET_PARAMS, (call)about},
        {OSSL_FUNC_PROVIDER_QUERY_OPERATION, (call)offered},
        {0, NULL},
    };
    struct provider *provider = calloc(1, sizeof *provider);
    if (!provider) return 0;
    provider->core = core;
    if (!take_core(provider, in)) {
        free(provider);
        return 0;
    }
    *context = provider;
    *out = functions;
    return 1;
}
