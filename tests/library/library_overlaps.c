// Inputs of a call that overlap each other, or are the same bytes, as a caller may hand them in: each call writes what
// it writes of copies that stand alone. See tests/library/library.

#include "library.h"

enum { TEXT = 4096, MOST_KEY = 300, ROUNDS = 2000 };
static uint8_t text[TEXT];

// Some bytes of the text, and a copy of them in memory of their own.
struct part {
    const uint8_t *at;
    uint8_t *copy;
    size_t length;
};

static struct part part(const uint8_t *at, size_t length) {
    struct part part = {at, malloc(length + 1), length};
    if (!part.copy) abort();
    memcpy(part.copy, at, length);
    return part;
}

static const uint8_t *anywhere(size_t length) {
    return text + (size_t)rand() % (TEXT - length + 1);
}

static struct part input, key, salt, personal;

// Takes inputs that overlap often, and begin together often.
static void take(size_t most_key, size_t salt_length) {
    size_t length = (size_t)rand() % (TEXT + 1), key_length = (size_t)rand() % (most_key + 1);
    input = part(anywhere(length), length);
    key = part(rand() % 2 && key_length <= length ? input.at : anywhere(key_length), key_length);
    salt = part(anywhere(salt_length), salt_length);
    personal = part(rand() % 2 ? salt.at : anywhere(salt_length), salt_length);
}

static void release(void) {
    free(personal.copy);
    free(salt.copy);
    free(key.copy);
    free(input.copy);
}

// The call with the parts where they are and with their copies: one status, and the same bytes.
#define BOTH(size, call)                                                                       \
    {                                                                                          \
        uint8_t written[2][size] = {0};                                                        \
        uint32_t answered[2];                                                                  \
        for (int copied = 0; copied < 2; copied++) {                                           \
            const uint8_t *in = copied ? input.copy : input.at, *k = copied ? key.copy : key.at;   \
            const uint8_t *s = copied ? salt.copy : salt.at, *p = copied ? personal.copy : personal.at; \
            uint8_t *out = written[copied];                                                    \
            (void)k, (void)s, (void)p;                                                         \
            answered[copied] = call;                                                           \
        }                                                                                      \
        status(#call, answered[0], answered[1]);                                               \
        same(#call, input.length, written[0], written[1], size);                               \
    }

#define BLAKE2(hash, size, half) \
    static void hash(void) {     \
        take(size, half);        \
        BOTH(size, sums_##hash(out, size, in, input.length, k, key.length))              \
        BOTH(size, sums_##hash##_salted(out, size, in, input.length, k, key.length, s, p)) \
        release();               \
    }

#define KEYED(hash, size)                                                                        \
    static void keyed_##hash(void) {                                                             \
        take(MOST_KEY, size);                                                                    \
        BOTH(size, sums_hmac_##hash(out, size, in, input.length, k, key.length))                 \
        BOTH(777, sums_hkdf_##hash(out, 777, in, input.length, k, key.length, s, salt.length))   \
        BOTH(size, sums_hkdf_extract_##hash(out, in, input.length, k, key.length))               \
        BOTH(777, sums_hkdf_expand_##hash(out, 777, s, salt.length, in, input.length))           \
        release();                                                                               \
    }

BLAKE2(blake2b, 64, 16)
BLAKE2(blake2s, 32, 8)
KEYED(sha256, 32)
KEYED(sha512, 64)
KEYED(blake2b, 64)
KEYED(blake2s, 32)

static void blake3(void) {
    take(MOST_KEY, 32);
    BOTH(333, sums_blake3_keyed(out, 333, 7, in, input.length, s))
    BOTH(333, sums_blake3_derive(out, 333, 7, in, input.length, k, key.length))
    release();
}

// The name of a line is text, which the digest may lie in.
static void list_lines(void) {
    static uint8_t names[TEXT];
    size_t digest_length = 1 + (size_t)rand() % 64, name_length = 1 + (size_t)rand() % 300;
    for (size_t i = 0; i < TEXT; i++) names[i] = 1 + text[i] % 127;
    const uint8_t *at = names + (size_t)rand() % (TEXT - 400);
    input = part(at, name_length);
    key = part(rand() % 2 ? at : at + (size_t)rand() % name_length, digest_length);
    for (uint32_t is_tagged = 0; is_tagged < 2; is_tagged++) {
        size_t length = sums_list_line_length(SUMS_BLAKE2B, is_tagged, digest_length, at, name_length);
        if (length > 1000) abort();
        BOTH(1000, sums_list_line(out, length, SUMS_BLAKE2B, is_tagged, k, digest_length, in, name_length))
    }
    free(key.copy);
    free(input.copy);
}

int main(void) {
    srand(1);
    for (size_t i = 0; i < TEXT; i++) text[i] = (uint8_t)rand();
    for (int i = 0; i < ROUNDS; i++) {
        blake2b();
        blake2s();
        blake3();
        keyed_sha256();
        keyed_sha512();
        keyed_blake2b();
        keyed_blake2s();
        list_lines();
    }
    return ends("overlaps");
}
