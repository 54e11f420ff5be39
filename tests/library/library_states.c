// What each call refuses, at both sides of each bound, and states that were never begun or that hold anything at all.
// A refused call leaves its outputs and its state as they were. See tests/library/library.

#include "library.h"

static uint8_t *out_area, *state_area;
static uint8_t text[256], zeros[64];

// An output of so many bytes, which a call must leave as it is, or write.
static uint8_t *output(size_t count) {
    uint8_t *bytes = at_edge(out_area, count, 1);
    memset(bytes, 0x5a, count);
    return bytes;
}

static void untouched(const char *what, const uint8_t *bytes, size_t count) {
    for (size_t i = 0; i < count; i++)
        if (bytes[i] != 0x5a) {
            judged(what, i, 0);
            return;
        }
    judged(what, 0, 1);
}

// refused, with an output of `count` bytes, `bytes`, that stays as it is
#define REFUSED(want, count, call)          \
    {                                       \
        size_t room = (count);              \
        uint8_t *bytes = output(room);      \
        status(#call, call, want);          \
        untouched(#call, bytes, room);      \
    }
#define TAKEN(count, call)                  \
    {                                       \
        uint8_t *bytes = output(count);     \
        status(#call, call, SUMS_OK);       \
    }

// ---- Lengths

#define BLAKE2_LENGTHS(function, most)                                                                       \
    static void function##_lengths(void) {                                                                   \
        sums_##function##_state state = {0}, before;                                                         \
        REFUSED(SUMS_DIGEST_LENGTH, 0, sums_##function(bytes, 0, text, 3, NULL, 0))                          \
        REFUSED(SUMS_DIGEST_LENGTH, 0, sums_##function(bytes, 0, text, 3, text, most + 1))                   \
        REFUSED(SUMS_DIGEST_LENGTH, most + 1, sums_##function(bytes, most + 1, text, 3, NULL, 0))            \
        REFUSED(SUMS_DIGEST_LENGTH, most + 1, sums_##function(bytes, most + 1, text, 3, text, most + 1))     \
        REFUSED(SUMS_KEY_LENGTH, most, sums_##function(bytes, most, text, 3, text, most + 1))                \
        TAKEN(1, sums_##function(bytes, 1, NULL, 0, NULL, 0))                                                \
        TAKEN(most, sums_##function(bytes, most, text, 3, text, most))                                       \
        REFUSED(SUMS_DIGEST_LENGTH, 0, sums_##function##_salted(bytes, 0, text, 3, NULL, 0, zeros, zeros))   \
        REFUSED(SUMS_DIGEST_LENGTH, most + 1,                                                                \
                sums_##function##_salted(bytes, most + 1, text, 3, text, most + 1, zeros, zeros))            \
        REFUSED(SUMS_KEY_LENGTH, most, sums_##function##_salted(bytes, most, text, 3, text, most + 1, zeros, zeros)) \
        TAKEN(most, sums_##function##_salted(bytes, most, NULL, 0, NULL, 0, zeros, zeros))                   \
        memset(&state, 0x33, sizeof state);                                                                  \
        before = state;                                                                                      \
        status("init", sums_##function##_init(&state, 0, NULL, 0), SUMS_DIGEST_LENGTH);                      \
        status("init", sums_##function##_init(&state, most + 1, NULL, 0), SUMS_DIGEST_LENGTH);               \
        status("init", sums_##function##_init(&state, SIZE_MAX, text, most + 1), SUMS_DIGEST_LENGTH);        \
        status("init", sums_##function##_init(&state, most, text, most + 1), SUMS_KEY_LENGTH);               \
        status("init", sums_##function##_init_salted(&state, 0, NULL, 0, zeros, zeros), SUMS_DIGEST_LENGTH); \
        status("init", sums_##function##_init_salted(&state, 1, text, most + 1, zeros, zeros), SUMS_KEY_LENGTH); \
        same(#function "_init, refused", 0, &state, &before, sizeof state);                                  \
        status("init", sums_##function##_init(&state, most, text, most), SUMS_OK);                           \
        status("update", sums_##function##_update(&state, NULL, 0), SUMS_OK);                                \
        REFUSED(SUMS_DIGEST_LENGTH, 0, sums_##function##_finish(&state, bytes, 0))                           \
        REFUSED(SUMS_DIGEST_LENGTH, most - 1, sums_##function##_finish(&state, bytes, most - 1))             \
        REFUSED(SUMS_DIGEST_LENGTH, most + 1, sums_##function##_finish(&state, bytes, most + 1))             \
        TAKEN(most, sums_##function##_finish(&state, bytes, most))                                           \
    }

BLAKE2_LENGTHS(blake2b, 64)
BLAKE2_LENGTHS(blake2s, 32)

static void blake3_lengths(void) {
    sums_blake3_state state = {0};
    REFUSED(SUMS_END_OF_OUTPUT, 16, sums_blake3(bytes, 16, UINT64_MAX - 15, text, 3))
    REFUSED(SUMS_END_OF_OUTPUT, 1, sums_blake3(bytes, 1, UINT64_MAX, text, 3))
    REFUSED(SUMS_END_OF_OUTPUT, 16, sums_blake3_keyed(bytes, 16, UINT64_MAX - 15, text, 3, text))
    REFUSED(SUMS_END_OF_OUTPUT, 16, sums_blake3_derive(bytes, 16, UINT64_MAX - 15, text, 3, text, 3))
    TAKEN(16, sums_blake3(bytes, 16, UINT64_MAX - 16, text, 3))
    TAKEN(16, sums_blake3_keyed(bytes, 16, UINT64_MAX - 16, NULL, 0, text))
    TAKEN(16, sums_blake3_derive(bytes, 16, UINT64_MAX - 16, NULL, 0, NULL, 0))
    status("blake3 of no bytes", sums_blake3(NULL, 0, UINT64_MAX, NULL, 0), SUMS_OK);
    sums_blake3_hash(output(32), NULL, 0);
    sums_blake3_init_derive(&state, NULL, 0);
    sums_blake3_init(&state);
    status("update", sums_blake3_update(&state, NULL, 0), SUMS_OK);
    REFUSED(SUMS_END_OF_OUTPUT, 16, sums_blake3_output(&state, UINT64_MAX - 15, bytes, 16))
    TAKEN(16, sums_blake3_output(&state, UINT64_MAX - 16, bytes, 16))
    status("output of no bytes", sums_blake3_output(&state, UINT64_MAX, NULL, 0), SUMS_OK);
}

static void sha2_lengths(void) {
    uint8_t got[64] = {0};
    sums_sha256(got, NULL, 0);
    sums_sha512(got, NULL, 0);
}

#define KEYED_LENGTHS(hash, count)                                                                                 \
    static void hash##_keyed_lengths(void) {                                                                       \
        REFUSED(SUMS_DIGEST_LENGTH, count / 2 - 1, sums_hmac_##hash(bytes, count / 2 - 1, text, 3, text, 3))       \
        REFUSED(SUMS_DIGEST_LENGTH, count + 1, sums_hmac_##hash(bytes, count + 1, text, 3, text, 3))               \
        REFUSED(SUMS_DIGEST_LENGTH, 0, sums_hmac_##hash(bytes, 0, text, 3, text, 3))                               \
        TAKEN(count / 2, sums_hmac_##hash(bytes, count / 2, text, 3, text, 3))                                     \
        TAKEN(count, sums_hmac_##hash(bytes, count, NULL, 0, NULL, 0))                                             \
        REFUSED(SUMS_END_OF_OUTPUT, 255 * count + 1,                                                               \
                sums_hkdf_##hash(bytes, 255 * count + 1, text, 3, text, 3, text, 3))                               \
        TAKEN(255 * count, sums_hkdf_##hash(bytes, 255 * count, text, 3, text, 3, text, 3))                        \
        TAKEN(1, sums_hkdf_##hash(bytes, 1, NULL, 0, NULL, 0, NULL, 0))                                            \
        TAKEN(0, sums_hkdf_##hash(bytes, 0, text, 3, NULL, 0, NULL, 0))                                            \
        TAKEN(count, sums_hkdf_extract_##hash(bytes, NULL, 0, NULL, 0))                                            \
        REFUSED(SUMS_END_OF_OUTPUT, 255 * count + 1,                                                               \
                sums_hkdf_expand_##hash(bytes, 255 * count + 1, text, count, NULL, 0))                             \
        TAKEN(255 * count, sums_hkdf_expand_##hash(bytes, 255 * count, text, count, NULL, 0))                      \
        REFUSED(SUMS_KEY_LENGTH, 1, sums_hkdf_expand_##hash(bytes, 1, text, count - 1, NULL, 0))                   \
        REFUSED(SUMS_KEY_LENGTH, 1, sums_hkdf_expand_##hash(bytes, 1, NULL, 0, NULL, 0))                           \
        REFUSED(SUMS_KEY_LENGTH, 255 * count + 1,                                                                  \
                sums_hkdf_expand_##hash(bytes, 255 * count + 1, text, count - 1, NULL, 0))                         \
        TAKEN(0, sums_hkdf_expand_##hash(bytes, 0, text, count, NULL, 0))                                          \
    }

KEYED_LENGTHS(sha256, 32)
KEYED_LENGTHS(sha512, 64)
KEYED_LENGTHS(blake2b, 64)
KEYED_LENGTHS(blake2s, 32)

#define KEYED_PIECES_LENGTHS(hash, count)                                                                          \
    static void hash##_keyed_pieces_lengths(void) {                                                                \
        sums_hmac_##hash##_state state = {0};                                                                      \
        status("hmac_init", sums_hmac_##hash##_init(&state, NULL, 0), SUMS_OK);                                    \
        status("hmac_update", sums_hmac_##hash##_update(&state, NULL, 0), SUMS_OK);                                \
        REFUSED(SUMS_DIGEST_LENGTH, count / 2 - 1, sums_hmac_##hash##_finish(&state, bytes, count / 2 - 1))        \
        REFUSED(SUMS_DIGEST_LENGTH, count + 1, sums_hmac_##hash##_finish(&state, bytes, count + 1))                \
        TAKEN(count / 2, sums_hmac_##hash##_finish(&state, bytes, count / 2))                                      \
        TAKEN(count, sums_hmac_##hash##_finish(&state, bytes, count))                                              \
    }

KEYED_PIECES_LENGTHS(sha256, 32)
KEYED_PIECES_LENGTHS(sha512, 64)
KEYED_PIECES_LENGTHS(blake2b, 64)
KEYED_PIECES_LENGTHS(blake2s, 32)

// ---- States

static uint32_t below(uint32_t bound) {
    static uint64_t seed = 88172645463325252u;
    seed ^= seed << 13;
    seed ^= seed >> 7;
    seed ^= seed << 17;
    return (uint32_t)(seed >> 32) % bound;
}

// The calls on a kind of state, with an output of `count` bytes.
struct kind {
    const char *name;
    size_t size, count;
    void (*begin)(void *state);
    uint32_t (*update)(void *state, const uint8_t *piece, size_t piece_len);
    uint32_t (*finish)(const void *state, uint8_t *out, size_t out_len);
};

#define KIND(function, count, init, end)                                                                    \
    static void function##_begin(void *state) {                                                             \
        init;                                                                                               \
    }                                                                                                       \
    static uint32_t function##_update(void *state, const uint8_t *piece, size_t piece_len) {                \
        return sums_##function##_update(state, piece, piece_len);                                           \
    }                                                                                                       \
    static uint32_t function##_finish(const void *state, uint8_t *out, size_t out_len) {                    \
        (void)out_len;                                                                                      \
        return end;                                                                                         \
    }                                                                                                       \
    static const struct kind function = {                                                                   \
        #function, sizeof(sums_##function##_state), count, function##_begin, function##_update, function##_finish};

KIND(blake2b, 64, status("init", sums_blake2b_init(state, 64, text, 7), 0), sums_blake2b_finish(state, out, out_len))
KIND(blake2s, 32, status("init", sums_blake2s_init(state, 32, text, 7), 0), sums_blake2s_finish(state, out, out_len))
KIND(blake3, 100, sums_blake3_init_keyed(state, text), sums_blake3_output(state, 40, out, out_len))
KIND(sha256, 32, sums_sha256_init(state), sums_sha256_finish(state, out))
KIND(sha512, 64, sums_sha512_init(state), sums_sha512_finish(state, out))
KIND(hmac_sha256, 32, status("init", sums_hmac_sha256_init(state, text, 7), 0),
     sums_hmac_sha256_finish(state, out, out_len))
KIND(hmac_sha512, 64, status("init", sums_hmac_sha512_init(state, text, 7), 0),
     sums_hmac_sha512_finish(state, out, out_len))
KIND(hmac_blake2b, 64, status("init", sums_hmac_blake2b_init(state, text, 7), 0),
     sums_hmac_blake2b_finish(state, out, out_len))
KIND(hmac_blake2s, 32, status("init", sums_hmac_blake2s_init(state, text, 7), 0),
     sums_hmac_blake2s_finish(state, out, out_len))

static const struct kind *kinds[] = {&blake2b, &blake2s, &blake3, &sha256, &sha512, &hmac_sha256, &hmac_sha512,
                                     &hmac_blake2b, &hmac_blake2s};

// A state that no call has made: both calls answer a status and leave everything as it was.
static void is_not_begun(const struct kind *kind, const uint8_t *content) {
    uint8_t *state = at_edge(state_area, kind->size, 1), *out = output(kind->count);
    memcpy(state, content, kind->size);
    status(kind->name, kind->update(state, text, 3), SUMS_NOT_BEGUN);
    status(kind->name, kind->update(state, NULL, 0), SUMS_NOT_BEGUN);
    status(kind->name, kind->finish(state, out, kind->count), SUMS_NOT_BEGUN);
    same(kind->name, 0, state, content, kind->size);
    untouched(kind->name, out, kind->count);
}

// A state that holds anything: both calls answer, and what they refuse they leave as it was. The pages around it are
// not touched.
static void answers(const struct kind *kind, const uint8_t *content) {
    static uint8_t piece[3000];
    uint8_t *state = at_edge(state_area, kind->size, below(2)), *out = output(kind->count);
    memcpy(state, content, kind->size);
    uint32_t got = kind->finish(state, out, kind->count);
    judged(kind->name, 0, got <= SUMS_NOT_BEGUN && got != SUMS_KEY_LENGTH && got != SUMS_INPUT_TOO_LONG);
    if (got != SUMS_OK) untouched(kind->name, out, kind->count);
    same(kind->name, 0, state, content, kind->size);
    got = kind->update(state, piece, below(sizeof piece));
    judged(kind->name, 0, got == SUMS_OK || got == SUMS_INPUT_TOO_LONG || got == SUMS_NOT_BEGUN);
    if (got != SUMS_OK) same(kind->name, 0, state, content, kind->size);
    got = kind->finish(state, out, kind->count);
    judged(kind->name, 0, got <= SUMS_NOT_BEGUN && got != SUMS_KEY_LENGTH && got != SUMS_INPUT_TOO_LONG);
}

static void states_of(const struct kind *kind) {
    static uint8_t content[4096], begun[4096];
    memset(content, 0, kind->size);
    is_not_begun(kind, content);
    memset(content, 0xff, kind->size);
    is_not_begun(kind, content);
    for (int round = 0; round < 500; round++) {
        for (size_t i = 0; i < kind->size; i++) content[i] = below(256);
        answers(kind, content);
    }
    // a state in the middle of a message, with some words of it, or some bytes, trampled
    memset(begun, 0, kind->size);
    kind->begin(begun);
    for (int round = 0; round < 3000; round++) {
        status(kind->name, kind->update(begun, text, below(sizeof text)), SUMS_OK);
        memcpy(content, begun, kind->size);
        for (uint32_t k = 0; k <= below(4); k++) {
            size_t at = below(kind->size);
            if (below(2)) content[at] ^= 1 << below(8);
            else memset(content + at / 8 * 8, below(2) ? 0xff : 0, 8);
        }
        answers(kind, content);
    }
}

// ---- The reset of BLAKE3

// Begins a message in a mode, as the header has them.
static void blake3_begin_in(int mode, sums_blake3_state *state) {
    if (mode == 0) sums_blake3_init(state);
    else if (mode == 1) sums_blake3_init_keyed(state, text);
    else sums_blake3_init_derive(state, text, 9);
}

// What follows a reset is as after the beginning, whatever the message before was.
static void resets_in(int mode, size_t before, size_t length) {
    static uint8_t message[40000];
    sums_blake3_state *state = (void *)at_edge(state_area, sizeof *state, 1), other = {0};
    uint8_t want[100] = {0}, *out = output(sizeof want);
    blake3_begin_in(mode, state);
    blake3_begin_in(mode, &other);
    status("update", sums_blake3_update(state, message, before), SUMS_OK);
    status("reset", sums_blake3_reset(state), SUMS_OK);
    status("update", sums_blake3_update(state, message, length), SUMS_OK);
    status("update", sums_blake3_update(&other, message, length), SUMS_OK);
    status("output", sums_blake3_output(state, 40, out, sizeof want), SUMS_OK);
    status("output", sums_blake3_output(&other, 40, want, sizeof want), SUMS_OK);
    same("reset", length, out, want, sizeof want);
}

// A state that holds anything: it is refused and stays as it was, or has all the room of a message.
static void reset_answers(const uint8_t *content, int is_begun) {
    sums_blake3_state *state = (void *)at_edge(state_area, sizeof *state, below(2));
    memcpy(state, content, sizeof *state);
    uint32_t got = sums_blake3_reset(state);
    judged("reset", 0, got == SUMS_OK || (got == SUMS_NOT_BEGUN && !is_begun));
    if (got == SUMS_NOT_BEGUN) same("reset, refused", 0, state, content, sizeof *state);
    status("update", sums_blake3_update(state, text, sizeof text), got);
}

static void resets(void) {
    static const size_t lengths[] = {0, 1, 64, 1024, 1025, 8192, 40000};
    enum { LENGTHS = sizeof lengths / sizeof *lengths };
    for (int mode = 0; mode < 3; mode++)
        for (int i = 0; i < LENGTHS * LENGTHS; i++) resets_in(mode, lengths[i / LENGTHS], lengths[i % LENGTHS]);
    sums_blake3_state content = {0};
    status("reset, not begun", sums_blake3_reset(&content), SUMS_NOT_BEGUN);
    for (int round = 0; round < 2000; round++) {
        uint8_t *bytes = (void *)&content;
        for (size_t i = 0; i < sizeof content; i++) bytes[i] = below(256);
        reset_answers(bytes, 0);
        content.closed = below(2000), content.len = below(1025), content.mode = 1 + below(256);
        reset_answers(bytes, 1);
    }
}

// ---- Chunks of BLAKE3 on both sides of number 2^32, eight hashed at once and one by one

static void chunks_about_2_32(void) {
    static uint8_t message[17 * 1024];
    for (size_t i = 0; i < sizeof message; i++) message[i] = below(256);
    for (uint64_t before = 0; before <= 17; before++) {
        sums_blake3_state whole = {0}, pieces;
        uint8_t want[32] = {0}, got[32] = {0};
        blake3_begin(&whole);
        whole.closed = (UINT64_C(1) << 32) - before;
        pieces = whole;
        status("update", sums_blake3_update(&whole, message, sizeof message), SUMS_OK);
        for (size_t at = 0; at < sizeof message; at += 512)
            status("update", sums_blake3_update(&pieces, message + at, 512), SUMS_OK);
        status("output", sums_blake3_output(&whole, 0, got, sizeof got), SUMS_OK);
        status("output", sums_blake3_output(&pieces, 0, want, sizeof want), SUMS_OK);
        same("chunks about number 2^32", before, got, want, sizeof got);
    }
}

// ---- The longest messages: a state that has taken all that the function takes but one byte

#define IS_FULL(function, state, count)                                                           \
    {                                                                                             \
        uint8_t before[sizeof state], *bytes = output(count);                                     \
        status(#function "_update", function##_update(&state, text, 1), SUMS_OK);                 \
        memcpy(before, &state, sizeof state);                                                     \
        status(#function "_update, full", function##_update(&state, text, 1), SUMS_INPUT_TOO_LONG); \
        status(#function "_update, full", function##_update(&state, text, 200), SUMS_INPUT_TOO_LONG); \
        same(#function "_update, full", 0, &state, before, sizeof state);                         \
        status(#function "_update, of no bytes", function##_update(&state, NULL, 0), SUMS_OK);    \
        status(#function "_finish, full", function##_finish(&state, bytes, count), SUMS_OK);      \
    }

static void longest(void) {
    sums_blake2b_state wide = {0};
    blake2b_begin(&wide);
    status("update", sums_blake2b_update(&wide, text, 126), SUMS_OK);
    wide.compressed_low = UINT64_MAX - 127, wide.compressed_high = UINT64_MAX, wide.used = 126;
    IS_FULL(blake2b, wide, 64)
    sums_blake2s_state narrow = {0};
    blake2s_begin(&narrow);
    narrow.compressed = UINT64_MAX - 63, narrow.used = 62;
    IS_FULL(blake2s, narrow, 32)
    sums_blake2b_state wide_plain = {0};
    status("init", sums_blake2b_init(&wide_plain, 64, NULL, 0), SUMS_OK);
    wide_plain.compressed_low = UINT64_MAX - 127, wide_plain.compressed_high = UINT64_MAX, wide_plain.used = 126;
    IS_FULL(blake2b, wide_plain, 64)
    sums_blake2s_state narrow_plain = {0};
    status("init", sums_blake2s_init(&narrow_plain, 32, NULL, 0), SUMS_OK);
    narrow_plain.compressed = UINT64_MAX - 63, narrow_plain.used = 62;
    IS_FULL(blake2s, narrow_plain, 32)
    sums_blake3_state tree = {0};
    blake3_begin(&tree);
    tree.closed = (UINT64_C(1) << 54) - 1, tree.len = 1022;
    IS_FULL(blake3, tree, 100)
    reset_answers((void *)&tree, 1);
    sums_sha256_state short_words = {0};
    sha256_begin(&short_words);
    short_words.taken = (UINT64_C(1) << 61) - 2;
    IS_FULL(sha256, short_words, 32)
    sums_sha512_state long_words = {0};
    sha512_begin(&long_words);
    long_words.taken_low = UINT64_MAX - 1, long_words.taken_high = (UINT64_C(1) << 61) - 1;
    IS_FULL(sha512, long_words, 64)
    sums_hmac_sha256_state keyed_short = {0};
    hmac_sha256_begin(&keyed_short);
    keyed_short.inner.taken = (UINT64_C(1) << 61) - 2;
    IS_FULL(hmac_sha256, keyed_short, 32)
    sums_hmac_sha512_state keyed_long = {0};
    hmac_sha512_begin(&keyed_long);
    keyed_long.inner.taken_low = UINT64_MAX - 1, keyed_long.inner.taken_high = (UINT64_C(1) << 61) - 1;
    IS_FULL(hmac_sha512, keyed_long, 64)
    sums_hmac_blake2b_state keyed_wide = {0};
    hmac_blake2b_begin(&keyed_wide);
    keyed_wide.inner.compressed_low = UINT64_MAX - 127, keyed_wide.inner.compressed_high = UINT64_MAX;
    keyed_wide.inner.used = 126;
    IS_FULL(hmac_blake2b, keyed_wide, 64)
    sums_hmac_blake2s_state keyed = {0};
    hmac_blake2s_begin(&keyed);
    keyed.inner.compressed = UINT64_MAX - 63, keyed.inner.used = 62;
    IS_FULL(hmac_blake2s, keyed, 32)
}

int main(void) {
    out_area = area(), state_area = area();
    for (size_t i = 0; i < sizeof text; i++) text[i] = i;
    blake2b_lengths();
    blake2s_lengths();
    blake3_lengths();
    sha2_lengths();
    sha256_keyed_lengths();
    sha512_keyed_lengths();
    blake2b_keyed_lengths();
    blake2s_keyed_lengths();
    sha256_keyed_pieces_lengths();
    sha512_keyed_pieces_lengths();
    blake2b_keyed_pieces_lengths();
    blake2s_keyed_pieces_lengths();
    for (size_t i = 0; i < sizeof kinds / sizeof *kinds; i++) states_of(kinds[i]);
    resets();
    chunks_about_2_32();
    longest();
    return ends("states");
}
