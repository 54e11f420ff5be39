// How much stack the calls take, each in a thread of its own whose stack was painted before. See tests/library/library.

#define SUMS_HASH_UNCHECKED // what the calls answer is tried elsewhere
#include "library.h"
#include <pthread.h>

enum { STACK = 1 << 18, MOST = 32 * 1024, LENGTH = 1 << 20 };

static uint8_t text[LENGTH], out[255 * 64];

#define BLAKE2(name, count)                                                    \
    sums_blake2##name(out, count, text, LENGTH, text, count);                  \
    sums_blake2##name##_salted(out, count, text, LENGTH, text, 3, text, text); \
    sums_blake2##name##_state state = {0};                                     \
    sums_blake2##name##_init(&state, count, text, count);                      \
    sums_blake2##name##_update(&state, text, LENGTH);                          \
    sums_blake2##name##_finish(&state, out, count);
static void blake2(void) {
    {BLAKE2(b, 64)}
    {BLAKE2(s, 32)}
}

static void blake3(void) {
    sums_blake3(out, 1000, 5, text, LENGTH);
    sums_blake3_hash(out, text, LENGTH);
    sums_blake3_keyed(out, 1000, 5, text, LENGTH - 1, text);
    sums_blake3_derive(out, 1000, 5, text, LENGTH, text, 100000);
    sums_blake3_state state = {0};
    sums_blake3_init_derive(&state, text, 100000);
    for (size_t at = 0, piece = 1; at + piece <= LENGTH; at += piece, piece += 101)
        sums_blake3_update(&state, text + at, piece);
    sums_blake3_output(&state, 5, out, 1000);
}

#define SHA2(name)                              \
    sums_##name(out, text, LENGTH);             \
    sums_##name##_state state = {0};            \
    sums_##name##_init(&state);                 \
    sums_##name##_update(&state, text, LENGTH); \
    sums_##name##_finish(&state, out);
static void sha2(void) {
    {SHA2(sha256)}
    {SHA2(sha512)}
}

#define KEYED(name, count)                                                      \
    sums_hmac_##name(out, count, text, LENGTH, text, 1000);                     \
    sums_hkdf_##name(out, 255 * count, text, LENGTH, text, 1000, text, 1000);   \
    sums_hkdf_extract_##name(out, text, LENGTH, text, 1000);                    \
    sums_hkdf_expand_##name(out, 255 * count, text, 1000, text, 1000);
#define KEYED_PIECES(name, count)                    \
    sums_hmac_##name##_state state = {0};            \
    sums_hmac_##name##_init(&state, text, 1000);     \
    sums_hmac_##name##_update(&state, text, LENGTH); \
    sums_hmac_##name##_finish(&state, out, count);
static void keyed(void) {
    {KEYED(sha256, 32)}
    {KEYED(sha512, 64)}
    {KEYED(blake2b, 64)}
    {KEYED(blake2s, 32)}
    {KEYED_PIECES(sha256, 32)}
    {KEYED_PIECES(sha512, 64)}
    {KEYED_PIECES(blake2b, 64)}
    {KEYED_PIECES(blake2s, 32)}
}

// Pieces of one block, of a few and of some chunks, the last of them short.
static void pieces(void) {
    static const size_t lengths[] = {64, 1000, 10000};
    for (size_t i = 0; i < 3; i++) {
        size_t length = 100 * lengths[i] - 1;
        sums_sha256_pieces(out, 100 * 32, text, length, lengths[i]);
        sums_sha512_pieces(out, 100 * 64, text, length, lengths[i]);
        sums_blake2b_pieces(out, 100 * 64, 64, text, length, lengths[i]);
        sums_blake2s_pieces(out, 100 * 32, 32, text, length, lengths[i]);
        sums_blake3_pieces(out, 100 * 32, text, length, lengths[i]);
    }
}

// Lines as long as they may be, in one piece and in many, and lines of names with an escape for each byte.
static void lists(void) {
    static sums_list_state state;
    static sums_list_entry line;
    static uint8_t list[65537], name[32000], wide[65537];
    memset(name, '\\', sizeof name);
    for (uint32_t is_tagged = 0; is_tagged < 2; is_tagged++) {
        size_t length = sums_list_line_length(SUMS_BLAKE2B, is_tagged, 63, name, sizeof name);
        if (length == 0 || length > sizeof list) exit(2);
        sums_list_line(list, length, SUMS_BLAKE2B, is_tagged, text, 63, name, sizeof name);
        sums_list_init(&state, SUMS_SHA512);
        sums_list_read(&state, &line, list, length);
        for (size_t at = 0; at < length; at += line.taken)
            sums_list_read(&state, &line, list + at, length - at < 1000 ? length - at : 1000);
        sums_list_read(&state, &line, list, length - 1);
        sums_list_end(&state, &line);
    }
    size_t length = sums_list_report_length(SUMS_VERDICT_OK, name, sizeof name);
    sums_list_report(wide, length, SUMS_VERDICT_OK, name, sizeof name);
}

static void *called(void *calls) {
    if (calls) (*(void (**)(void))calls)();
    return NULL;
}

// How many bytes of its stack a thread has touched that makes these calls.
static size_t touched(void (**calls)(void)) {
    uint8_t *stack = mmap(NULL, STACK, PROT_READ | PROT_WRITE, MAP_PRIVATE | MAP_ANONYMOUS, -1, 0);
    pthread_attr_t attributes;
    pthread_t thread;
    size_t free = 0;
    if (stack == MAP_FAILED) exit(2);
    memset(stack, 0xa5, STACK);
    pthread_attr_init(&attributes);
    pthread_attr_setstack(&attributes, stack, STACK);
    if (pthread_create(&thread, &attributes, called, calls) != 0) exit(2);
    pthread_join(thread, NULL);
    while (stack[free] == 0xa5) free++;
    munmap(stack, STACK);
    return STACK - free;
}

int main(void) {
    static const char *names[] = {"blake2", "blake3", "sha2", "hmac and hkdf", "pieces", "lists"};
    static void (*calls[])(void) = {blake2, blake3, sha2, keyed, pieces, lists};
    size_t thread = touched(NULL);
    for (size_t i = 0; i < sizeof calls / sizeof *calls; i++) {
        size_t taken = touched(&calls[i]) - thread;
        printf("stack of %s: %zu bytes\n", names[i], taken);
        judged(names[i], LENGTH, taken <= MOST);
    }
    return ends("stack");
}
