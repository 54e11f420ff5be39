/* Prints digests of "abc": the whole message in one call, and in pieces.
 * cc example.c $(pkg-config --cflags --libs sums_hash) && ./a.out
 * SPDX-License-Identifier: MIT OR Apache-2.0 */
#include <stdio.h>
#include <sums_hash.h>

static void print(const char *name, const uint8_t *bytes, size_t count) {
    printf("%s ", name);
    for (size_t i = 0; i < count; i++) printf("%02x", bytes[i]);
    printf("\n");
}

int main(void) {
    const uint8_t abc[] = {'a', 'b', 'c'};
    uint8_t digest[32] = {0};
    if (sums_blake2s(digest, sizeof digest, abc, sizeof abc, NULL, 0) != SUMS_OK) return 1;
    print("blake2s", digest, sizeof digest);

    sums_blake3_state state = {0};
    sums_blake3_init(&state);
    for (size_t i = 0; i < sizeof abc; i++)
        if (sums_blake3_update(&state, abc + i, 1) != SUMS_OK) return 1;
    if (sums_blake3_output(&state, 0, digest, sizeof digest) != SUMS_OK) return 1;
    print("blake3 ", digest, sizeof digest);

    /* a refusal says why, and writes nothing */
    return sums_blake2b(digest, 0, abc, sizeof abc, NULL, 0) == SUMS_DIGEST_LENGTH ? 0 : 1;
}
