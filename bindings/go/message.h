/* Messages of each function, by the function's number. Go calls these: a call of C costs it as much as some blocks do,
 * so a digest is one call.
 * SPDX-License-Identifier: MIT OR Apache-2.0 */
#include <string.h>

#include "library.h"

typedef enum {
    SUMS_OF_SHA256,
    SUMS_OF_SHA512,
    SUMS_OF_BLAKE2B,
    SUMS_OF_BLAKE2S,
    SUMS_OF_BLAKE3,
    SUMS_OF_HMAC_SHA256,
    SUMS_OF_HMAC_SHA512,
    SUMS_OF_HMAC_BLAKE2B,
    SUMS_OF_HMAC_BLAKE2S
} sums_function;

static inline uint32_t sums_message_update(sums_function function, uint64_t *memory, const uint8_t *piece, size_t len) {
    void *state = memory;
    switch (function) {
        case SUMS_OF_SHA256: return sums_sha256_update(state, piece, len);
        case SUMS_OF_SHA512: return sums_sha512_update(state, piece, len);
        case SUMS_OF_BLAKE2B: return sums_blake2b_update(state, piece, len);
        case SUMS_OF_BLAKE2S: return sums_blake2s_update(state, piece, len);
        case SUMS_OF_BLAKE3: return sums_blake3_update(state, piece, len);
        case SUMS_OF_HMAC_SHA256: return sums_hmac_sha256_update(state, piece, len);
        case SUMS_OF_HMAC_SHA512: return sums_hmac_sha512_update(state, piece, len);
        case SUMS_OF_HMAC_BLAKE2B: return sums_hmac_blake2b_update(state, piece, len);
        case SUMS_OF_HMAC_BLAKE2S: return sums_hmac_blake2s_update(state, piece, len);
    }
    return SUMS_NOT_BEGUN;
}

static inline uint32_t sums_message_finish(sums_function function, const uint64_t *memory, uint8_t *out, size_t len) {
    const void *state = memory;
    switch (function) {
        case SUMS_OF_SHA256: return sums_sha256_finish(state, out);
        case SUMS_OF_SHA512: return sums_sha512_finish(state, out);
        case SUMS_OF_BLAKE2B: return sums_blake2b_finish(state, out, len);
        case SUMS_OF_BLAKE2S: return sums_blake2s_finish(state, out, len);
        case SUMS_OF_BLAKE3: return sums_blake3_output(state, 0, out, len);
        case SUMS_OF_HMAC_SHA256: return sums_hmac_sha256_finish(state, out, len);
        case SUMS_OF_HMAC_SHA512: return sums_hmac_sha512_finish(state, out, len);
        case SUMS_OF_HMAC_BLAKE2B: return sums_hmac_blake2b_finish(state, out, len);
        case SUMS_OF_HMAC_BLAKE2S: return sums_hmac_blake2s_finish(state, out, len);
    }
    return SUMS_NOT_BEGUN;
}

/* Writes the digest or tag of the message of a state, which has so many bytes and stays as it is, with a rest behind
 * it. */
static inline uint32_t sums_message_sum(sums_function function, const uint64_t *state, size_t state_len,
                                        const uint8_t *rest, size_t rest_len, uint8_t *out, size_t out_len) {
    uint64_t copy[sizeof(sums_blake3_state) / 8]; /* the largest of them */
    memcpy(copy, state, state_len);
    uint32_t status = sums_message_update(function, copy, rest, rest_len);
    return status == SUMS_OK ? sums_message_finish(function, copy, out, out_len) : status;
}
