/* BLAKE2b, BLAKE2s (RFC 7693), BLAKE3, SHA-256, SHA-512 (FIPS 180-4), HMAC (RFC 2104), HKDF (RFC 5869) and lists of
 * digests, each proved against its definition. No call allocates, keeps a global, sets errno or starts a thread.
 *
 * What the caller has to ensure:
 * - A buffer is a pointer and then its length in bytes, below 2^63. If the length is 0 the pointer may be null;
 *   otherwise it is valid for that many bytes. An array such as key[32] and a state are never null.
 * - Nothing else writes into this memory during the call, as another thread may, or a process that has mapped the same
 *   file. The calls that read or write lists rely on it.
 * - An output and a state overlap nothing else in the call, and are initialised memory: zeros will do.
 * - A state serves one thread at a time. Calls on different states may run side by side.
 * - 32 KiB of stack.
 *
 * What the caller gets: a status. If it is not 0, the call wrote nothing: outputs and state are as they were. Memory is
 * not wiped, and no constant time is claimed.
 *
 * SPDX-License-Identifier: MIT OR Apache-2.0 */
#ifndef SUMS_HASH_H
#define SUMS_HASH_H

#include <stddef.h>
#include <stdint.h>

#define SUMS_HASH_VERSION "1.4.0" /* the shared library is libsums_hash.so.1 */
#define SUMS_HASH_VERSION_NUMBER 10400 /* for #if, with two digits for each number after the first */

/* The compiler warns about an unused status, if it can and SUMS_HASH_UNCHECKED is not defined. */
#if defined(__GNUC__) && !defined(SUMS_HASH_UNCHECKED)
#define SUMS_CHECKED __attribute__((warn_unused_result))
#else
#define SUMS_CHECKED
#endif

#ifdef __cplusplus
extern "C" {
#endif

enum {
    SUMS_OK = 0,             /* all is done */
    SUMS_DIGEST_LENGTH = 1,  /* the function has no output of that length */
    SUMS_KEY_LENGTH = 2,     /* the function takes no key or salt of that length */
    SUMS_INPUT_TOO_LONG = 3, /* the message is longer than the function takes */
    SUMS_NOT_BEGUN = 4,      /* the state was never begun, or holds numbers that no call leaves */
    SUMS_END_OF_OUTPUT = 5,  /* the output has no such bytes */
    SUMS_PIECE_LENGTH = 6,   /* the function takes no pieces of that length */
    SUMS_OUTPUT_LENGTH = 7,  /* the output is not as long as the digests of all pieces, or as the line */
    SUMS_NO_HASH = 8,        /* no hash has that number */
    SUMS_NO_LINE = 9,        /* no line has that name */
    SUMS_NO_VERDICT = 10     /* no verdict has that number */
};

/* ---- BLAKE2, whole messages
 *
 * Write a digest of out_len bytes: 1 to 64 for BLAKE2b, 1 to 32 for BLAKE2s. A key has at most 64 bytes (BLAKE2b) or 32
 * (BLAKE2s); an empty key means none. Without a salt and a personalization both are zeros.
 * Return SUMS_OK, SUMS_DIGEST_LENGTH, or else SUMS_KEY_LENGTH. */
uint32_t sums_blake2b(uint8_t *out, size_t out_len, const uint8_t *input, size_t input_len,
                      const uint8_t *key, size_t key_len) SUMS_CHECKED;
uint32_t sums_blake2b_salted(uint8_t *out, size_t out_len, const uint8_t *input, size_t input_len,
                             const uint8_t *key, size_t key_len,
                             const uint8_t salt[16], const uint8_t personal[16]) SUMS_CHECKED;
uint32_t sums_blake2s(uint8_t *out, size_t out_len, const uint8_t *input, size_t input_len,
                      const uint8_t *key, size_t key_len) SUMS_CHECKED;
uint32_t sums_blake2s_salted(uint8_t *out, size_t out_len, const uint8_t *input, size_t input_len,
                             const uint8_t *key, size_t key_len,
                             const uint8_t salt[8], const uint8_t personal[8]) SUMS_CHECKED;

/* ---- BLAKE3, whole messages
 *
 * Write out_len bytes of the output, any number of them, starting at a position in bytes; a digest is the first 32.
 * Return SUMS_OK, or SUMS_END_OF_OUTPUT if position + out_len is above 2^64 - 1. */
uint32_t sums_blake3(uint8_t *out, size_t out_len, uint64_t position,
                     const uint8_t *input, size_t input_len) SUMS_CHECKED;
uint32_t sums_blake3_keyed(uint8_t *out, size_t out_len, uint64_t position, const uint8_t *input, size_t input_len,
                           const uint8_t key[32]) SUMS_CHECKED;
/* derive_key: the bytes are derived from key material for a context, which is a text of the application. */
uint32_t sums_blake3_derive(uint8_t *out, size_t out_len, uint64_t position,
                            const uint8_t *material, size_t material_len,
                            const uint8_t *context, size_t context_len) SUMS_CHECKED;

/* Writes a digest, and refuses nothing. */
void sums_blake3_hash(uint8_t out[32], const uint8_t *input, size_t input_len);

/* ---- SHA-2, whole messages. Write a digest, and refuse nothing. */
void sums_sha256(uint8_t out[32], const uint8_t *input, size_t input_len);
void sums_sha512(uint8_t out[64], const uint8_t *input, size_t input_len);

/* ---- The pieces of a buffer, each a whole message: SHA-2, BLAKE2 and BLAKE3, without a key
 *
 * Write the digests of the pieces of the input, one after the other. Every piece has piece_len bytes, and the last may
 * have fewer; an empty input has no pieces. A digest is that of the piece as a message of its own: 32 bytes for SHA-256
 * (FIPS 180-4, 6.2) and for BLAKE3 (its paper, 2), 64 for SHA-512 (FIPS 180-4, 6.4), digest_len for BLAKE2 (RFC 7693,
 * 3), which is 1 to 64 for BLAKE2b and 1 to 32 for BLAKE2s. If there are enough whole pieces, several are hashed side
 * by side: with BLAKE3 those of at most 1,024 bytes, with SHA-512 only if the library is built for x86-64-v3.
 * Return SUMS_OK, SUMS_DIGEST_LENGTH, or else SUMS_PIECE_LENGTH if piece_len is 0, or else SUMS_OUTPUT_LENGTH if
 * out_len is not the length of a digest times the number of pieces: input_len / piece_len, rounded up. */
uint32_t sums_sha256_pieces(uint8_t *out, size_t out_len,
                            const uint8_t *input, size_t input_len, size_t piece_len) SUMS_CHECKED;
uint32_t sums_sha512_pieces(uint8_t *out, size_t out_len,
                            const uint8_t *input, size_t input_len, size_t piece_len) SUMS_CHECKED;
uint32_t sums_blake2b_pieces(uint8_t *out, size_t out_len, size_t digest_len,
                             const uint8_t *input, size_t input_len, size_t piece_len) SUMS_CHECKED;
uint32_t sums_blake2s_pieces(uint8_t *out, size_t out_len, size_t digest_len,
                             const uint8_t *input, size_t input_len, size_t piece_len) SUMS_CHECKED;
uint32_t sums_blake3_pieces(uint8_t *out, size_t out_len,
                            const uint8_t *input, size_t input_len, size_t piece_len) SUMS_CHECKED;

/* ---- HMAC, whole messages, over SHA-256, SHA-512, BLAKE2b of 64 bytes and BLAKE2s of 32
 *
 * Write the first out_len bytes of the tag, at least half of it: 16 to 32 for SHA-256 and BLAKE2s, 32 to 64 for SHA-512
 * and BLAKE2b. A key may have any length.
 * Return SUMS_OK; SUMS_DIGEST_LENGTH; otherwise SUMS_KEY_LENGTH or SUMS_INPUT_TOO_LONG if the key or the message
 * exceeds the limit of the hash (impossible for data in memory): 2^61 - 1 bytes for SHA-256, 2^125 - 1 for SHA-512,
 * 2^128 - 1 for BLAKE2b and 2^64 - 1 for BLAKE2s, and for the message a block less (64 bytes for SHA-256 and BLAKE2s,
 * 128 for the other two). */
uint32_t sums_hmac_sha256(uint8_t *out, size_t out_len, const uint8_t *input, size_t input_len,
                          const uint8_t *key, size_t key_len) SUMS_CHECKED;
uint32_t sums_hmac_sha512(uint8_t *out, size_t out_len, const uint8_t *input, size_t input_len,
                          const uint8_t *key, size_t key_len) SUMS_CHECKED;
uint32_t sums_hmac_blake2b(uint8_t *out, size_t out_len, const uint8_t *input, size_t input_len,
                           const uint8_t *key, size_t key_len) SUMS_CHECKED;
uint32_t sums_hmac_blake2s(uint8_t *out, size_t out_len, const uint8_t *input, size_t input_len,
                           const uint8_t *key, size_t key_len) SUMS_CHECKED;

/* ---- HKDF over the same hashes
 *
 * Write a key of out_len bytes: up to 255 digests, which is 8,160 bytes for SHA-256 and BLAKE2s and 16,320 for SHA-512
 * and BLAKE2b. An empty salt means none.
 * Return SUMS_OK; SUMS_END_OF_OUTPUT for more bytes; SUMS_KEY_LENGTH for a salt, or SUMS_INPUT_TOO_LONG for material or
 * info, that exceeds the limit of the hash (impossible for data in memory). */
uint32_t sums_hkdf_sha256(uint8_t *out, size_t out_len, const uint8_t *material, size_t material_len,
                          const uint8_t *salt, size_t salt_len, const uint8_t *info, size_t info_len) SUMS_CHECKED;
uint32_t sums_hkdf_sha512(uint8_t *out, size_t out_len, const uint8_t *material, size_t material_len,
                          const uint8_t *salt, size_t salt_len, const uint8_t *info, size_t info_len) SUMS_CHECKED;
uint32_t sums_hkdf_blake2b(uint8_t *out, size_t out_len, const uint8_t *material, size_t material_len,
                           const uint8_t *salt, size_t salt_len, const uint8_t *info, size_t info_len) SUMS_CHECKED;
uint32_t sums_hkdf_blake2s(uint8_t *out, size_t out_len, const uint8_t *material, size_t material_len,
                           const uint8_t *salt, size_t salt_len, const uint8_t *info, size_t info_len) SUMS_CHECKED;

/* Its first step writes a pseudorandom key, as long as a digest. Returns SUMS_OK, or SUMS_KEY_LENGTH or
 * SUMS_INPUT_TOO_LONG as above. */
uint32_t sums_hkdf_extract_sha256(uint8_t prk[32], const uint8_t *material, size_t material_len,
                                  const uint8_t *salt, size_t salt_len) SUMS_CHECKED;
uint32_t sums_hkdf_extract_sha512(uint8_t prk[64], const uint8_t *material, size_t material_len,
                                  const uint8_t *salt, size_t salt_len) SUMS_CHECKED;
uint32_t sums_hkdf_extract_blake2b(uint8_t prk[64], const uint8_t *material, size_t material_len,
                                   const uint8_t *salt, size_t salt_len) SUMS_CHECKED;
uint32_t sums_hkdf_extract_blake2s(uint8_t prk[32], const uint8_t *material, size_t material_len,
                                   const uint8_t *salt, size_t salt_len) SUMS_CHECKED;
/* Its second step takes a pseudorandom key as long as a digest, or longer. Returns SUMS_OK, SUMS_KEY_LENGTH for a
 * shorter one, or else as above. */
uint32_t sums_hkdf_expand_sha256(uint8_t *out, size_t out_len, const uint8_t *prk, size_t prk_len,
                                 const uint8_t *info, size_t info_len) SUMS_CHECKED;
uint32_t sums_hkdf_expand_sha512(uint8_t *out, size_t out_len, const uint8_t *prk, size_t prk_len,
                                 const uint8_t *info, size_t info_len) SUMS_CHECKED;
uint32_t sums_hkdf_expand_blake2b(uint8_t *out, size_t out_len, const uint8_t *prk, size_t prk_len,
                                  const uint8_t *info, size_t info_len) SUMS_CHECKED;
uint32_t sums_hkdf_expand_blake2s(uint8_t *out, size_t out_len, const uint8_t *prk, size_t prk_len,
                                  const uint8_t *info, size_t info_len) SUMS_CHECKED;

/* ---- Messages in pieces: BLAKE2, BLAKE3, SHA-2, and HMAC over SHA-2 and BLAKE2
 *
 * A state is plain memory of the caller: initialise it with zeros (= {0}), call init, then update for each piece, and
 * then finish or output, after which the message can go on. init starts anew at any time. A state may be copied by
 * assignment, holds no pointer and needs no release. Its size does not change until the soname of the library does, so
 * that a program works with each later library of that soname. Its fields are private and not a storage format: what
 * they hold may change with the version of the library. Whatever bytes a state has, a call reads and writes nothing
 * outside it; a state that was overwritten is refused, or gives a meaningless digest.
 *
 * init      begins a message; returns what the calls on whole messages return for the lengths that it is given
 * update    adds a piece; returns SUMS_OK, SUMS_NOT_BEGUN, or else SUMS_INPUT_TOO_LONG if the message would be longer
 *           than the function takes: 2^128 - 1 bytes for BLAKE2b and 2^64 - 1 for BLAKE2s, each less a block under a
 *           key (128 and 64 bytes); 2^64 - 1 for BLAKE3; 2^61 - 1 for SHA-256 and 2^125 - 1 for SHA-512; and in HMAC a
 *           block less than for the hash
 * finish    writes the digest or the tag; returns SUMS_OK, SUMS_NOT_BEGUN, or else SUMS_DIGEST_LENGTH */

/* BLAKE2. finish needs the out_len that init was given as digest_len. */
typedef struct {
    uint64_t h[8];
    uint64_t compressed_low, compressed_high, used, digest_length;
    uint8_t buffer[128];
} sums_blake2b_state; /* 224 bytes */
uint32_t sums_blake2b_init(sums_blake2b_state *state, size_t digest_len,
                           const uint8_t *key, size_t key_len) SUMS_CHECKED;
uint32_t sums_blake2b_init_salted(sums_blake2b_state *state, size_t digest_len, const uint8_t *key, size_t key_len,
                                  const uint8_t salt[16], const uint8_t personal[16]) SUMS_CHECKED;
uint32_t sums_blake2b_update(sums_blake2b_state *state, const uint8_t *piece, size_t piece_len) SUMS_CHECKED;
uint32_t sums_blake2b_finish(const sums_blake2b_state *state, uint8_t *out, size_t out_len) SUMS_CHECKED;

typedef struct {
    uint32_t h[8];
    uint64_t compressed, used, digest_length;
    uint8_t buffer[64];
} sums_blake2s_state; /* 120 bytes */
uint32_t sums_blake2s_init(sums_blake2s_state *state, size_t digest_len,
                           const uint8_t *key, size_t key_len) SUMS_CHECKED;
uint32_t sums_blake2s_init_salted(sums_blake2s_state *state, size_t digest_len, const uint8_t *key, size_t key_len,
                                  const uint8_t salt[8], const uint8_t personal[8]) SUMS_CHECKED;
uint32_t sums_blake2s_update(sums_blake2s_state *state, const uint8_t *piece, size_t piece_len) SUMS_CHECKED;
uint32_t sums_blake2s_finish(const sums_blake2s_state *state, uint8_t *out, size_t out_len) SUMS_CHECKED;

/* BLAKE3: the hash, the keyed hash, and derive_key, whose pieces are the key material. output writes out_len bytes
 * starting at a position; it returns SUMS_OK, SUMS_NOT_BEGUN, or else SUMS_END_OF_OUTPUT. reset begins a new message in
 * the mode of the last one, under its key or context; it returns SUMS_OK or SUMS_NOT_BEGUN. */
typedef struct {
    uint32_t key[8], value[8];
    uint64_t closed, len, mode;
    uint8_t block[64];
    uint32_t stack[54][8];
} sums_blake3_state; /* 1,880 bytes */
void sums_blake3_init(sums_blake3_state *state);
void sums_blake3_init_keyed(sums_blake3_state *state, const uint8_t key[32]);
void sums_blake3_init_derive(sums_blake3_state *state, const uint8_t *context, size_t context_len);
uint32_t sums_blake3_reset(sums_blake3_state *state) SUMS_CHECKED;
uint32_t sums_blake3_update(sums_blake3_state *state, const uint8_t *piece, size_t piece_len) SUMS_CHECKED;
uint32_t sums_blake3_output(const sums_blake3_state *state, uint64_t position,
                            uint8_t *out, size_t out_len) SUMS_CHECKED;

/* SHA-2. finish has no length to refuse. */
typedef struct {
    uint32_t h[8];
    uint64_t taken, digest_length;
    uint8_t buffer[64];
} sums_sha256_state; /* 112 bytes */
void sums_sha256_init(sums_sha256_state *state);
uint32_t sums_sha256_update(sums_sha256_state *state, const uint8_t *piece, size_t piece_len) SUMS_CHECKED;
uint32_t sums_sha256_finish(const sums_sha256_state *state, uint8_t out[32]) SUMS_CHECKED;

typedef struct {
    uint64_t h[8];
    uint64_t taken_low, taken_high, digest_length;
    uint8_t buffer[128];
} sums_sha512_state; /* 216 bytes */
void sums_sha512_init(sums_sha512_state *state);
uint32_t sums_sha512_update(sums_sha512_state *state, const uint8_t *piece, size_t piece_len) SUMS_CHECKED;
uint32_t sums_sha512_finish(const sums_sha512_state *state, uint8_t out[64]) SUMS_CHECKED;

/* HMAC over SHA-256, SHA-512, BLAKE2b of 64 bytes and BLAKE2s of 32. finish takes the out_len that the calls on whole
 * messages do. */
typedef struct { sums_sha256_state inner, outer; } sums_hmac_sha256_state; /* 224 bytes */
typedef struct { sums_sha512_state inner, outer; } sums_hmac_sha512_state; /* 432 bytes */
typedef struct { sums_blake2b_state inner, outer; } sums_hmac_blake2b_state; /* 448 bytes */
typedef struct { sums_blake2s_state inner, outer; } sums_hmac_blake2s_state; /* 240 bytes */
uint32_t sums_hmac_sha256_init(sums_hmac_sha256_state *state, const uint8_t *key, size_t key_len) SUMS_CHECKED;
uint32_t sums_hmac_sha256_update(sums_hmac_sha256_state *state, const uint8_t *piece, size_t piece_len) SUMS_CHECKED;
uint32_t sums_hmac_sha256_finish(const sums_hmac_sha256_state *state, uint8_t *out, size_t out_len) SUMS_CHECKED;
uint32_t sums_hmac_sha512_init(sums_hmac_sha512_state *state, const uint8_t *key, size_t key_len) SUMS_CHECKED;
uint32_t sums_hmac_sha512_update(sums_hmac_sha512_state *state, const uint8_t *piece, size_t piece_len) SUMS_CHECKED;
uint32_t sums_hmac_sha512_finish(const sums_hmac_sha512_state *state, uint8_t *out, size_t out_len) SUMS_CHECKED;
uint32_t sums_hmac_blake2b_init(sums_hmac_blake2b_state *state, const uint8_t *key, size_t key_len) SUMS_CHECKED;
uint32_t sums_hmac_blake2b_update(sums_hmac_blake2b_state *state, const uint8_t *piece, size_t piece_len) SUMS_CHECKED;
uint32_t sums_hmac_blake2b_finish(const sums_hmac_blake2b_state *state, uint8_t *out, size_t out_len) SUMS_CHECKED;
uint32_t sums_hmac_blake2s_init(sums_hmac_blake2s_state *state, const uint8_t *key, size_t key_len) SUMS_CHECKED;
uint32_t sums_hmac_blake2s_update(sums_hmac_blake2s_state *state, const uint8_t *piece, size_t piece_len) SUMS_CHECKED;
uint32_t sums_hmac_blake2s_finish(const sums_hmac_blake2s_state *state, uint8_t *out, size_t out_len) SUMS_CHECKED;

/* ---- Lists of digests, as sha256sum, b2sum and b3sum write them, tagged or not
 *
 * sums_list_read takes a list in pieces of any size and returns one line at a time. Untagged lines have digests of the
 * hash that the list was begun for, and with SUMS_ANY they are malformed; a tagged line names its hash.
 * docs/FORMAT.md has the grammar. */
enum {
    SUMS_ANY = 0,
    SUMS_SHA256 = 1,  /* digests of 32 bytes */
    SUMS_SHA512 = 2,  /* 64 */
    SUMS_BLAKE2B = 3, /* 1 to 64 */
    SUMS_BLAKE2S = 4, /* 1 to 32 */
    SUMS_BLAKE3 = 5   /* 32 */
};

/* What a line is. */
enum {
    SUMS_LINE_NONE = 0,      /* no line has ended */
    SUMS_LINE_SKIPPED = 1,   /* empty, or a comment */
    SUMS_LINE_MALFORMED = 2, /* neither skipped nor an entry */
    SUMS_LINE_UNTAGGED = 3,  /* malformed here, and an entry in a list for another hash */
    SUMS_LINE_ENTRY = 4      /* the digest of the file of a name */
};

/* What became of an entry. */
enum {
    SUMS_VERDICT_OK = 1,
    SUMS_VERDICT_FAILED = 2,
    SUMS_VERDICT_MISSING = 3,
    SUMS_VERDICT_UNREADABLE = 4,
    SUMS_VERDICT_TOO_LONG = 5
};

typedef struct {
    uint64_t number;   /* of the line, from 1; it stays if no line has ended */
    uint64_t taken;    /* how many bytes of the piece were read: 0 at the end */
    uint32_t kind;     /* SUMS_LINE_..; only an entry changes what follows */
    uint32_t hash;     /* SUMS_SHA256 to SUMS_BLAKE3 */
    uint32_t digest_len;
    uint32_t name_len; /* 1 to 65,532 */
    uint8_t digest[64];
    uint8_t name[65536]; /* without escapes: UTF-8 without NUL, and no NUL after it */
} sums_list_entry; /* 65,632 bytes */

typedef struct {
    uint64_t lines, held, mark;
    uint8_t line[65536];
} sums_list_state; /* 65,560 bytes */

/* Begins a list. Returns SUMS_OK or SUMS_NO_HASH. */
uint32_t sums_list_init(sums_list_state *state, uint32_t hash) SUMS_CHECKED;
/* Reads the piece up to its first LF, and what the line means that ends there. If the piece has no LF, all of it is read
 * and no line has ended. Call it again with what follows line->taken, until nothing is left. A line of more than 65,536
 * bytes is malformed. Returns SUMS_OK, SUMS_NOT_BEGUN, or SUMS_INPUT_TOO_LONG after 2^64 - 1 lines. */
uint32_t sums_list_read(sums_list_state *state, sums_list_entry *line,
                        const uint8_t *piece, size_t piece_len) SUMS_CHECKED;
/* At the end of the list, reads the last line, if no LF ended it. Returns the same. */
uint32_t sums_list_end(sums_list_state *state, sums_list_entry *line) SUMS_CHECKED;

/* The length in bytes of the line of an entry with its LF, untagged if is_tagged is 0. It is 0 if there is no such hash,
 * the hash has no digests of that length, or the name has no line: it is empty, not UTF-8, holds NUL, or its line would
 * have more than 65,536 bytes before the LF. */
size_t sums_list_line_length(uint32_t hash, uint32_t is_tagged, size_t digest_len, const uint8_t *name, size_t name_len);
/* Writes that line with its LF, exactly out_len bytes. A name with a backslash, LF or CR is written with escapes.
 * Returns SUMS_OK, SUMS_NO_HASH, SUMS_DIGEST_LENGTH, SUMS_NO_LINE, or else SUMS_OUTPUT_LENGTH. */
uint32_t sums_list_line(uint8_t *out, size_t out_len, uint32_t hash, uint32_t is_tagged,
                        const uint8_t *digest, size_t digest_len, const uint8_t *name, size_t name_len) SUMS_CHECKED;

/* The length of the line of a report, such as "name: OK", with its LF. It is 0 if no verdict has the number, or the name
 * is not UTF-8 or has more than 65,536 bytes. */
size_t sums_list_report_length(uint32_t verdict, const uint8_t *name, size_t name_len);
/* Writes that line with its LF, exactly out_len bytes.
 * Returns SUMS_OK, SUMS_NO_VERDICT, SUMS_NO_LINE, or else SUMS_OUTPUT_LENGTH. */
uint32_t sums_list_report(uint8_t *out, size_t out_len, uint32_t verdict,
                          const uint8_t *name, size_t name_len) SUMS_CHECKED;

#ifdef __cplusplus
}
#endif
#endif
