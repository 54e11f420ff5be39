// The digests of the pieces of a buffer, each beside that of the call on the piece alone: pieces of each length from 1
// to 300 bytes and of those about 960, 1,024, 2,048, 4,096 and 65,536, up to 20 of them and a short one at the end; and
// what the calls refuse. See tests/library/library.

#include "library.h"

enum { PIECES = 20, LONGEST = 65537, MOST = 64, AROUND = 64 };

static uint8_t *input_area, *out_area;
static uint8_t text[(PIECES + 1) * LONGEST];

// The calls of a function, with the bytes of its longest digest.
struct kind {
    const char *name;
    size_t most;
    int any_length; // whether the length of a digest is the caller's choice
    uint32_t (*pieces)(uint8_t *, size_t, size_t digest_len, const uint8_t *, size_t, size_t piece_len);
    uint32_t (*whole)(uint8_t *, size_t digest_len, const uint8_t *, size_t);
};

static uint32_t sha256_pieces(uint8_t *out, size_t out_len, size_t digest_len, const uint8_t *input, size_t input_len,
                              size_t piece_len) {
    (void)digest_len;
    return sums_sha256_pieces(out, out_len, input, input_len, piece_len);
}
static uint32_t sha256_whole(uint8_t *out, size_t digest_len, const uint8_t *input, size_t input_len) {
    (void)digest_len;
    sums_sha256(out, input, input_len);
    return SUMS_OK;
}
static uint32_t sha512_pieces(uint8_t *out, size_t out_len, size_t digest_len, const uint8_t *input, size_t input_len,
                              size_t piece_len) {
    (void)digest_len;
    return sums_sha512_pieces(out, out_len, input, input_len, piece_len);
}
static uint32_t sha512_whole(uint8_t *out, size_t digest_len, const uint8_t *input, size_t input_len) {
    (void)digest_len;
    sums_sha512(out, input, input_len);
    return SUMS_OK;
}
static uint32_t blake2b_whole(uint8_t *out, size_t digest_len, const uint8_t *input, size_t input_len) {
    return sums_blake2b(out, digest_len, input, input_len, NULL, 0);
}
static uint32_t blake2s_whole(uint8_t *out, size_t digest_len, const uint8_t *input, size_t input_len) {
    return sums_blake2s(out, digest_len, input, input_len, NULL, 0);
}
static uint32_t blake3_pieces(uint8_t *out, size_t out_len, size_t digest_len, const uint8_t *input, size_t input_len,
                              size_t piece_len) {
    (void)digest_len;
    return sums_blake3_pieces(out, out_len, input, input_len, piece_len);
}
static uint32_t blake3_whole(uint8_t *out, size_t digest_len, const uint8_t *input, size_t input_len) {
    return sums_blake3(out, digest_len, 0, input, input_len);
}

static const struct kind kinds[] = {
    {"sha256_pieces", 32, 0, sha256_pieces, sha256_whole},
    {"sha512_pieces", 64, 0, sha512_pieces, sha512_whole},
    {"blake2b_pieces", 64, 1, sums_blake2b_pieces, blake2b_whole},
    {"blake2s_pieces", 32, 1, sums_blake2s_pieces, blake2s_whole},
    {"blake3_pieces", 32, 0, blake3_pieces, blake3_whole},
};

// ---- the output, between a page that no call may touch and bytes that have to stay

static int at_end;

static uint8_t *output(size_t count) {
    uint8_t *out = at_edge(out_area, count, at_end);
    memset(at_end ? out - AROUND : out, 0x5a, count + AROUND);
    return out;
}

static int is_kept(const uint8_t *bytes, size_t count) {
    for (size_t i = 0; i < count; i++)
        if (bytes[i] != 0x5a) return 0;
    return 1;
}

static int is_kept_around(const uint8_t *out, size_t count) {
    return is_kept(at_end ? out - AROUND : out + count, AROUND);
}

// ---- digests

// So many whole pieces and a short one of so many bytes, or none where that is 0.
static void compare(const struct kind *kind, size_t digest_len, size_t piece_len, const uint8_t *whole, size_t count,
                    size_t rest) {
    size_t length = count * piece_len + rest, out_len = digest_len * (count + (rest > 0));
    uint8_t want[MOST] = {0}, *out = output(out_len), *input = at_edge(input_area, length, at_end);
    memcpy(input, text, length);
    status(kind->name, kind->pieces(out, out_len, digest_len, input, length, piece_len), SUMS_OK);
    same(kind->name, length, out, whole, digest_len * count);
    if (rest > 0) {
        status(kind->name, kind->whole(want, digest_len, text + count * piece_len, rest), SUMS_OK);
        same(kind->name, length, out + digest_len * count, want, digest_len);
    }
    judged(kind->name, length, is_kept_around(out, out_len));
}

static void lengths_of(const struct kind *kind, size_t digest_len, size_t piece_len) {
    static uint8_t whole[PIECES * MOST];
    for (size_t i = 0; i < PIECES; i++)
        status(kind->name, kind->whole(whole + i * digest_len, digest_len, text + i * piece_len, piece_len), SUMS_OK);
    for (size_t count = 0; count <= PIECES; count++) {
        at_end = count % 2;
        compare(kind, digest_len, piece_len, whole, count, 0);
        if (piece_len > 1) compare(kind, digest_len, piece_len, whole, count, 1);
        if (piece_len > 3) compare(kind, digest_len, piece_len, whole, count, piece_len / 2);
        if (piece_len > 2) compare(kind, digest_len, piece_len, whole, count, piece_len - 1);
    }
}

static void digests(const struct kind *kind, size_t piece_len) {
    lengths_of(kind, kind->most, piece_len);
    if (kind->any_length) lengths_of(kind, 1 + piece_len % kind->most, piece_len);
}

// ---- refusals

// An output of so many bytes stays as it is, at either edge.
static void refused(const struct kind *kind, uint32_t want, size_t out_len, size_t digest_len, size_t input_len,
                    size_t piece_len) {
    for (int edge = 0; edge < 2; edge++) {
        at_end = edge;
        uint8_t *out = output(out_len);
        status(kind->name, kind->pieces(out, out_len, digest_len, text, input_len, piece_len), want);
        judged(kind->name, input_len, is_kept(out, out_len) && is_kept_around(out, out_len));
    }
}

static void refusals(const struct kind *kind) {
    size_t most = kind->most;
    for (size_t digest_len = most; digest_len >= 1; digest_len = kind->any_length ? digest_len - 1 : 0) {
        // of pieces of 100 bytes there are ten in 1,000, and eleven from there on
        size_t exact = 10 * digest_len;
        for (size_t out_len = 0; out_len < exact + 2 * MOST; out_len++)
            if (out_len != exact) refused(kind, SUMS_OUTPUT_LENGTH, out_len, digest_len, 1000, 100);
        refused(kind, SUMS_OUTPUT_LENGTH, exact, digest_len, 1001, 100);
        refused(kind, SUMS_OUTPUT_LENGTH, exact, digest_len, 1000, 99);
        refused(kind, SUMS_OUTPUT_LENGTH, exact, digest_len, 900, 100);
        refused(kind, SUMS_OUTPUT_LENGTH, digest_len, digest_len, 0, 100);
        refused(kind, SUMS_PIECE_LENGTH, exact, digest_len, 1000, 0);
        refused(kind, SUMS_PIECE_LENGTH, 0, digest_len, 1000, 0);
        refused(kind, SUMS_PIECE_LENGTH, 0, digest_len, 0, 0);
    }
    if (!kind->any_length) return;
    for (size_t digest_len = most + 1; digest_len < 300; digest_len++)
        refused(kind, SUMS_DIGEST_LENGTH, 10 * digest_len, digest_len, 1000, 100);
    for (size_t piece_len = 0; piece_len < 2; piece_len++) {
        refused(kind, SUMS_DIGEST_LENGTH, 0, 0, 1000, piece_len);
        refused(kind, SUMS_DIGEST_LENGTH, 64, 0, 0, piece_len);
        refused(kind, SUMS_DIGEST_LENGTH, most, most + 1, 1, piece_len);
        refused(kind, SUMS_DIGEST_LENGTH, 0, SIZE_MAX, 2, piece_len);
    }
}

// Lengths of which a sum or a product is above 2^64 - 1. No memory is so long, and none is read.
static void overflows(const struct kind *kind) {
    size_t power = (size_t)1 << (kind->most == 64 ? 58 : 59), most = kind->most;
    refused(kind, SUMS_OUTPUT_LENGTH, 0, most, power, 1);
    refused(kind, SUMS_OUTPUT_LENGTH, most, most, power + 1, 1);
    refused(kind, SUMS_OUTPUT_LENGTH, 0, most, 8 * power, 8);
    refused(kind, SUMS_OUTPUT_LENGTH, most, most, 8 * power + 1, 8);
    const size_t longest[] = {SIZE_MAX, SIZE_MAX - 1, SIZE_MAX - 2, SIZE_MAX / 2 + 1, SIZE_MAX / 2};
    for (size_t i = 0; i < sizeof longest / sizeof *longest; i++) {
        uint8_t want[MOST] = {0}, *out = output(most);
        status(kind->name, kind->whole(want, most, text, 3), SUMS_OK);
        status(kind->name, kind->pieces(out, most, most, text, 3, longest[i]), SUMS_OK);
        same(kind->name, 3, out, want, most);
        status(kind->name, kind->pieces(NULL, 0, most, NULL, 0, longest[i]), SUMS_OK);
        refused(kind, SUMS_OUTPUT_LENGTH, 0, most, 3, longest[i]);
        refused(kind, SUMS_OUTPUT_LENGTH, 2 * most, most, 3, longest[i]);
    }
    status(kind->name, kind->pieces(NULL, 0, most, text, 1, 1), SUMS_OUTPUT_LENGTH);
}

int main(void) {
    static const size_t about[] = {960, 1024, 2048, 4096, 65536};
    uint32_t word = 1;
    input_area = area(), out_area = area();
    for (size_t i = 0; i < sizeof text; i++) text[i] = (word = word * 1664525 + 1013904223) >> 24;
    for (size_t k = 0; k < sizeof kinds / sizeof *kinds; k++) {
        for (size_t piece_len = 1; piece_len <= 300; piece_len++) digests(&kinds[k], piece_len);
        for (size_t i = 0; i < sizeof about / sizeof *about; i++)
            for (size_t piece_len = about[i] - 1; piece_len <= about[i] + 1; piece_len++) digests(&kinds[k], piece_len);
        refusals(&kinds[k]);
        overflows(&kinds[k]);
    }
    return ends("pieces");
}
