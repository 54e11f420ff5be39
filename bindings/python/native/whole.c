// SPDX-License-Identifier: MIT OR Apache-2.0
// Calls on whole messages: HMAC, HKDF and the pieces of a buffer.
#include "native.h"

// A hash under HMAC and HKDF.
static const struct inner {
    const char *name;
    size_t digest_size;
    uint32_t (*hmac)(uint8_t *, size_t, const uint8_t *, size_t, const uint8_t *, size_t);
    uint32_t (*hkdf)(uint8_t *, size_t, const uint8_t *, size_t, const uint8_t *, size_t, const uint8_t *, size_t);
    uint32_t (*extract)(uint8_t *, const uint8_t *, size_t, const uint8_t *, size_t);
    uint32_t (*expand)(uint8_t *, size_t, const uint8_t *, size_t, const uint8_t *, size_t);
} inners[] = {
#define INNER(hash, size) \
    {#hash, size, sums_hmac_##hash, sums_hkdf_##hash, sums_hkdf_extract_##hash, sums_hkdf_expand_##hash}
    INNER(sha256, 32),
    INNER(sha512, 64),
    INNER(blake2b, 64),
    INNER(blake2s, 32),
};

enum { INPUTS = 3, MOST_KEY = 255 * MOST_DIGEST }; // the most that HKDF derives

struct whole {
    PyObject *module;
    const struct inner *hash; // or NULL where the input is hashed in pieces
    uint32_t (*run)(const struct whole *whole);
    uint8_t *out;
    size_t length;
    size_t digest_size, most_digest_size, piece_length; // of pieces
    Py_buffer in[INPUTS];
};

#define IN(i) whole->in[i].buf, (size_t)whole->in[i].len

static uint32_t run_hmac(const struct whole *whole)
{
    return whole->hash->hmac(whole->out, whole->length, IN(0), IN(1));
}

static uint32_t run_hkdf(const struct whole *whole)
{
    return whole->hash->hkdf(whole->out, whole->length, IN(0), IN(1), IN(2));
}

static uint32_t run_extract(const struct whole *whole)
{
    return whole->hash->extract(whole->out, IN(0), IN(1));
}

static uint32_t run_expand(const struct whole *whole)
{
    return whole->hash->expand(whole->out, whole->length, IN(0), IN(1));
}

static uint32_t run_sha256_pieces(const struct whole *whole)
{
    return sums_sha256_pieces(whole->out, whole->length, IN(0), whole->piece_length);
}

static uint32_t run_sha512_pieces(const struct whole *whole)
{
    return sums_sha512_pieces(whole->out, whole->length, IN(0), whole->piece_length);
}

static uint32_t run_blake2b_pieces(const struct whole *whole)
{
    return sums_blake2b_pieces(whole->out, whole->length, whole->digest_size, IN(0), whole->piece_length);
}

static uint32_t run_blake2s_pieces(const struct whole *whole)
{
    return sums_blake2s_pieces(whole->out, whole->length, whole->digest_size, IN(0), whole->piece_length);
}

static uint32_t run_blake3_pieces(const struct whole *whole)
{
    return sums_blake3_pieces(whole->out, whole->length, IN(0), whole->piece_length);
}

static uint32_t run_zeroed(const struct whole *whole)
{
    memset(whole->out, 0, whole->length); // the library writes into initialised memory
    return whole->run(whole);
}

static const struct inner *inner_of(PyObject *name)
{
    for (size_t i = 0; i < sizeof inners / sizeof *inners; i++)
        if (PyUnicode_CompareWithASCIIString(name, inners[i].name) == 0) return &inners[i];
    return NULL;
}

#define NO_INNER " is none of sha256, sha512, blake2b, blake2s"

// A method of str itself, whatever methods a subclass has.
static PyObject *by_str(const char *method, PyObject *text)
{
    return PyObject_CallMethod((PyObject *)&PyUnicode_Type, method, "O", text);
}

// Finds the hash of a name, in small letters or large ones, as `new` takes it.
static int find_inner(PyObject *name, struct whole *whole)
{
    int is_text = PyUnicode_Check(name);
    PyObject *is_ascii = is_text ? by_str("isascii", name) : NULL;
    if (is_text && !is_ascii) return -1;
    // some letters outside ASCII have small ones within it
    int may_be = is_ascii == Py_True;
    Py_XDECREF(is_ascii);
    PyObject *lower = may_be ? by_str("lower", name) : NULL;
    if (may_be && !lower) return -1;
    whole->hash = lower ? inner_of(lower) : NULL;
    Py_XDECREF(lower);
    if (whole->hash) return 0;
    PyErr_Format(PyExc_ValueError, is_text ? "%S" NO_INNER : "%R" NO_INNER, name); // -b warns of the text of bytes
    return -1;
}

static struct bounds bounds_of_whole(const struct whole *whole, uint32_t status)
{
    size_t size = whole->hash ? whole->hash->digest_size : 0;
    switch (status) {
    case SUMS_DIGEST_LENGTH: return SAYS(DIGEST_SIZE, 1, whole->most_digest_size);
    case SUMS_END_OF_OUTPUT: return SAYS(LENGTH, 0, 255 * size);
    case SUMS_KEY_LENGTH: return SAYS("prk must be at least %zu bytes", size);
    case SUMS_PIECE_LENGTH: return SAYS("piece_len must be at least 1");
    default: return SAYS(NULL);
    }
}

// What the call writes, of inputs that are lent.
static PyObject *written(struct whole *whole)
{
    size_t longest = whole->length;
    for (int i = 0; i < INPUTS; i++)
        if ((size_t)whole->in[i].len > longest) longest = (size_t)whole->in[i].len;
    PyObject *bytes = PyBytes_FromStringAndSize(NULL, (Py_ssize_t)whole->length);
    if (!bytes) return NULL;
    uint32_t status;
    whole->out = (uint8_t *)PyBytes_AsString(bytes);
    if (longest < LONG) {
        status = run_zeroed(whole);
    } else {
        Py_BEGIN_ALLOW_THREADS
        status = run_zeroed(whole);
        Py_END_ALLOW_THREADS
    }
    if (status != SUMS_OK) {
        refuse(whole->module, status, bounds_of_whole(whole, status));
        Py_CLEAR(bytes);
    }
    return bytes;
}

// The same of these inputs, some of which may be NULL, for none.
static PyObject *written_of(struct whole *whole, PyObject *const in[INPUTS])
{
    int lent = 0;
    while (lent < INPUTS && (!in[lent] || lend(in[lent], &whole->in[lent]) == 0)) lent++;
    PyObject *bytes = lent == INPUTS ? written(whole) : NULL;
    while (lent > 0) PyBuffer_Release(&whole->in[--lent]);
    return bytes;
}

static PyObject *hmac_digest(PyObject *module, PyObject *args, PyObject *words)
{
    static char *names[] = {"key", "msg", "digest", NULL};
    PyObject *in[INPUTS] = {0}, *name;
    struct whole whole = {.module = module, .run = run_hmac};
    if (!PyArg_ParseTupleAndKeywords(args, words, "OOO:hmac_digest", names, &in[1], &in[0], &name)) return NULL;
    if (find_inner(name, &whole) < 0) return NULL;
    whole.length = whole.hash->digest_size;
    return written_of(&whole, in);
}

// The bytes of a key that HKDF derives. One more than any hash has is refused as every longer key is.
static int take_length(PyObject *given, struct whole *whole)
{
    if (judged_length_of(given, &whole->length) < 0) return -1;
    if (whole->length > MOST_KEY) whole->length = MOST_KEY + 1;
    return 0;
}

static PyObject *hkdf(PyObject *module, PyObject *args, PyObject *words)
{
    static char *names[] = {"name", "material", "length", "salt", "info", NULL};
    PyObject *name, *length, *in[INPUTS] = {0};
    struct whole whole = {.module = module, .run = run_hkdf};
    if (!PyArg_ParseTupleAndKeywords(args, words, "OOO|$OO:hkdf", names, &name, &in[0], &length, &in[1], &in[2]))
        return NULL;
    if (take_length(length, &whole) < 0 || find_inner(name, &whole) < 0) return NULL;
    in[1] = unless_none(in[1]);
    in[2] = unless_none(in[2]);
    return written_of(&whole, in);
}

static PyObject *hkdf_extract(PyObject *module, PyObject *args, PyObject *words)
{
    static char *names[] = {"name", "material", "salt", NULL};
    PyObject *name, *in[INPUTS] = {0};
    struct whole whole = {.module = module, .run = run_extract};
    if (!PyArg_ParseTupleAndKeywords(args, words, "OO|$O:hkdf_extract", names, &name, &in[0], &in[1])) return NULL;
    if (find_inner(name, &whole) < 0) return NULL;
    in[1] = unless_none(in[1]);
    whole.length = whole.hash->digest_size;
    return written_of(&whole, in);
}

static PyObject *hkdf_expand(PyObject *module, PyObject *args, PyObject *words)
{
    static char *names[] = {"name", "prk", "length", "info", NULL};
    PyObject *name, *length, *in[INPUTS] = {0};
    struct whole whole = {.module = module, .run = run_expand};
    if (!PyArg_ParseTupleAndKeywords(args, words, "OOO|$O:hkdf_expand", names, &name, &in[0], &length, &in[1]))
        return NULL;
    if (take_length(length, &whole) < 0 || find_inner(name, &whole) < 0) return NULL;
    in[1] = unless_none(in[1]);
    return written_of(&whole, in);
}

// The bytes of the digests of all pieces. Where C refuses the lengths there are none. A bytes object takes no more than
// PY_SSIZE_T_MAX.
static int measure(struct whole *whole)
{
    size_t length = (size_t)whole->in[0].len, size = whole->digest_size;
    if (size == 0 || size > whole->most_digest_size || whole->piece_length == 0) return 0;
    size_t pieces = length / whole->piece_length + (length % whole->piece_length != 0);
    whole->length = pieces * size;
    if (pieces <= PY_SSIZE_T_MAX / size) return 0;
    PyErr_NoMemory();
    return -1;
}

// The digests of the pieces, of which each has as many bytes as the kind's longest where no other number is given.
static PyObject *digests(struct whole *whole, const struct kind *kind, PyObject *data, PyObject *piece, PyObject *size)
{
    whole->digest_size = whole->most_digest_size = (size_t)kind->digest_size;
    if (length_of(piece, &whole->piece_length) < 0) return NULL;
    if (size && judged_length_of(size, &whole->digest_size) < 0) return NULL;
    if (lend(data, &whole->in[0]) < 0) return NULL;
    PyObject *bytes = measure(whole) == 0 ? written(whole) : NULL;
    PyBuffer_Release(&whole->in[0]);
    return bytes;
}

#define PIECES(hash, row) \
    static PyObject *hash##_pieces(PyObject *module, PyObject *args, PyObject *words) \
    { \
        static char *names[] = {"data", "piece_len", NULL}; \
        PyObject *data, *piece; \
        struct whole whole = {.module = module, .run = run_##hash##_pieces}; \
        if (!PyArg_ParseTupleAndKeywords(args, words, "OO:" #hash "_pieces", names, &data, &piece)) return NULL; \
        return digests(&whole, &kinds[row], data, piece, NULL); \
    }

#define PIECES_OF_SIZE(hash, row) \
    static PyObject *hash##_pieces(PyObject *module, PyObject *args, PyObject *words) \
    { \
        static char *names[] = {"data", "piece_len", "digest_size", NULL}; \
        PyObject *data, *piece, *size = NULL; \
        struct whole whole = {.module = module, .run = run_##hash##_pieces}; \
        if (!PyArg_ParseTupleAndKeywords(args, words, "OO|O:" #hash "_pieces", names, &data, &piece, &size)) \
            return NULL; \
        return digests(&whole, &kinds[row], data, piece, size); \
    }

PIECES(sha256, SHA256)
PIECES(sha512, SHA512)
PIECES_OF_SIZE(blake2b, BLAKE2B)
PIECES_OF_SIZE(blake2s, BLAKE2S)
PIECES(blake3, BLAKE3)

// ---- the functions of the module

#define DOC_OF_PIECES(hash, words, title, size) \
    #hash "_pieces(data, piece_len" words ")\n--\n\nThe digests of the pieces of data by " title ", of " size \
    " bytes each, one after the other.\nEvery piece has piece_len bytes, and the last may have fewer; empty data " \
    "has no pieces."

PyMethodDef functions[] = {
    {"hmac_digest", WITH_WORDS(hmac_digest),
     "hmac_digest(key, msg, digest)\n--\n\nThe tag of a whole message, as hmac.digest(key, msg, digest); `digest` is "
     "\"sha256\", \"sha512\", \"blake2b\" or\n\"blake2s\"."},
    {"hkdf", WITH_WORDS(hkdf),
     "hkdf(name, material, length, *, salt=b'', info=b'')\n--\n\nA key of so many bytes, by HKDF (RFC 5869) over "
     "\"sha256\", \"sha512\", \"blake2b\" or \"blake2s\"."},
    {"hkdf_extract", WITH_WORDS(hkdf_extract),
     "hkdf_extract(name, material, *, salt=b'')\n--\n\nThe pseudorandom key, as long as a digest."},
    {"hkdf_expand", WITH_WORDS(hkdf_expand),
     "hkdf_expand(name, prk, length, *, info=b'')\n--\n\nA key of so many bytes, of a pseudorandom key that is as long "
     "as a digest or longer."},
    {"sha256_pieces", WITH_WORDS(sha256_pieces), DOC_OF_PIECES(sha256, "", "SHA-256 (FIPS 180-4)", "32")},
    {"sha512_pieces", WITH_WORDS(sha512_pieces), DOC_OF_PIECES(sha512, "", "SHA-512 (FIPS 180-4)", "64")},
    {"blake2b_pieces", WITH_WORDS(blake2b_pieces),
     DOC_OF_PIECES(blake2b, ", digest_size=64", "BLAKE2b (RFC 7693)", "digest_size")},
    {"blake2s_pieces", WITH_WORDS(blake2s_pieces),
     DOC_OF_PIECES(blake2s, ", digest_size=32", "BLAKE2s (RFC 7693)", "digest_size")},
    {"blake3_pieces", WITH_WORDS(blake3_pieces), DOC_OF_PIECES(blake3, "", "BLAKE3", "32")},
    {"list_line", list_line, METH_VARARGS,
     "list_line(hash, is_tagged, digest, name, /)\n--\n\nThe line of a list with this digest of the hash of this "
     "number, and its LF."},
    {"list_report", list_report, METH_VARARGS,
     "list_report(verdict, name, /)\n--\n\nThe line of a report with the verdict of this number, and its LF."},
    {0},
};
