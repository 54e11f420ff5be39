// SPDX-License-Identifier: MIT OR Apache-2.0
// The types: what each family takes, its methods, and the table of kinds.
#include "native.h"

static PyMethodDef methods_of_hashes[] = {
    {"digest", digest, METH_NOARGS, "digest($self)\n--\n\nThe digest of the message so far, which can go on."},
    {"hexdigest", hexdigest, METH_NOARGS, "hexdigest($self)\n--\n\nThe digest in hexadecimal digits."},
    EACH_METHOD,
};

// ---- SHA-2

#define FORMAT_OF_SHA2 "|O$OO:"

static int init_sha2(PyObject *object, PyObject *args, PyObject *words)
{
    static char *names[] = {"data", "usedforsecurity", "string", NULL};
    Hasher *self = (Hasher *)object;
    PyObject *data = NULL, *string = NULL, *security;
    if (!parse(args, words, self->kind->format, names, &data, &security, &string)) return -1;
    if (data && string) {
        PyErr_SetString(PyExc_TypeError, "give data or string");
        return -1;
    }
    struct start start = {.length = (size_t)self->kind->digest_size};
    return begin_with(self, &start, data ? data : string);
}

// ---- BLAKE2

enum { TREE = 6 };

static int is_sequential(PyObject *const tree[TREE], int last_node)
{
    static const long sequential[TREE] = {1, 1, 0, 0, 0, 0};
    int is_tree = last_node, is_more; // than a long holds, which is told as -1
    for (int i = 0; i < TREE && !is_tree; i++) {
        long value = tree[i] ? PyLong_AsLongAndOverflow(tree[i], &is_more) : sequential[i];
        if (value == -1 && PyErr_Occurred()) return 0;
        is_tree = value != sequential[i];
    }
    if (is_tree) PyErr_SetString(PyExc_ValueError, "trees of BLAKE2 are not offered");
    return !is_tree;
}

// A salt or a personalization, which has zeros behind it.
static int fill(uint8_t room[MOST_SALT], PyObject *data, int size, const char *name)
{
    Py_buffer view;
    if (!data) return 0;
    if (lend(data, &view) < 0) return -1;
    int fits = view.len <= size;
    if (fits && view.len > 0) memcpy(room, view.buf, (size_t)view.len);
    PyBuffer_Release(&view);
    if (!fits) PyErr_Format(PyExc_ValueError, "maximum %s length is %d bytes", name, size);
    return fits ? 0 : -1;
}

#define FORMAT_OF_BLAKE2 "|O$OOOOOOOOOOpO:"

static int init_blake2(PyObject *object, PyObject *args, PyObject *words)
{
    static char *names[] = {"", "digest_size", "key", "salt", "person", "fanout", "depth", "leaf_size", "node_offset",
                            "node_depth", "inner_size", "last_node", "usedforsecurity", NULL};
    Hasher *self = (Hasher *)object;
    PyObject *data = NULL, *size = Py_None, *key = NULL, *salt = NULL, *person = NULL, *tree[TREE] = {0}, *security;
    int last_node = 0, salt_size = self->kind->salt_size;
    if (!parse(args, words, self->kind->format, names, &data, &size, &key, &salt, &person, &tree[0], &tree[1], &tree[2],
               &tree[3], &tree[4], &tree[5], &last_node, &security))
        return -1;
    struct start start = {.length = (size_t)self->kind->digest_size};
    if (!is_sequential(tree, last_node)) return -1;
    if (size != Py_None && judged_length_of(size, &start.length) < 0) return -1;
    if (fill(start.salt, salt, salt_size, "salt") < 0 || fill(start.person, person, salt_size, "person") < 0) return -1;
    if (key && lend(key, &start.key) < 0) return -1;
    return begin_with(self, &start, data);
}

// ---- BLAKE3

// The bytes of a context are those of UTF-8, which the text itself keeps.
static int lend_context(PyObject *context, struct start *start)
{
    if (!PyUnicode_Check(context)) {
        PyErr_SetString(PyExc_TypeError, "derive_key_context must be a str");
        return -1;
    }
    Py_ssize_t length;
    const char *text = PyUnicode_AsUTF8AndSize(context, &length);
    if (!text) return -1;
    start->mode = DERIVING;
    return PyBuffer_FillInfo(&start->key, context, (void *)text, length, 1, PyBUF_SIMPLE);
}

static int lend_key(PyObject *key, struct start *start, int size)
{
    start->mode = KEYED;
    if (lend(key, &start->key) < 0) return -1;
    Py_ssize_t length = start->key.len;
    if (length == size) return 0;
    PyBuffer_Release(&start->key);
    PyErr_Format(PyExc_ValueError, "the key has %zd bytes, not %d", length, size);
    return -1;
}

#define FORMAT_OF_BLAKE3 "|O$OOOO:"

// `max_threads` is of the package blake3: here one thread does all, whatever it says.
static int init_blake3(PyObject *object, PyObject *args, PyObject *words)
{
    static char *names[] = {"", "key", "derive_key_context", "max_threads", "usedforsecurity", NULL};
    Hasher *self = (Hasher *)object;
    PyObject *data = NULL, *key = Py_None, *context = Py_None, *threads, *security;
    if (!parse(args, words, self->kind->format, names, &data, &key, &context, &threads, &security)) return -1;
    if (key != Py_None && context != Py_None) {
        PyErr_SetString(PyExc_ValueError, "give key or derive_key_context, not both");
        return -1;
    }
    struct start start = {.length = (size_t)self->kind->digest_size};
    if (key != Py_None && lend_key(key, &start, self->kind->key_size) < 0) return -1;
    if (context != Py_None && lend_context(context, &start) < 0) return -1;
    return begin_with(self, &start, data);
}

static PyObject *output_of_blake3(PyObject *object, PyObject *args, PyObject *words, const char *format)
{
    static char *names[] = {"length", "seek", NULL};
    Hasher *self = (Hasher *)object;
    PyObject *given = NULL, *seek = NULL;
    size_t length = (size_t)self->digest_size;
    unsigned long long position = 0;
    if (!parse(args, words, format, names, &given, &seek)) return NULL;
    if (given && length_of(given, &length) < 0) return NULL;
    if (seek && number_up_to(UINT64_MAX, seek, &position) < 0) return NULL;
    return output(self, position, length);
}

static PyObject *digest_blake3(PyObject *self, PyObject *args, PyObject *words)
{
    return output_of_blake3(self, args, words, "|O$O:digest");
}

static PyObject *hexdigest_blake3(PyObject *self, PyObject *args, PyObject *words)
{
    return in_digits(output_of_blake3(self, args, words, "|O$O:hexdigest"));
}

static PyMethodDef methods_of_blake3[] = {
    {"digest", WITH_WORDS(digest_blake3),
     "digest($self, length=32, *, seek=0)\n--\n\nSo many bytes of the output, from the byte `seek` on."},
    {"hexdigest", WITH_WORDS(hexdigest_blake3),
     "hexdigest($self, length=32, *, seek=0)\n--\n\nBytes of the output, as digest() gives them, in hexadecimal "
     "digits."},
    EACH_METHOD,
};

// ---- HMAC

#define FORMAT_OF_HMAC "O|O$O:"

static int init_hmac(PyObject *object, PyObject *args, PyObject *words)
{
    static char *names[] = {"key", "msg", "usedforsecurity", NULL};
    Hasher *self = (Hasher *)object;
    PyObject *key, *message = NULL, *security;
    if (!PyArg_ParseTupleAndKeywords(args, words, self->kind->format, names, &key, &message, &security)) return -1;
    struct start start = {.length = (size_t)self->kind->digest_size};
    if (lend(key, &start.key) < 0) return -1;
    return begin_with(self, &start, unless_none(message));
}

static PyObject *tag(PyObject *object, PyObject *args, PyObject *words, const char *format)
{
    static char *names[] = {"length", NULL};
    Hasher *self = (Hasher *)object;
    PyObject *given = Py_None;
    size_t most = (size_t)self->digest_size, length = most;
    if (!parse(args, words, format, names, &given)) return NULL;
    if (given != Py_None && judged_length_of(given, &length) < 0) return NULL;
    // before there has to be room for it
    if (length > most && judged(object, SUMS_DIGEST_LENGTH) < 0) return NULL;
    return output(self, 0, length);
}

static PyObject *digest_hmac(PyObject *self, PyObject *args, PyObject *words)
{
    return tag(self, args, words, "|O:digest");
}

static PyObject *hexdigest_hmac(PyObject *self, PyObject *args, PyObject *words)
{
    return in_digits(tag(self, args, words, "|O:hexdigest"));
}

static PyMethodDef methods_of_hmac[] = {
    {"digest", WITH_WORDS(digest_hmac),
     "digest($self, length=None)\n--\n\nThe tag of the message so far, or its first bytes, half of them at least. "
     "Compare it by\nhmac.compare_digest."},
    {"hexdigest", WITH_WORDS(hexdigest_hmac),
     "hexdigest($self, length=None)\n--\n\nThe tag, as digest() gives it, in hexadecimal digits."},
    EACH_METHOD,
};

// ---- the table of kinds: their calls of C, by a pointer to any state

#define UPDATE(hash, row) \
    static uint32_t update_##hash(void *state, const uint8_t *piece, size_t length) \
    { \
        return sums_##hash##_update(state, piece, length); \
    } \
    static PyObject *make_##hash(PyTypeObject *type, PyObject *Py_UNUSED(args), PyObject *Py_UNUSED(words)) \
    { \
        return made(type, &kinds[row]); \
    }

#define FINISH(hash) \
    static uint32_t write_##hash(const void *state, uint64_t Py_UNUSED(position), uint8_t *out, size_t length) \
    { \
        return sums_##hash##_finish(state, out, length); \
    }

#define SHA2(hash, row) \
    static uint32_t begin_##hash(void *state, const struct start *Py_UNUSED(start)) \
    { \
        sums_##hash##_init(state); \
        return SUMS_OK; \
    } \
    static uint32_t write_##hash(const void *state, uint64_t Py_UNUSED(position), uint8_t *out, size_t length) \
    { \
        return length == (size_t)kinds[row].digest_size ? sums_##hash##_finish(state, out) : SUMS_DIGEST_LENGTH; \
    } \
    UPDATE(hash, row)

#define BLAKE2(hash, row) \
    static uint32_t begin_##hash(void *state, const struct start *start) \
    { \
        return sums_##hash##_init_salted(state, start->length, start->key.buf, (size_t)start->key.len, start->salt, \
                                         start->person); \
    } \
    FINISH(hash) \
    UPDATE(hash, row)

#define HMAC(hash, row) \
    static uint32_t begin_##hash(void *state, const struct start *start) \
    { \
        return sums_##hash##_init(state, start->key.buf, (size_t)start->key.len); \
    } \
    FINISH(hash) \
    UPDATE(hash, row)

SHA2(sha256, SHA256)
SHA2(sha512, SHA512)
BLAKE2(blake2b, BLAKE2B)
BLAKE2(blake2s, BLAKE2S)
UPDATE(blake3, BLAKE3)
HMAC(hmac_sha256, HMAC_SHA256)
HMAC(hmac_sha512, HMAC_SHA512)
HMAC(hmac_blake2b, HMAC_BLAKE2B)
HMAC(hmac_blake2s, HMAC_BLAKE2S)

static uint32_t begin_blake3(void *state, const struct start *start)
{
    switch (start->mode) {
    case PLAIN: sums_blake3_init(state); break;
    case KEYED: sums_blake3_init_keyed(state, start->key.buf); break;
    case DERIVING: sums_blake3_init_derive(state, start->key.buf, (size_t)start->key.len); break;
    }
    return SUMS_OK;
}

static uint32_t reset_blake3(void *state)
{
    return sums_blake3_reset(state);
}

static uint32_t write_blake3(const void *state, uint64_t position, uint8_t *out, size_t length)
{
    return sums_blake3_output(state, position, out, length);
}

#define KIND(hash) "sums_hash." #hash
#define INIT(function, family, hash) init_##function, FORMAT_OF_##family #hash
#define CALLS(hash) sizeof(sums_##hash##_state), begin_##hash, update_##hash, write_##hash, make_##hash
#define DOC_OF_SHA2(hash, title) \
    #hash "(data=b'', *, usedforsecurity=True, string=b'')\n--\n\n" title " (FIPS 180-4), as hashlib." #hash "."
#define DOC_OF_BLAKE2(hash, title) \
    #hash "(data=b'', /, *, digest_size=None, key=b'', salt=b'', person=b'', fanout=1, depth=1, leaf_size=0, " \
    "node_offset=0, node_depth=0, inner_size=0, last_node=False, usedforsecurity=True)\n--\n\n" title \
    " (RFC 7693), as hashlib." #hash " without its trees."
#define DOC_OF_BLAKE3 \
    "blake3(data=b'', /, *, key=None, derive_key_context=None, max_threads=1, usedforsecurity=True)\n--\n\n" \
    "BLAKE3: the hash, under a key of 32 bytes, or of key material for a context, a text of the application.\n" \
    "It is one thread, whatever max_threads says."
#define DOC_OF_HMAC(hash, title) \
    "hmac_" #hash "(key, msg=None, *, usedforsecurity=True)\n--\n\nHMAC (RFC 2104) over " title \
    ", as hmac.new(key, msg, \"" #hash "\")."

const struct kind kinds[KINDS] = {
    [SHA256] = {KIND(sha256), "sha256", DOC_OF_SHA2(sha256, "SHA-256"), CALLS(sha256), INIT(sha2, SHA2, sha256),
                methods_of_hashes, .digest_size = 32, .block_size = 64},
    [SHA512] = {KIND(sha512), "sha512", DOC_OF_SHA2(sha512, "SHA-512"), CALLS(sha512), INIT(sha2, SHA2, sha512),
                methods_of_hashes, .digest_size = 64, .block_size = 128},
    [BLAKE2B] = {KIND(blake2b), "blake2b", DOC_OF_BLAKE2(blake2b, "BLAKE2b"), CALLS(blake2b),
                 INIT(blake2, BLAKE2, blake2b), methods_of_hashes, .digest_size = 64, .block_size = 128, .key_size = 64,
                 .salt_size = 16},
    [BLAKE2S] = {KIND(blake2s), "blake2s", DOC_OF_BLAKE2(blake2s, "BLAKE2s"), CALLS(blake2s),
                 INIT(blake2, BLAKE2, blake2s), methods_of_hashes, .digest_size = 32, .block_size = 64, .key_size = 32,
                 .salt_size = 8},
    [BLAKE3] = {KIND(blake3), "blake3", DOC_OF_BLAKE3, CALLS(blake3), INIT(blake3, BLAKE3, blake3), methods_of_blake3,
                .reset = reset_blake3, .digest_size = 32, .block_size = 64, .key_size = 32},
    [HMAC_SHA256] = {KIND(hmac_sha256), "hmac-sha256", DOC_OF_HMAC(sha256, "SHA-256"), CALLS(hmac_sha256),
                     INIT(hmac, HMAC, hmac_sha256), methods_of_hmac, .digest_size = 32, .block_size = 64},
    [HMAC_SHA512] = {KIND(hmac_sha512), "hmac-sha512", DOC_OF_HMAC(sha512, "SHA-512"), CALLS(hmac_sha512),
                     INIT(hmac, HMAC, hmac_sha512), methods_of_hmac, .digest_size = 64, .block_size = 128},
    [HMAC_BLAKE2B] = {KIND(hmac_blake2b), "hmac-blake2b", DOC_OF_HMAC(blake2b, "BLAKE2b of 64 bytes"),
                      CALLS(hmac_blake2b), INIT(hmac, HMAC, hmac_blake2b), methods_of_hmac, .digest_size = 64,
                      .block_size = 128},
    [HMAC_BLAKE2S] = {KIND(hmac_blake2s), "hmac-blake2s", DOC_OF_HMAC(blake2s, "BLAKE2s of 32 bytes"),
                      CALLS(hmac_blake2s), INIT(hmac, HMAC, hmac_blake2s), methods_of_hmac, .digest_size = 32,
                      .block_size = 64},
};

PyObject *type_of(PyObject *module, const struct kind *kind)
{
    PyType_Slot slots[] = {
        {Py_tp_doc, (void *)kind->doc}, {Py_tp_new, kind->make}, {Py_tp_init, kind->init}, {Py_tp_dealloc, end},
        {Py_tp_methods, kind->methods}, {kind->salt_size ? Py_tp_getset : 0, attributes_of_blake2}, {0},
    };
    PyType_Spec spec = {kind->type, (int)(offsetof(Hasher, state) + kept_size(kind)), 0,
                        Py_TPFLAGS_DEFAULT | Py_TPFLAGS_BASETYPE, slots};
    return PyType_FromModuleAndSpec(module, &spec, NULL);
}

// What users read of a type, and nothing here does.
int describe(PyObject *type, const struct kind *kind)
{
    int is_blake2 = kind->salt_size > 0, is_blake3 = kind == &kinds[BLAKE3];
    const struct {
        const char *name;
        int value; // 0 where the type has none
    } numbers[] = {
        {"block_size", kind->block_size}, {is_blake2 ? "MAX_DIGEST_SIZE" : "digest_size", kind->digest_size},
        {"MAX_KEY_SIZE", kind->key_size}, {"key_size", is_blake2 ? 0 : kind->key_size},
        {"SALT_SIZE", kind->salt_size}, {"PERSON_SIZE", kind->salt_size}, {"AUTO", is_blake3 ? -1 : 0},
    };
    for (size_t i = 0; i < sizeof numbers / sizeof *numbers; i++)
        if (numbers[i].value && set(type, numbers[i].name, PyLong_FromLong(numbers[i].value)) < 0) return -1;
    return set(type, "name", PyUnicode_FromString(kind->name));
}
