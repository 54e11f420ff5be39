// SPDX-License-Identifier: MIT OR Apache-2.0
// The hashes of sums_hash as types of Python, over the calls of sums_hash.h. A row of `kinds` is a type.
//
// Lengths: what C is told is the length of the memory at hand, which Python lends, which was made just before, or which
// a row here sizes. No attribute of an object, a type or a module is read.
//
// Threads: a call of C on an object's state runs no Python and waits for nothing. Long ones let go of the interpreter.
// From the first of these on each call holds the object's lock, which is given back whatever a handler of a signal or
// another thread does.
//
// Written in the limited API of CPython 3.11: one build is for each CPython from there on, but a free-threaded one.
//
// This header has what the files beside it share. None of their names leaves the extension.
#define PY_SSIZE_T_CLEAN
#define Py_LIMITED_API 0x030b0000
#include <Python.h>
#include <stddef.h>
#include <string.h>

#include "sums_hash.h"

#ifdef Py_GIL_DISABLED
#error "a free-threaded CPython has no limited API"
#endif

enum {
    LONG = 2048,      // the bytes from which on a call lets other threads run, as in hashlib
    MOST_SALT = 16,   // the bytes of the longest salt, and of the longest personalization
    MOST_DIGEST = 64, // those of the longest digest
};

// What a message begins with.
struct start {
    size_t length; // of the digest
    enum { PLAIN, KEYED, DERIVING } mode; // of BLAKE3
    Py_buffer key; // or the context of what BLAKE3 derives
    uint8_t salt[MOST_SALT], person[MOST_SALT];
};

struct kind {
    const char *type, *name, *doc;
    size_t state_size;
    uint32_t (*begin)(void *state, const struct start *start);
    uint32_t (*update)(void *state, const uint8_t *piece, size_t length);
    uint32_t (*write)(const void *state, uint64_t position, uint8_t *out, size_t length);
    newfunc make;
    initproc init;
    const char *format; // of the words that `init` takes
    PyMethodDef *methods;
    uint32_t (*reset)(void *state); // NULL where C has none, and an object keeps its state as it was begun
    int digest_size, block_size;    // of the longest digest
    int key_size, salt_size;        // the most that BLAKE2 and BLAKE3 take; a personalization is as long as a salt
};

typedef struct {
    PyObject_HEAD
    const struct kind *kind;
    PyThread_type_lock lock; // NULL as long as no call has let go of the interpreter
    unsigned process;        // of the last call that did: the number of forks before it
    _Atomic int digest_size; // of the message that was begun; written with the lock, and read without it
    uint64_t state[];        // of the message, and behind it as it was begun; zeros before that, which C refuses
} Hasher;

// What a module keeps.
struct kept {
    PyObject *refused; // its class of refusals
};

enum { SHA256, SHA512, BLAKE2B, BLAKE2S, BLAKE3, HMAC_SHA256, HMAC_SHA512, HMAC_BLAKE2B, HMAC_BLAKE2S, KINDS };

extern const struct kind kinds[KINDS];     // kinds.c
extern PyGetSetDef attributes_of_blake2[]; // hashers.c
extern PyMethodDef functions[];            // whole.c, of the module
extern int counts_no_forks;                // hashers.c

// ---- arguments.c

int parse(PyObject *args, PyObject *words, const char *format, char **names, ...);
int lend(PyObject *data, Py_buffer *view);
PyObject *unless_none(PyObject *given);
int number_up_to(unsigned long long most, PyObject *value, unsigned long long *to);
int judged_length_of(PyObject *value, size_t *to);
int length_of(PyObject *value, size_t *to);

// ---- refusals.c

// What a refusal says, as PyUnicode_FromFormat takes it; without a text it says what its number does.
struct bounds {
    const char *text;
    size_t least, most;
};

#define SAYS(...) ((struct bounds){__VA_ARGS__})
#define DIGEST_SIZE "digest_size must be between %zu and %zu bytes"
#define LENGTH "length must be between %zu and %zu bytes"

int set(PyObject *to, const char *name, PyObject *value);
PyObject *class_of_refusals(PyObject *module);
int refuse(PyObject *module, uint32_t status, struct bounds bounds);
int judged(PyObject *self, uint32_t status);

// ---- hashers.c

size_t kept_size(const struct kind *kind);
PyObject *made(PyTypeObject *type, const struct kind *kind);
void end(PyObject *object);
int begin_with(Hasher *self, struct start *start, PyObject *data);
PyObject *output(Hasher *self, uint64_t position, size_t length);
PyObject *in_digits(PyObject *bytes);
PyObject *update(PyObject *self, PyObject *data);
PyObject *reset(PyObject *self, PyObject *none);
PyObject *digest(PyObject *object, PyObject *none);
PyObject *hexdigest(PyObject *self, PyObject *none);
PyObject *copy(PyObject *object, PyObject *none);
PyObject *deepcopy(PyObject *object, PyObject *memo);
PyObject *reduce(PyObject *self, PyObject *none);

#define WITH_WORDS(function) (PyCFunction)(void (*)(void))(function), METH_VARARGS | METH_KEYWORDS

#define EACH_METHOD \
    {"update", update, METH_O, "update($self, data, /)\n--\n\nAdds a piece to the message."}, \
    {"reset", reset, METH_NOARGS, "reset($self)\n--\n\nForgets the message. Key, salt and digest_size stay."}, \
    {"copy", copy, METH_NOARGS, "copy($self)\n--\n\nAnother object of the same message."}, \
    {"__copy__", copy, METH_NOARGS, "__copy__($self)\n--\n\nAnother object of the same message."}, \
    {"__deepcopy__", deepcopy, METH_O, "__deepcopy__($self, memo, /)\n--\n\nAnother object of the same message."}, \
    {"__reduce__", reduce, METH_NOARGS, NULL}, \
    {0}

// ---- kinds.c

PyObject *type_of(PyObject *module, const struct kind *kind);
int describe(PyObject *type, const struct kind *kind);

// ---- lists.c

PyObject *type_of_lists(PyObject *module);
PyObject *list_line(PyObject *module, PyObject *args);
PyObject *list_report(PyObject *module, PyObject *args);

// ---- module.c

PyModuleDef *definition(void);
