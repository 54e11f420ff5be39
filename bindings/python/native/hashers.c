// SPDX-License-Identifier: MIT OR Apache-2.0
// The object of a message: its memory, the calls of C on its state, and the methods that every type has.
#include "native.h"

#include <pthread.h>

size_t kept_size(const struct kind *kind)
{
    return kind->reset ? kind->state_size : 2 * kind->state_size;
}

static uint64_t *as_begun(Hasher *self)
{
    return self->state + self->kind->state_size / sizeof *self->state;
}

PyObject *made(PyTypeObject *type, const struct kind *kind)
{
    Hasher *self = (Hasher *)PyType_GenericAlloc(type, 0);
    if (!self) return NULL;
    self->kind = kind;
    self->digest_size = kind->digest_size;
    return (PyObject *)self;
}

void end(PyObject *object)
{
    PyTypeObject *type = Py_TYPE(object);
    freefunc let_go = (freefunc)PyType_GetSlot(type, Py_tp_free);
    Hasher *self = (Hasher *)object;
    if (self->lock) PyThread_free_lock(self->lock);
    let_go(object);
    Py_DECREF(type);
}

// ---- calls of C on a state, one after another

// How many forks stand between this process and the one that loaded this file. Parent and child may have one number of
// the system's, each in its own namespace; of these they have two.
static unsigned forks;
int counts_no_forks;

static void count_fork(void)
{
    forks++;
}

__attribute__((constructor)) static void count_forks(void)
{
    counts_no_forks = pthread_atfork(NULL, NULL, count_fork);
}

typedef uint32_t step(Hasher *self, void *words);

// Runs a step with the lock, and where that is not free or the work is long, without the interpreter.
static int with_lock(Hasher *self, step *run, void *words, int is_long)
{
    uint32_t status;
    int is_held = PyThread_acquire_lock(self->lock, NOWAIT_LOCK);
    if (!is_held && self->process != forks) {
        PyErr_SetString(PyExc_RuntimeError, "another thread was at work on the object when the process was forked");
        return -1;
    }
    if (is_held && !is_long) {
        status = run(self, words);
        PyThread_release_lock(self->lock);
    } else {
        self->process = forks;
        Py_BEGIN_ALLOW_THREADS
        if (!is_held) PyThread_acquire_lock(self->lock, WAIT_LOCK);
        status = run(self, words);
        PyThread_release_lock(self->lock);
        Py_END_ALLOW_THREADS
    }
    return judged((PyObject *)self, status);
}

// Runs a step when it is this thread's turn: 0, or -1 with an exception raised. The length is that of the work.
static int in_turn(Hasher *self, step *run, void *words, size_t length)
{
    int is_long = length >= LONG;
    if (!self->lock && !is_long) return judged((PyObject *)self, run(self, words));
    if (!self->lock) self->lock = PyThread_allocate_lock();
    if (self->lock) return with_lock(self, run, words, is_long);
    PyErr_NoMemory();
    return -1;
}

static uint32_t begin(Hasher *self, void *words)
{
    const struct start *start = words;
    uint32_t status = self->kind->begin(self->state, start);
    if (status != SUMS_OK) return status;
    if (!self->kind->reset) memcpy(as_begun(self), self->state, self->kind->state_size);
    self->digest_size = (int)start->length; // few, as C has taken it
    return SUMS_OK;
}

// One that was never begun stays so.
static uint32_t begin_again(Hasher *self, void *Py_UNUSED(none))
{
    if (self->kind->reset)
        self->kind->reset(self->state);
    else
        memcpy(self->state, as_begun(self), self->kind->state_size);
    return SUMS_OK;
}

static uint32_t duplicate(Hasher *self, void *words)
{
    Hasher *other = words;
    memcpy(other->state, self->state, kept_size(self->kind));
    other->digest_size = self->digest_size;
    return SUMS_OK;
}

static uint32_t add(Hasher *self, void *piece)
{
    const Py_buffer *view = piece;
    return self->kind->update(self->state, view->buf, (size_t)view->len);
}

struct output {
    uint64_t position;
    uint8_t *bytes;
    size_t length;
};

static uint32_t write_zeroed(Hasher *self, void *words)
{
    const struct output *out = words;
    memset(out->bytes, 0, out->length); // the library writes into initialised memory
    return self->kind->write(self->state, out->position, out->bytes, out->length);
}

// ---- what every object does

static int add_piece(Hasher *self, PyObject *data)
{
    Py_buffer view;
    if (lend(data, &view) < 0) return -1;
    int done = in_turn(self, add, &view, (size_t)view.len);
    PyBuffer_Release(&view);
    return done;
}

// Begins a message with its first piece, where there is one, and gives the key back.
int begin_with(Hasher *self, struct start *start, PyObject *data)
{
    int done = in_turn(self, begin, start, (size_t)start->key.len);
    PyBuffer_Release(&start->key);
    return done == 0 && data ? add_piece(self, data) : done;
}

PyObject *update(PyObject *self, PyObject *data)
{
    if (add_piece((Hasher *)self, data) < 0) return NULL;
    Py_RETURN_NONE;
}

PyObject *reset(PyObject *self, PyObject *Py_UNUSED(none))
{
    if (in_turn((Hasher *)self, begin_again, NULL, 0) < 0) return NULL;
    Py_RETURN_NONE;
}

PyObject *output(Hasher *self, uint64_t position, size_t length)
{
    PyObject *bytes = PyBytes_FromStringAndSize(NULL, (Py_ssize_t)length);
    if (!bytes) return NULL;
    struct output out = {position, (uint8_t *)PyBytes_AsString(bytes), length};
    if (in_turn(self, write_zeroed, &out, length) < 0) Py_CLEAR(bytes);
    return bytes;
}

// Takes bytes, or NULL after a fault.
PyObject *in_digits(PyObject *bytes)
{
    PyObject *text = bytes ? PyObject_CallMethod(bytes, "hex", NULL) : NULL;
    Py_XDECREF(bytes);
    return text;
}

PyObject *digest(PyObject *object, PyObject *Py_UNUSED(none))
{
    Hasher *self = (Hasher *)object;
    return output(self, 0, (size_t)self->digest_size);
}

PyObject *hexdigest(PyObject *self, PyObject *none)
{
    return in_digits(digest(self, none));
}

// Another object of the same message, without what a class of Python's own adds.
static PyObject *duplicated(PyObject *object)
{
    Hasher *self = (Hasher *)object;
    PyObject *other = made(Py_TYPE(object), self->kind);
    if (other && in_turn(self, duplicate, other, 0) < 0) Py_CLEAR(other);
    return other;
}

// A subclass in Python may add attributes; the types of this module have none.
static int may_have_attributes(PyObject *object)
{
    return PyType_HasFeature(Py_TYPE(object), Py_TPFLAGS_HAVE_GC);
}

// The attributes as object.__getstate__ tells them: those of __dict__ or None, alone or before those of __slots__.
static PyObject *attributes(PyObject *object)
{
    return PyObject_CallMethod((PyObject *)&PyBaseObject_Type, "__getstate__", "O", object);
}

static int add_to_dict(PyObject *to, PyObject *attributes)
{
    PyObject *dict = attributes == Py_None ? NULL : PyObject_GenericGetDict(to, NULL);
    int done = dict ? PyDict_Update(dict, attributes) : PyErr_Occurred() ? -1 : 0;
    Py_XDECREF(dict);
    return done;
}

// Gives an object these attributes. It takes both, of which the second may be NULL, and returns the first, or NULL.
static PyObject *with_attributes(PyObject *object, PyObject *attributes)
{
    PyObject *slots = attributes && PyTuple_Check(attributes) ? PyTuple_GetItem(attributes, 1) : NULL, *name, *value;
    int done = attributes ? add_to_dict(object, slots ? PyTuple_GetItem(attributes, 0) : attributes) : -1;
    for (Py_ssize_t at = 0; done == 0 && slots && PyDict_Next(slots, &at, &name, &value);)
        done = PyObject_GenericSetAttr(object, name, value);
    Py_XDECREF(attributes);
    if (done < 0) Py_CLEAR(object);
    return object;
}

PyObject *copy(PyObject *object, PyObject *Py_UNUSED(none))
{
    PyObject *other = duplicated(object);
    return other && may_have_attributes(object) ? with_attributes(other, attributes(object)) : other;
}

// A deep copy of the attributes. One that leads back to the object leads to the other one there.
static PyObject *deep_attributes(PyObject *object, PyObject *other, PyObject *memo)
{
    PyObject *key = PyLong_FromVoidPtr(object), *module = NULL, *shallow = NULL, *deep = NULL;
    if (key && PyObject_SetItem(memo, key, other) == 0) module = PyImport_ImportModule("copy");
    if (module) shallow = attributes(object);
    if (shallow) deep = PyObject_CallMethod(module, "deepcopy", "OO", shallow, memo);
    Py_XDECREF(key);
    Py_XDECREF(module);
    Py_XDECREF(shallow);
    return deep;
}

PyObject *deepcopy(PyObject *object, PyObject *memo)
{
    PyObject *other = duplicated(object);
    return other && may_have_attributes(object) ? with_attributes(other, deep_attributes(object, other, memo)) : other;
}

PyObject *reduce(PyObject *self, PyObject *Py_UNUSED(none))
{
    PyObject *name = PyType_GetName(Py_TYPE(self));
    if (name) PyErr_Format(PyExc_TypeError, "cannot pickle %R object", name);
    Py_XDECREF(name);
    return NULL;
}

static PyObject *digest_size(PyObject *self, void *Py_UNUSED(none))
{
    return PyLong_FromLong(((Hasher *)self)->digest_size);
}

PyGetSetDef attributes_of_blake2[] = {
    {"digest_size", digest_size, NULL, "The bytes of a digest.", NULL},
    {0},
};
