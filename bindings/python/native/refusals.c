// SPDX-License-Identifier: MIT OR Apache-2.0
// The class of refusals, and what raises them.
#include "native.h"

int set(PyObject *to, const char *name, PyObject *value)
{
    int done = value ? PyObject_SetAttrString(to, name, value) : -1;
    Py_XDECREF(value);
    return done;
}

// Says why a call was refused. A library that is newer than this file may have numbers that are not known here.
static PyObject *reason(PyObject *status)
{
    static const char *const reasons[] = {
        [SUMS_DIGEST_LENGTH] = "the function has no output of that length",
        [SUMS_KEY_LENGTH] = "the function takes no key or salt of that length",
        [SUMS_INPUT_TOO_LONG] = "the message is longer than the function takes",
        [SUMS_NOT_BEGUN] = "the state was never begun",
        [SUMS_END_OF_OUTPUT] = "the output has no such bytes",
        [SUMS_PIECE_LENGTH] = "the function takes no pieces of that length",
        [SUMS_OUTPUT_LENGTH] = "the output is not as long as the digests of all pieces, or as the line",
        [SUMS_NO_HASH] = "no hash has that number",
        [SUMS_NO_LINE] = "no line has that name: it is empty, not UTF-8, holds NUL, or is too long",
        [SUMS_NO_VERDICT] = "no verdict has that number",
    };
    size_t number = PyLong_Check(status) ? PyLong_AsSize_t(status) : 0;
    PyErr_Clear();
    if (number < sizeof reasons / sizeof *reasons && reasons[number]) return PyUnicode_FromString(reasons[number]);
    return PyUnicode_FromFormat("status %S", status);
}

static int init_refused(PyObject *self, PyObject *args, PyObject *words)
{
    static char *names[] = {"status", NULL};
    PyObject *status;
    if (!PyArg_ParseTupleAndKeywords(args, words, "O:Refused", names, &status)) return -1;
    if (set(self, "args", Py_BuildValue("(N)", reason(status))) < 0) return -1;
    return PyObject_SetAttrString(self, "status", status);
}

// The attributes, and the text, which has bounds that the number does not have.
static PyObject *state_of_refusal(PyObject *self)
{
    PyObject *attributes = PyObject_GenericGetDict(self, NULL), *text = PyObject_GetAttrString(self, "args");
    PyObject *state = attributes && text ? PyDict_Copy(attributes) : NULL;
    if (state && PyDict_SetItemString(state, "args", text) < 0) Py_CLEAR(state);
    Py_XDECREF(attributes);
    Py_XDECREF(text);
    return state;
}

static PyObject *reduce_refused(PyObject *self, PyObject *Py_UNUSED(none))
{
    PyObject *status = PyObject_GetAttrString(self, "status");
    return status ? Py_BuildValue("O(N)N", Py_TYPE(self), status, state_of_refusal(self)) : NULL;
}

static PyMethodDef methods_of_refused[] = {{"__reduce__", reduce_refused, METH_NOARGS, NULL}, {0}};

// The class, of the package that the module is in, under whatever name.
PyObject *class_of_refusals(PyObject *module)
{
    PyType_Slot slots[] = {
        {Py_tp_doc, "Refused(status)\n--\n\nA call that was refused; `status` is the library's number."},
        {Py_tp_init, init_refused}, {Py_tp_methods, methods_of_refused}, {0},
    };
    PyType_Spec spec = {"sums_hash.Refused", 0, 0, Py_TPFLAGS_DEFAULT | Py_TPFLAGS_BASETYPE, slots};
    const char *name = PyModule_GetName(module), *end = name ? strrchr(name, '.') : NULL;
    PyObject *refused = name ? PyType_FromSpecWithBases(&spec, PyExc_ValueError) : NULL;
    if (refused && end && set(refused, "__module__", PyUnicode_FromStringAndSize(name, end - name)) < 0)
        Py_CLEAR(refused);
    return refused;
}

// The module that a type here was made for, or of a class of others the type under it.
static PyObject *module_of(PyTypeObject *type)
{
    for (;; type = PyType_GetSlot(type, Py_tp_base)) {
        PyObject *module = PyType_GetModule(type);
        if (module && PyModule_GetDef(module) == definition()) return module;
        PyErr_Clear();
    }
}

// Raises a refusal of a module, and returns -1.
int refuse(PyObject *module, uint32_t status, struct bounds bounds)
{
    struct kept *kept = PyModule_GetState(module);
    PyObject *refusal = PyObject_CallFunction(kept->refused, "k", (unsigned long)status);
    int done = refusal ? 0 : -1;
    if (refusal && bounds.text)
        done = set(refusal, "args", Py_BuildValue("(N)", PyUnicode_FromFormat(bounds.text, bounds.least, bounds.most)));
    if (done == 0) PyErr_SetObject(kept->refused, refusal);
    Py_XDECREF(refusal);
    return -1;
}

static struct bounds bounds_of(const struct kind *kind, uint32_t status)
{
    size_t most = (size_t)kind->digest_size;
    switch (status) {
    case SUMS_DIGEST_LENGTH: return kind->salt_size ? SAYS(DIGEST_SIZE, 1, most) : SAYS(LENGTH, most / 2, most);
    case SUMS_KEY_LENGTH: return SAYS("key must be between %zu and %zu bytes", 0, (size_t)kind->key_size);
    case SUMS_END_OF_OUTPUT: return SAYS("the output ends after 18446744073709551615 bytes");
    default: return SAYS(NULL);
    }
}

// 0, or -1 with the refusal of a call on an object raised.
int judged(PyObject *self, uint32_t status)
{
    if (status == SUMS_OK) return 0;
    return refuse(module_of(Py_TYPE(self)), status, bounds_of(((Hasher *)self)->kind, status));
}
