// SPDX-License-Identifier: MIT OR Apache-2.0
// What Python hands in: words, bytes and numbers.
#include "native.h"

#include <stdarg.h>

// PyArg_ParseTupleAndKeywords for words that may all be absent. Where the first stands alone, as it mostly does, no
// time is spent on looking for the others.
int parse(PyObject *args, PyObject *words, const char *format, char **names, ...)
{
    va_list places;
    va_start(places, names);
    int done = 1, is_first_alone = !words && PyTuple_Size(args) <= 1;
    if (!is_first_alone)
        done = PyArg_VaParseTupleAndKeywords(args, words, format, names, places);
    else if (PyTuple_Size(args) == 1)
        *va_arg(places, PyObject **) = PyTuple_GetItem(args, 0);
    va_end(places);
    return done;
}

// Has the bytes of an object lent where they are, until PyBuffer_Release. One whose bytes are not in one piece is a
// BufferError.
int lend(PyObject *data, Py_buffer *view)
{
    if (PyUnicode_Check(data)) {
        PyErr_SetString(PyExc_TypeError, "Strings must be encoded before hashing");
        return -1;
    }
    if (!PyObject_CheckBuffer(data)) {
        PyErr_SetString(PyExc_TypeError, "object supporting the buffer API required");
        return -1;
    }
    return PyObject_GetBuffer(data, view, PyBUF_SIMPLE);
}

PyObject *unless_none(PyObject *given)
{
    return given == Py_None ? NULL : given;
}

int number_up_to(unsigned long long most, PyObject *value, unsigned long long *to)
{
    PyObject *whole = PyNumber_Index(value);
    if (!whole) return -1;
    *to = PyLong_AsUnsignedLongLong(whole);
    int is_wrong = PyErr_Occurred() != NULL || *to > most;
    if (is_wrong) {
        PyErr_Clear();
        PyErr_Format(PyExc_ValueError, "%S is not from 0 to %llu", whole, most);
    }
    Py_DECREF(whole);
    return is_wrong ? -1 : 0;
}

// A length that the library judges: one that no size_t holds becomes the largest, and is refused with the bounds.
int judged_length_of(PyObject *value, size_t *to)
{
    PyObject *index = PyNumber_Index(value);
    if (!index) return -1;
    *to = PyLong_AsSize_t(index); // SIZE_MAX after an OverflowError
    PyErr_Clear();
    Py_DECREF(index);
    return 0;
}

int length_of(PyObject *value, size_t *to)
{
    unsigned long long length;
    if (number_up_to(PY_SSIZE_T_MAX, value, &length) < 0) return -1;
    *to = (size_t)length;
    return 0;
}
