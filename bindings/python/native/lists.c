// SPDX-License-Identifier: MIT OR Apache-2.0
// Lists of digests: an object that reads one line after another, and what writes a line.
#include "native.h"

// ---- reading

typedef struct {
    PyObject_HEAD
    int is_busy;           // a call has let go of the interpreter
    sums_list_state state; // zeros before it is begun, which C refuses
    sums_list_entry entry;
    uint8_t piece[65536]; // that C reads
} List;

// A call on an object at which another one is at work, maybe before a fork, is refused.
static int is_free(const List *self)
{
    if (self->is_busy) PyErr_SetString(PyExc_RuntimeError, "another thread is at work on the list");
    return !self->is_busy;
}

static int init_list(PyObject *object, PyObject *args, PyObject *words)
{
    static char *names[] = {"hash", NULL};
    List *self = (List *)object;
    PyObject *given;
    unsigned long long hash;
    if (!PyArg_ParseTupleAndKeywords(args, words, "O:ListState", names, &given)) return -1;
    if (number_up_to(UINT32_MAX, given, &hash) < 0 || !is_free(self)) return -1;
    uint32_t status = sums_list_init(&self->state, (uint32_t)hash);
    return status == SUMS_OK ? 0 : refuse(PyType_GetModule(Py_TYPE(object)), status, SAYS(NULL));
}

// What a call has read: how many bytes, and the line.
static PyObject *read_of(List *self, uint32_t status)
{
    const sums_list_entry *entry = &self->entry;
    if (status != SUMS_OK) {
        refuse(PyType_GetModule(Py_TYPE((PyObject *)self)), status, SAYS(NULL));
        return NULL;
    }
    unsigned long long taken = entry->taken, number = entry->number;
    if (entry->kind != SUMS_LINE_ENTRY)
        return Py_BuildValue("KIKOOO", taken, entry->kind, number, Py_None, Py_None, Py_None);
    return Py_BuildValue("KIKIy#s#", taken, entry->kind, number, entry->hash, entry->digest,
                         (Py_ssize_t)entry->digest_len, entry->name, (Py_ssize_t)entry->name_len);
}

// Reads bytes up to the end of a line. C gets copies of them, since it reads a line more than once: meanwhile another
// thread may write into a bytearray, and another process into a file that is mapped.
static uint32_t read_copied(List *self, const uint8_t *bytes, size_t length)
{
    size_t taken = 0;
    do {
        size_t count = length - taken < sizeof self->piece ? length - taken : sizeof self->piece;
        if (count > 0) memcpy(self->piece, bytes + taken, count);
        uint32_t status = sums_list_read(&self->state, &self->entry, self->piece, count);
        if (status != SUMS_OK) return status;
        taken += self->entry.taken;
    } while (taken < length && self->entry.kind == SUMS_LINE_NONE);
    self->entry.taken = taken;
    return SUMS_OK;
}

static PyObject *read_piece(List *self, const uint8_t *piece, size_t length)
{
    const uint8_t *end = length > 0 ? memchr(piece, '\n', length) : NULL;
    size_t line = end ? (size_t)(end - piece) + 1 : length;
    uint32_t status;
    if (line < LONG) return read_of(self, read_copied(self, piece, line));
    self->is_busy = 1;
    Py_BEGIN_ALLOW_THREADS
    status = read_copied(self, piece, line);
    Py_END_ALLOW_THREADS
    self->is_busy = 0;
    return read_of(self, status);
}

static PyObject *read_line(PyObject *object, PyObject *args)
{
    PyObject *data, *given, *read = NULL;
    Py_buffer view;
    size_t start;
    if (!PyArg_ParseTuple(args, "OO:read", &data, &given)) return NULL;
    if (length_of(given, &start) < 0 || lend(data, &view) < 0) return NULL;
    if (start > (size_t)view.len)
        PyErr_Format(PyExc_ValueError, "%zu is not from 0 to %zd", start, view.len);
    else if (is_free((List *)object))
        read = read_piece((List *)object, (const uint8_t *)view.buf + start, (size_t)view.len - start);
    PyBuffer_Release(&view);
    return read;
}

static PyObject *read_end(PyObject *object, PyObject *Py_UNUSED(none))
{
    List *self = (List *)object;
    return is_free(self) ? read_of(self, sums_list_end(&self->state, &self->entry)) : NULL;
}

static PyMethodDef methods_of_lists[] = {
    {"read", read_line, METH_VARARGS,
     "read($self, data, start, /)\n--\n\nReads a piece of the list, from the byte `start` up to its first LF. It "
     "returns how many bytes were read,\nwhat the line is (SUMS_LINE_..), its number, and of an entry the number of "
     "the hash, the digest and the name."},
    {"end", read_end, METH_NOARGS, "end($self, /)\n--\n\nReads the last line, if no LF ended it. It returns the same."},
    {0},
};

PyObject *type_of_lists(PyObject *module)
{
    PyType_Slot slots[] = {
        {Py_tp_doc, "ListState(hash)\n--\n\nA list of digests that is read. Untagged lines are of the hash of this "
                    "number, or with 0 malformed."},
        {Py_tp_init, init_list}, {Py_tp_methods, methods_of_lists}, {0},
    };
    PyType_Spec spec = {"sums_hash.ListState", sizeof(List), 0, Py_TPFLAGS_DEFAULT, slots};
    return PyType_FromModuleAndSpec(module, &spec, NULL);
}

// ---- writing

enum { MOST_NAME = 65536 };

// A line of a list, or of the report on one.
struct line {
    uint32_t number; // of the hash, or of the verdict
    int is_report, is_tagged;
    Py_buffer digest;
    const char *name;
    Py_ssize_t name_length;
};

#define NAME(line) (const uint8_t *)(line)->name, (size_t)(line)->name_length
#define DIGEST(line) (line)->digest.buf, (size_t)(line)->digest.len

static size_t length_of_line(const struct line *line)
{
    if (line->is_report) return sums_list_report_length(line->number, NAME(line));
    return sums_list_line_length(line->number, (uint32_t)line->is_tagged, (size_t)line->digest.len, NAME(line));
}

static uint32_t fill_line(const struct line *line, uint8_t *out, size_t length)
{
    memset(out, 0, length); // the library writes into initialised memory
    if (line->is_report) return sums_list_report(out, length, line->number, NAME(line));
    return sums_list_line(out, length, line->number, (uint32_t)line->is_tagged, DIGEST(line), NAME(line));
}

static struct bounds bounds_of_line(const struct line *line, uint32_t status)
{
    if (status != SUMS_DIGEST_LENGTH) return SAYS(NULL);
    const struct kind *kind = &kinds[SHA256 + line->number - SUMS_SHA256];
    size_t most = (size_t)kind->digest_size;
    if (!kind->salt_size) return SAYS("digest must be %zu bytes", most);
    return SAYS("digest must be between %zu and %zu bytes", 1, most);
}

// The bytes of the line. What has no line has a length of 0, and is refused.
static PyObject *written_line(PyObject *module, const struct line *line)
{
    size_t length = length_of_line(line);
    PyObject *bytes = PyBytes_FromStringAndSize(NULL, (Py_ssize_t)length);
    if (!bytes) return NULL;
    uint32_t status = fill_line(line, (uint8_t *)PyBytes_AsString(bytes), length);
    if (status == SUMS_OK) return bytes;
    refuse(module, status, bounds_of_line(line, status));
    Py_DECREF(bytes);
    return NULL;
}

// A name that is longer than that of any line is refused as one that has a byte more.
static int take_name(PyObject *name, struct line *line)
{
    line->name = PyUnicode_AsUTF8AndSize(name, &line->name_length);
    if (line->name && line->name_length > MOST_NAME) line->name_length = MOST_NAME + 1;
    return line->name ? 0 : -1;
}

static int take_number(PyObject *given, struct line *line)
{
    unsigned long long number;
    if (number_up_to(UINT32_MAX, given, &number) < 0) return -1;
    line->number = (uint32_t)number;
    return 0;
}

PyObject *list_line(PyObject *module, PyObject *args)
{
    PyObject *hash, *digest, *name;
    struct line line = {.is_report = 0};
    if (!PyArg_ParseTuple(args, "OpOO:list_line", &hash, &line.is_tagged, &digest, &name)) return NULL;
    if (take_number(hash, &line) < 0 || take_name(name, &line) < 0 || lend(digest, &line.digest) < 0) return NULL;
    PyObject *bytes = written_line(module, &line);
    PyBuffer_Release(&line.digest);
    return bytes;
}

PyObject *list_report(PyObject *module, PyObject *args)
{
    PyObject *verdict, *name;
    struct line line = {.is_report = 1};
    if (!PyArg_ParseTuple(args, "OO:list_report", &verdict, &name)) return NULL;
    return take_number(verdict, &line) < 0 || take_name(name, &line) < 0 ? NULL : written_line(module, &line);
}
