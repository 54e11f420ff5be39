// SPDX-License-Identifier: MIT OR Apache-2.0
// The module: what it keeps, and what each version of CPython is told of it.
#include "native.h"

static int fill_module(PyObject *module)
{
    struct kept *kept = PyModule_GetState(module);
    kept->refused = class_of_refusals(module);
    if (!kept->refused || PyModule_AddType(module, (PyTypeObject *)kept->refused) < 0) return -1;
    for (int i = 0; i < KINDS; i++) {
        PyObject *type = type_of(module, &kinds[i]);
        int done = type && describe(type, &kinds[i]) == 0 ? PyModule_AddType(module, (PyTypeObject *)type) : -1;
        Py_XDECREF(type);
        if (done < 0) return -1;
    }
    PyObject *lists = type_of_lists(module);
    int done = lists ? PyModule_AddType(module, (PyTypeObject *)lists) : -1;
    Py_XDECREF(lists);
    return done;
}

static int visit_kept(PyObject *module, visitproc visit, void *arg)
{
    struct kept *kept = PyModule_GetState(module);
    Py_VISIT(kept->refused);
    return 0;
}

static void free_kept(void *module)
{
    struct kept *kept = PyModule_GetState(module);
    Py_CLEAR(kept->refused);
}

// The module keeps what it has to itself, so each interpreter may have one, even with a lock of its own. CPython asks
// from 3.12 on whether it may, by a slot that the headers of 3.11 have no name for and that 3.11 refuses.
enum { MULTIPLE_INTERPRETERS = 3 };       // Py_mod_multiple_interpreters
#define WITH_LOCKS_OF_THEIR_OWN (void *)2 // Py_MOD_PER_INTERPRETER_GIL_SUPPORTED

static PyModuleDef_Slot slots_of_3_11[] = {{Py_mod_exec, fill_module}, {0, NULL}};
static PyModuleDef_Slot slots_of_3_12[] = {
    {Py_mod_exec, fill_module}, {MULTIPLE_INTERPRETERS, WITH_LOCKS_OF_THEIR_OWN}, {0, NULL}};

#define MODULE(slots) \
    {PyModuleDef_HEAD_INIT, "sums_hash._native", "The hashes of libsums_hash.", sizeof(struct kept), functions, slots, \
     visit_kept, NULL, free_kept}
static struct PyModuleDef module_of_3_11 = MODULE(slots_of_3_11);
static struct PyModuleDef module_of_3_12 = MODULE(slots_of_3_12);

PyModuleDef *definition(void)
{
    return Py_Version < 0x030c0000 ? &module_of_3_11 : &module_of_3_12;
}

PyMODINIT_FUNC PyInit__native(void)
{
    return counts_no_forks ? PyErr_NoMemory() : PyModuleDef_Init(definition());
}
