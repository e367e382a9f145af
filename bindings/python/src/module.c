/* The module `sellumaq._native`: the types that the package's own stand on. */
#include "native.h"

Module *state_of(PyTypeObject *type)
{
    Module *state = PyType_GetModuleState(type);
    if (state && state->word_cursor && state->string_cursor)
        return state;
    PyErr_SetString(PyExc_RuntimeError, "the module sellumaq._native is gone");
    return NULL;
}

static int begin_module(PyObject *module)
{
    return add_word_cursor(module) < 0 || add_string_cursor(module) < 0 || add_words(module) < 0 || add_strings(module) < 0 ? -1 : 0;
}

static int traverse(PyObject *module, visitproc visit, void *arg)
{
    Module *state = PyModule_GetState(module);
    Py_VISIT((PyObject *)state->word_cursor);
    Py_VISIT((PyObject *)state->string_cursor);
    return 0;
}

static int clear(PyObject *module)
{
    Module *state = PyModule_GetState(module);
    Py_CLEAR(state->word_cursor);
    Py_CLEAR(state->string_cursor);
    return 0;
}

static PyModuleDef_Slot slots[] = {{Py_mod_exec, begin_module}, {0, NULL}};

static struct PyModuleDef definition = {
    PyModuleDef_HEAD_INIT,
    .m_name = "sellumaq._native",
    .m_doc = "Judy arrays by libsellumaq, which is part of this module.",
    .m_size = sizeof(Module),
    .m_slots = slots,
    .m_traverse = traverse,
    .m_clear = clear,
};

PyMODINIT_FUNC PyInit__native(void)
{
    return PyModuleDef_Init(&definition);
}
