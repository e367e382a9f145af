/* Between Python's objects and words. */
#include "native.h"

enum side read_number(PyObject *number, uint64_t *word)
{
    PyObject *index = PyNumber_Index(number);
    if (!index)
        return NO_NUMBER;
    enum side side = WITHIN;
    *word = PyLong_AsUnsignedLongLong(index);
    if (*word == UINT64_MAX && PyErr_Occurred()) {
        int overflow = 0;
        PyErr_Clear();
        long long small = PyLong_AsLongLongAndOverflow(index, &overflow);
        side = overflow < 0 || (overflow == 0 && small < 0) ? BELOW : ABOVE;
    }
    Py_DECREF(index);
    return side;
}

bool read_word(PyObject *object, uint64_t *word)
{
    switch (read_number(object, word)) {
    case WITHIN:
        return true;
    case NO_NUMBER:
        return false;
    default:
        PyErr_Format(PyExc_ValueError, "not a word of 64 bits: %R", object);
        return false;
    }
}

int read_key(PyObject *object, uint64_t *word)
{
    if (!PyIndex_Check(object))
        return 0;
    enum side side = read_number(object, word);
    return side == NO_NUMBER ? -1 : side == WITHIN;
}

void raise_key_error(PyObject *key)
{
    PyObject *arguments = PyTuple_Pack(1, key);
    if (arguments) {
        PyErr_SetObject(PyExc_KeyError, arguments);
        Py_DECREF(arguments);
    }
}

PyObject *answer_missing(PyObject *map, PyObject *key)
{
    PyObject *missing = PyObject_GetAttrString((PyObject *)Py_TYPE(map), "__missing__"), *told = NULL;
    if (missing)
        told = PyObject_CallFunctionObjArgs(missing, map, key, NULL);
    else if (PyErr_ExceptionMatches(PyExc_AttributeError)) {
        PyErr_Clear();
        raise_key_error(key);
    }
    Py_XDECREF(missing);
    return told;
}

PyObject *raise_no_place(PyObject *place)
{
    PyErr_Format(PyExc_IndexError, "no key at place %R", place);
    return NULL;
}

PyObject *make_part(enum part part, PyObject *key, uint64_t value)
{
    if (part == KEYS || !key)
        return key;
    PyObject *number = make_word(value);
    if (part == VALUES || !number) {
        Py_DECREF(key);
        return number;
    }
    PyObject *pair = PyTuple_New(2);
    if (!pair) {
        Py_DECREF(key);
        Py_DECREF(number);
        return NULL;
    }
    PyTuple_SetItem(pair, 0, key);
    PyTuple_SetItem(pair, 1, number);
    return pair;
}

PyObject *size_with(PyObject *object, uint64_t held)
{
    PyObject *own = PyObject_CallMethod((PyObject *)&PyBaseObject_Type, "__sizeof__", "O", object);
    if (!own)
        return NULL;
    size_t bytes = PyLong_AsSize_t(own);
    Py_DECREF(own);
    return PyErr_Occurred() ? NULL : make_word(bytes + held);
}

bool has_default(const char *name, Py_ssize_t count, Py_ssize_t most)
{
    if (count >= 1 && count <= most)
        return true;
    PyErr_Format(PyExc_TypeError, "%s expected 1 to %zd arguments, got %zd", name, most, count);
    return false;
}
