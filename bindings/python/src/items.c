/* The items that arrays are filled with, and the lists that they are gathered in. */
#include "native.h"

PyObject *read_array(PyTypeObject *type, PyObject *const *arguments, Py_ssize_t count, PyObject *keywords)
{
    if (count == 1 && !keywords && PyObject_TypeCheck(arguments[0], type))
        return arguments[0];
    return PyErr_Format(PyExc_TypeError, "an array of the same kind is needed");
}

PyObject *make_pair(PyObject *object)
{
    PyObject *pair = PySequence_Tuple(object);
    if (!pair || PyTuple_Size(pair) == 2)
        return pair;
    PyErr_Format(PyExc_ValueError, "a pair is needed, not %zd objects", PyTuple_Size(pair));
    Py_DECREF(pair);
    return NULL;
}

bool is_plain_iterator(PyObject *each)
{
    const PyTypeObject *const plain[] = {
        &PyListIter_Type,    &PyTupleIter_Type,     &PyRangeIter_Type,    &PyLongRangeIter_Type,
        &PyDictIterKey_Type, &PyDictIterValue_Type, &PyDictIterItem_Type, &PySetIter_Type,
    };
    for (size_t n = 0; n < sizeof plain / sizeof *plain; n++)
        if (Py_TYPE(each) == plain[n])
            return true;
    return is_word_cursor(each) || is_string_cursor(each);
}

void *make_room(void *list, size_t *room, size_t needed, size_t size)
{
    enum { LEAST = 64 };
    if (list && needed <= *room)
        return list;
    size_t twice = 2 * *room > LEAST ? 2 * *room : LEAST, more = needed > twice ? needed : twice;
    list = PyMem_Realloc(list, more * size);
    if (list)
        *room = more;
    return list;
}

void raise_not_ascending(size_t place)
{
    PyErr_Format(PyExc_ValueError, "the key at place %zu isn't above the one before it", place);
}
