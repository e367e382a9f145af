/* Keys of words that are looked up many at a time. */
#include <string.h>

#include "words.h"

bool append_new(PyObject *list, PyObject *object)
{
    bool put = object && PyList_Append(list, object) == 0;
    Py_XDECREF(object);
    return put;
}

/* Puts a key into a group that isn't full; false with an error set. */
static bool wait_for(Group *group, PyObject *key)
{
    int at = group->count++;
    group->keys[at] = 0;
    int could_be = read_key(key, &group->keys[at]);
    group->could_be[at] = could_be == 1;
    return could_be >= 0;
}

static PyObject *list_each(Words *self, PyObject *keys, Append *append_told)
{
    Group group = {.count = 0};
    PyObject *each = PyObject_GetIter(keys), *told = each ? PyList_New(0) : NULL, *key;
    bool well = told;
    while (well && (key = PyIter_Next(each))) {
        well = wait_for(&group, key);
        if (well && group.count == GROUP) {
            well = append_told(self, &group, told);
            group.count = 0;
        }
        Py_DECREF(key);
    }
    Py_XDECREF(each);
    if (!well || PyErr_Occurred() || !append_told(self, &group, told))
        Py_CLEAR(told);
    return told;
}

/* The same of keys that stand in a row. */
static PyObject *list_row(Words *self, const uint64_t *keys, size_t count, Append *append_told)
{
    Group group;
    PyObject *told = PyList_New(0);
    memset(group.could_be, true, sizeof group.could_be);
    for (size_t from = 0; told && from < count; from += GROUP) {
        group.count = (int)(count - from < GROUP ? count - from : GROUP);
        memcpy(group.keys, keys + from, (size_t)group.count * sizeof *keys);
        if (!append_told(self, &group, told))
            Py_CLEAR(told);
    }
    return told;
}

/* The `out` that is given behind the keys, by its name: NULL where none is, or with an error set. */
static PyObject *read_out(PyObject *const *arguments, Py_ssize_t count, PyObject *keywords)
{
    Py_ssize_t named = keywords ? PyTuple_Size(keywords) : 0;
    bool is_out = named == 1 && PyUnicode_CompareWithASCIIString(PyTuple_GetItem(keywords, 0), "out") == 0;
    if (count != 1 || (named > 0 && !is_out))
        return PyErr_Format(PyExc_TypeError, "keys are needed, and perhaps a buffer `out`");
    return is_out && arguments[1] != Py_None ? arguments[1] : NULL;
}

PyObject *look_up_many(PyObject *object, PyObject *const *arguments, Py_ssize_t count, PyObject *keywords, Append *append_told)
{
    Words *self = (Words *)object;
    Py_buffer view;
    PyObject *out = read_out(arguments, count, keywords);
    if (out)
        return look_up_into(self, arguments[0], out);
    if (PyErr_Occurred())
        return NULL;
    if (!lend_list_of_words(arguments[0], &view))
        return list_each(self, arguments[0], append_told);
    PyObject *told = list_row(self, view.buf, (size_t)view.len / sizeof(uint64_t), append_told);
    PyBuffer_Release(&view);
    return told;
}
