/* Words that come in buffers of numbers, as of array and numpy, and go into such ones, without an object for each.
 * While a buffer is lent here its owner can't change its size, and no Python code runs. */
#include <string.h>

#include "words.h"

/* How many pairs are taken at a time, of which the keys or the values are wanted. */
enum { PAGE = 256 };

static size_t width_of(const Words *self) { return self->is_map ? 2 : 1; }

/* Whether a buffer's items are 64-bit words of this machine, as the module struct tells formats. A long has as many
 * bits. */
static bool holds_words(const Py_buffer *view)
{
    const char *format = view->format ? view->format : "B";
    format += *format == '@' || *format == '=' || *format == '<';
    return view->itemsize == sizeof(uint64_t) && (*format == 'Q' || *format == 'L') && format[1] == 0;
}

static bool holds_bytes(const Py_buffer *view)
{
    const char *format = view->format ? view->format : "B";
    return view->itemsize == 1 && strchr("?Bbc", *format) && format[1] == 0;
}

/* Whether the items stand one behind the other, and each where C wants it. An empty buffer may be anywhere. */
static bool is_in_a_row(const Py_buffer *view)
{
    return PyBuffer_IsContiguous(view, 'C') && (view->len == 0 || (uintptr_t)view->buf % (uintptr_t)view->itemsize == 0);
}

static size_t count_of(const Py_buffer *view) { return (size_t)view->len / (size_t)view->itemsize; }

/* Lends a buffer of words of so many dimensions, the second of which has two places. */
static bool lend(PyObject *object, int dimensions, Py_buffer *view)
{
    if (!PyObject_CheckBuffer(object))
        return false;
    if (PyObject_GetBuffer(object, view, PyBUF_FULL_RO) < 0) {
        PyErr_Clear();
        return false;
    }
    if (view->ndim == dimensions && (dimensions == 1 || view->shape[1] == 2) && holds_words(view) && is_in_a_row(view))
        return true;
    PyBuffer_Release(view);
    return false;
}

bool lend_items(const Words *self, PyObject *object, Py_buffer *view) { return lend(object, (int)width_of(self), view); }

bool lend_list_of_words(PyObject *object, Py_buffer *view) { return lend(object, 1, view); }

/* Lends a list of words, or one of bytes, to be written or to be read; false with an error set where the object lends
 * no such one. */
static bool lend_list(PyObject *object, bool of_words, bool is_written, Py_buffer *view)
{
    if (PyObject_GetBuffer(object, view, PyBUF_FULL_RO) < 0)
        return false;
    if (view->ndim != 1 || !(of_words ? holds_words(view) : holds_bytes(view)))
        PyErr_Format(PyExc_TypeError, "a buffer of %s is needed, not one of %s", of_words ? "64-bit words" : "bytes", view->format ? view->format : "B");
    else if (is_written && view->readonly)
        PyErr_SetString(PyExc_TypeError, "a buffer is needed that can be written");
    else if (!is_in_a_row(view))
        PyErr_SetString(PyExc_ValueError, "the items of the buffer don't stand in a row");
    else
        return true;
    PyBuffer_Release(view);
    return false;
}

/* Lends two lists, of which the second is one of words, or one of bytes, and may be written; false with an error
 * set. */
static bool lend_two(PyObject *const *objects, bool of_words, bool is_written, Py_buffer *views)
{
    if (!lend_list(objects[0], true, false, &views[0]))
        return false;
    if (lend_list(objects[1], of_words, is_written, &views[1])) {
        const char *first = views[0].buf, *second = views[1].buf;
        bool overlap = is_written && first < second + views[1].len && second < first + views[0].len;
        if (!overlap && count_of(&views[0]) == count_of(&views[1]))
            return true;
        PyErr_SetString(PyExc_ValueError, overlap ? "the buffers overlap" : "the buffers have different lengths");
        PyBuffer_Release(&views[1]);
    }
    PyBuffer_Release(&views[0]);
    return false;
}

static void release_two(Py_buffer *views)
{
    PyBuffer_Release(&views[1]);
    PyBuffer_Release(&views[0]);
}

/* ---- in ---- */

/* Makes the array one of these items, and answers as the library does. */
static uint32_t make(Words *self, const uint64_t *items, size_t count, size_t *place)
{
    static const uint64_t none;
    uint32_t told = self->calls->from_sorted(&self->handle, count ? items : &none, count, place);
    count_changes(self, told == SELLUMAQ_ADDED, 0);
    return told;
}

static bool is_made(uint32_t told, size_t place)
{
    if (told == SELLUMAQ_BAD_KEY)
        raise_not_ascending(place);
    else if (told != SELLUMAQ_ADDED)
        PyErr_NoMemory();
    return told == SELLUMAQ_ADDED;
}

bool make_of(Words *self, const uint64_t *items, size_t count)
{
    size_t place = 0;
    uint32_t told = make(self, items, count, &place);
    return is_made(told, place);
}

/* How many items were put into an empty array at once, sorted first where they don't ascend: all or none. */
static size_t put_at_once(Words *self, const uint64_t *items, size_t count)
{
    size_t place;
    return make(self, items, count, &place) == SELLUMAQ_ADDED || make_unsorted(self, items, count) ? count : 0;
}

bool put_all(Words *self, const uint64_t *items, size_t count)
{
    size_t at = self->calls->len(&self->handle) == 0 ? put_at_once(self, items, count) : 0;
    while (at < count && put_words(self, items + at * width_of(self)))
        at++;
    return at == count;
}

/* Hands the pairs on whose keys stand in one buffer, and whose values in another. */
static PyObject *take_pairs(Words *self, PyObject *const *arguments, Py_ssize_t count, bool take(Words *, const uint64_t *, size_t))
{
    Py_buffer views[2];
    if (count != 2)
        return PyErr_Format(PyExc_TypeError, "a buffer of keys and one of values are needed");
    if (!lend_two(arguments, true, false, views))
        return NULL;
    const uint64_t *keys = views[0].buf, *values = views[1].buf;
    size_t room = 0, number = count_of(&views[0]);
    uint64_t *pairs = make_room(NULL, &room, number, sizeof(sellumaq_pair));
    for (size_t n = 0; pairs && n < number; n++) {
        pairs[2 * n] = keys[n];
        pairs[2 * n + 1] = values[n];
    }
    if (!pairs)
        PyErr_NoMemory();
    bool taken = pairs && take(self, pairs, number);
    PyMem_Free(pairs);
    release_two(views);
    if (!taken)
        return NULL;
    Py_RETURN_NONE;
}

PyObject *map_make_of(PyObject *self, PyObject *const *arguments, Py_ssize_t count)
{
    return take_pairs((Words *)self, arguments, count, make_of);
}

PyObject *map_fill_of(PyObject *self, PyObject *const *arguments, Py_ssize_t count)
{
    return take_pairs((Words *)self, arguments, count, put_all);
}

/* ---- out ---- */

/* Writes the keys or the values of a map, of which there is room for all. */
static void write_part(const Words *map, enum part part, uint64_t *words)
{
    sellumaq_pair pairs[PAGE];
    size_t count = sellumaq_judyl_walk(&map->handle.map, 0, pairs, PAGE);
    while (count > 0) {
        uint64_t last = pairs[count - 1].key;
        for (size_t n = 0; n < count; n++)
            *words++ = part == KEYS ? pairs[n].key : pairs[n].value;
        count = last == UINT64_MAX ? 0 : sellumaq_judyl_walk(&map->handle.map, last + 1, pairs, PAGE);
    }
}

PyObject *words_write(PyObject *object, PyObject *const *arguments, Py_ssize_t count)
{
    Words *self = (Words *)object;
    uint64_t part;
    Py_buffer view;
    if (count != 2 || !read_word(arguments[0], &part))
        return count == 2 ? NULL : PyErr_Format(PyExc_TypeError, "a part and a buffer are needed");
    if (!lend_list(arguments[1], true, true, &view))
        return NULL;
    size_t there = (size_t)self->calls->len(&self->handle), room = count_of(&view);
    if (there > room)
        PyErr_Format(PyExc_ValueError, "the buffer has room for %zu words, and %zu are needed", room, there);
    else if (self->is_map)
        write_part(self, (enum part)part, view.buf);
    else if (there > 0)
        sellumaq_judy1_walk(&self->handle.set, 0, view.buf, there);
    PyBuffer_Release(&view);
    return there > room ? NULL : make_word(there);
}

/* ---- look-ups ---- */

/* Tells of each key whether it is there, and how many are. */
static size_t write_whether(const Words *set, const uint64_t *keys, size_t count, bool *there)
{
    size_t found = 0;
    if (count > 0)
        sellumaq_judy1_test_many(&set->handle.set, keys, count, there, count);
    for (size_t n = 0; n < count; n++)
        found += there[n];
    return found;
}

/* Puts the value of each key that is there to the key's place, and tells how many these are. */
static size_t write_values(const Words *map, const uint64_t *keys, size_t count, uint64_t *values)
{
    sellumaq_found found[GROUP];
    size_t there = 0;
    for (size_t from = 0; from < count; from += GROUP) {
        size_t told = sellumaq_judyl_get_many(&map->handle.map, keys + from, count - from, found, GROUP);
        for (size_t n = 0; n < told; n++) {
            if (found[n].there)
                values[from + n] = found[n].value;
            there += found[n].there;
        }
    }
    return there;
}

PyObject *look_up_into(Words *self, PyObject *keys, PyObject *out)
{
    Py_buffer views[2];
    PyObject *const both[] = {keys, out};
    if (!lend_two(both, self->is_map, true, views))
        return NULL;
    size_t count = count_of(&views[0]);
    size_t there = self->is_map ? write_values(self, views[0].buf, count, views[1].buf) : write_whether(self, views[0].buf, count, views[1].buf);
    release_two(views);
    return make_word(there);
}
