/* Arrays of words that are filled by the items of an iterable: keys of a set, or pairs of a map. */
#include "words.h"

static size_t width_of(const Words *self) { return self->is_map ? 2 : 1; }

static bool is_empty(Words *self) { return self->calls->len(&self->handle) == 0; }

/* Whether a key is above all that were gathered. */
static bool is_next(const Words *self, const Gathered *gathered, uint64_t key)
{
    return gathered->count == 0 || key > gathered->words[(gathered->count - 1) * width_of(self)];
}

bool gather_words(const Words *self, Gathered *gathered, const uint64_t *item)
{
    size_t width = width_of(self);
    uint64_t *words = make_room(gathered->words, &gathered->room, gathered->count + 1, width * sizeof *words);
    if (!words)
        return false;
    gathered->words = words;
    for (size_t n = 0; n < width; n++)
        words[gathered->count * width + n] = item[n];
    gathered->count++;
    return true;
}

bool make_words(Words *self, const Gathered *gathered)
{
    static const uint64_t none;
    size_t place;
    bool made = self->calls->from_sorted(&self->handle, gathered->words ? gathered->words : &none, gathered->count, &place) == SELLUMAQ_ADDED;
    count_changes(self, made, 0);
    return made;
}

bool make_unsorted(Words *self, const uint64_t *items, size_t count)
{
    bool made = self->calls->from_unsorted(&self->handle, items, count) == SELLUMAQ_DONE;
    count_changes(self, made, 0);
    return made;
}

/* Reads a key, or a key and its value; false with an error set. */
static bool read_item(const Words *self, PyObject *object, uint64_t *item)
{
    if (!self->is_map)
        return read_word(object, &item[0]);
    PyObject *pair = make_pair(object);
    bool read = pair && read_word(PyTuple_GetItem(pair, 0), &item[0]) && read_word(PyTuple_GetItem(pair, 1), &item[1]);
    Py_XDECREF(pair);
    return read;
}

/* ---- from_sorted ---- */

static bool gather_object(const Words *self, Gathered *gathered, PyObject *object)
{
    uint64_t item[2];
    if (!read_item(self, object, item))
        return false;
    bool ascends = is_next(self, gathered, item[0]);
    if (ascends && gather_words(self, gathered, item))
        return true;
    if (ascends)
        PyErr_NoMemory();
    else
        raise_not_ascending(gathered->count);
    return false;
}

/* Hands on what a buffer of words has: true where the items are of one, and then an error may be set. */
static bool is_taken(Words *self, PyObject *items, bool take(Words *, const uint64_t *, size_t))
{
    Py_buffer view;
    if (!lend_items(self, items, &view))
        return false;
    take(self, view.buf, (size_t)view.len / (width_of(self) * sizeof(uint64_t)));
    PyBuffer_Release(&view);
    return true;
}

static PyObject *none_unless_error(void)
{
    if (PyErr_Occurred())
        return NULL;
    Py_RETURN_NONE;
}

PyObject *words_make(PyObject *self, PyObject *items)
{
    if (is_taken((Words *)self, items, make_of))
        return none_unless_error();
    PyObject *each = PyObject_GetIter(items), *object;
    if (!each)
        return NULL;
    Gathered gathered = {NULL, 0, 0};
    bool well = true;
    while (well && (object = PyIter_Next(each))) {
        well = gather_object((Words *)self, &gathered, object);
        Py_DECREF(object);
    }
    Py_DECREF(each);
    if (!PyErr_Occurred() && !make_words((Words *)self, &gathered))
        PyErr_NoMemory();
    PyMem_Free(gathered.words);
    return none_unless_error();
}

/* ---- maps of others' pairs ---- */

/* Puts a map that was made in place of what another held, where the call that made it says that it did. */
static PyObject *become(Words *self, uint32_t told, const sellumaq_judyl *made)
{
    if (told != SELLUMAQ_ADDED)
        return PyErr_NoMemory();
    sellumaq_judyl_free(&self->handle.map);
    self->handle.map = *made;
    count_changes(self, 1, 0);
    Py_RETURN_NONE;
}

PyObject *map_copy(PyObject *object, PyTypeObject *maps, PyObject *const *arguments, Py_ssize_t count,
                   PyObject *keywords)
{
    Words *self = (Words *)object, *other = (Words *)read_array(maps, arguments, count, keywords);
    sellumaq_judyl made = {0};
    return other ? become(self, sellumaq_judyl_copy(&made, &other->handle.map), &made) : NULL;
}

PyObject *map_join(PyObject *object, PyTypeObject *maps, PyObject *const *arguments, Py_ssize_t count,
                   PyObject *keywords)
{
    Words *self = (Words *)object, *other = (Words *)read_array(maps, arguments, count, keywords);
    sellumaq_judyl made = {0};
    if (!other)
        return NULL;
    if (other == self)
        Py_RETURN_NONE;
    return become(self, sellumaq_judyl_union(&made, &other->handle.map, &self->handle.map), &made);
}

/* ---- the constructors and update ---- */

/* Gathers an item; false where it can't be read without a call of others' code, or is none. */
static bool gather_plain(const Words *self, Gathered *gathered, PyObject *object)
{
    uint64_t item[2];
    bool is_plain = self->is_map ? PyTuple_CheckExact(object) && PyTuple_Size(object) == 2 && PyLong_CheckExact(PyTuple_GetItem(object, 0)) &&
                                       PyLong_CheckExact(PyTuple_GetItem(object, 1))
                                 : PyLong_CheckExact(object);
    if (!is_plain)
        return false;
    if (read_item(self, object, item))
        return gather_words(self, gathered, item);
    PyErr_Clear();
    return false;
}

/* Puts in what was gathered: at once into an empty array, if there is memory for that, else one by one, up to an item
 * that there is none for. False with an error set then. */
static bool put_gathered(Words *self, const Gathered *gathered)
{
    if (gathered->count == 0)
        return true;
    if (is_empty(self) && (make_words(self, gathered) || make_unsorted(self, gathered->words, gathered->count)))
        return true;
    bool put = true;
    for (size_t n = 0; put && n < gathered->count; n++)
        put = put_words(self, &gathered->words[n * width_of(self)]);
    return put;
}

/* Puts the items that an iterator begins with into an empty array at once, sorted first where they don't ascend. Nobody
 * can tell: no code but our own and Python's runs from the first to the last. Answers the next item; NULL where none is
 * left, or with an error set. */
static PyObject *begin(Words *self, PyObject *each)
{
    Gathered gathered = {NULL, 0, 0};
    PyObject *item = PyIter_Next(each);
    bool gathers = is_empty(self) && is_plain_iterator(each);
    while (gathers && item && gather_plain(self, &gathered, item)) {
        Py_DECREF(item);
        item = PyIter_Next(each);
    }
    if (!put_gathered(self, &gathered))
        Py_CLEAR(item);
    PyMem_Free(gathered.words);
    return item;
}

/* Puts an object in. Where it can't be, that is an error, or, if such ones are passed over, nothing. */
static bool put_object(Words *self, PyObject *object, bool passes_over)
{
    uint64_t item[2];
    int could_be = passes_over ? read_key(object, item) : read_item(self, object, item) ? 1 : -1;
    return could_be == 1 ? put_words(self, item) : could_be == 0;
}

static PyObject *fill(PyObject *object, PyObject *items, bool passes_over)
{
    Words *self = (Words *)object;
    if (is_taken(self, items, put_all))
        return none_unless_error();
    PyObject *each = PyObject_GetIter(items);
    if (!each)
        return NULL;
    bool put = true;
    for (PyObject *item = begin(self, each); item; item = put ? PyIter_Next(each) : NULL) {
        put = put_object(self, item, passes_over);
        Py_DECREF(item);
    }
    Py_DECREF(each);
    return none_unless_error();
}

PyObject *words_fill(PyObject *self, PyObject *items) { return fill(self, items, false); }
PyObject *set_pick(PyObject *self, PyObject *items) { return fill(self, items, true); }
