/* Maps from strings in order that are filled by the pairs of an iterable. */
#include <string.h>

#include "strings.h"

/* Pairs whose keys ascend: the keys one behind the other, and the length and the value of each. */
typedef struct {
    uint8_t *bytes;
    sellumaq_entry *entries;
    size_t length; /* of all keys */
    size_t room;   /* for so many bytes */
    size_t count;
    size_t places; /* for so many pairs */
} Gathered;

static void forget(Gathered *gathered)
{
    PyMem_Free(gathered->bytes);
    PyMem_Free(gathered->entries);
}

static bool is_empty(Strings *self) { return self->calls->len(&self->handle) == 0; }

/* Whether a key is above all that were gathered. */
static bool is_next(const Gathered *gathered, const Key *key)
{
    if (gathered->count == 0)
        return true;
    size_t length = gathered->entries[gathered->count - 1].length;
    int order = memcmp(gathered->bytes + gathered->length - length, key->bytes, length < key->length ? length : key->length);
    return order < 0 || (order == 0 && length < key->length);
}

/* Puts a pair behind the others; false where there is no memory. */
static bool gather(Gathered *gathered, const Key *key, uint64_t value)
{
    uint8_t *bytes = make_room(gathered->bytes, &gathered->room, gathered->length + key->length, sizeof *bytes);
    if (!bytes)
        return false;
    gathered->bytes = bytes;
    sellumaq_entry *entries = make_room(gathered->entries, &gathered->places, gathered->count + 1, sizeof *entries);
    if (!entries)
        return false;
    gathered->entries = entries;
    memcpy(bytes + gathered->length, key->bytes, key->length);
    gathered->length += key->length;
    entries[gathered->count++] = (sellumaq_entry){key->length, value};
    return true;
}

/* Makes the map one of what was gathered, and answers as the library does; unless it is SELLUMAQ_ADDED the map is as it
 * was. */
static uint32_t make(Strings *self, const Gathered *gathered)
{
    static const uint8_t no_bytes;
    static const sellumaq_entry no_entries;
    size_t place;
    note_change(self, true);
    return sellumaq_judysl_from_sorted(&self->handle.strings, gathered->bytes ? gathered->bytes : &no_bytes, gathered->length,
                                       gathered->entries ? gathered->entries : &no_entries, gathered->count, &place);
}

static bool is_key(const Key *key) { return could_be_key(key->bytes, key->length) == key->length; }

/* ---- from_sorted ---- */

static bool gather_key(Gathered *gathered, const Key *key, uint64_t value, PyObject *object)
{
    if (!is_key(key))
        raise_bad_key(object);
    else if (!is_next(gathered, key))
        raise_not_ascending(gathered->count);
    else if (gather(gathered, key, value))
        return true;
    else
        PyErr_NoMemory();
    return false;
}

static bool gather_object(const Strings *self, Gathered *gathered, PyObject *object)
{
    Key key;
    uint64_t value;
    PyObject *pair = make_pair(object);
    bool well = pair && read_word(PyTuple_GetItem(pair, 1), &value) && read_string(self, PyTuple_GetItem(pair, 0), &key);
    if (well) {
        well = gather_key(gathered, &key, value, PyTuple_GetItem(pair, 0));
        Py_XDECREF(key.owner);
    }
    Py_XDECREF(pair);
    return well;
}

PyObject *strings_make(PyObject *self, PyObject *pairs)
{
    PyObject *each = PyObject_GetIter(pairs), *object;
    if (!each)
        return NULL;
    Gathered gathered = {NULL, NULL, 0, 0, 0, 0};
    bool well = true;
    while (well && (object = PyIter_Next(each))) {
        well = gather_object((Strings *)self, &gathered, object);
        Py_DECREF(object);
    }
    Py_DECREF(each);
    bool made = !PyErr_Occurred() && is_put(make((Strings *)self, &gathered));
    forget(&gathered);
    if (!made)
        return NULL;
    Py_RETURN_NONE;
}

/* ---- maps of others' pairs ---- */

/* Puts a map that was made in place of what another held, where the call that made it says that it did. */
static PyObject *become(Strings *self, uint32_t told, const sellumaq_judysl *made)
{
    if (!is_put(told))
        return NULL;
    sellumaq_judysl_free(&self->handle.strings);
    self->handle.strings = *made;
    note_change(self, true);
    Py_RETURN_NONE;
}

PyObject *strings_copy(PyObject *object, PyTypeObject *maps, PyObject *const *arguments, Py_ssize_t count,
                       PyObject *keywords)
{
    Strings *self = (Strings *)object, *other = (Strings *)read_array(maps, arguments, count, keywords);
    sellumaq_judysl made = {0};
    return other ? become(self, sellumaq_judysl_copy(&made, &other->handle.strings), &made) : NULL;
}

PyObject *strings_join(PyObject *object, PyTypeObject *maps, PyObject *const *arguments, Py_ssize_t count,
                       PyObject *keywords)
{
    Strings *self = (Strings *)object, *other = (Strings *)read_array(maps, arguments, count, keywords);
    sellumaq_judysl made = {0};
    if (!other)
        return NULL;
    if (other == self)
        Py_RETURN_NONE;
    return become(self, sellumaq_judysl_union(&made, &other->handle.strings, &self->handle.strings), &made);
}

/* ---- the constructors and update ---- */

/* Gathers a pair that may be the next one; false where it can't be read without a call of others' code, or is none. */
static bool gather_plain(const Strings *self, Gathered *gathered, PyObject *object)
{
    Key key;
    uint64_t value;
    if (!PyTuple_CheckExact(object) || PyTuple_Size(object) != 2)
        return false;
    PyObject *string = PyTuple_GetItem(object, 0), *number = PyTuple_GetItem(object, 1);
    if (!PyLong_CheckExact(number) || !(self->is_text ? PyUnicode_CheckExact(string) : PyBytes_CheckExact(string)))
        return false;
    if (!read_word(number, &value) || !read_string(self, string, &key)) {
        PyErr_Clear();
        return false;
    }
    bool gathers = is_key(&key) && is_next(gathered, &key) && gather(gathered, &key, value);
    Py_XDECREF(key.owner);
    return gathers;
}

/* Puts in what was gathered: at once into an empty map, if there is memory for that, else one by one, up to a key that
 * there is none for. False with an error set then. */
static bool put_gathered(Strings *self, const Gathered *gathered)
{
    if (gathered->count == 0 || (is_empty(self) && make(self, gathered) == SELLUMAQ_ADDED))
        return true;
    const uint8_t *bytes = gathered->bytes;
    for (size_t n = 0; n < gathered->count; n++) {
        const sellumaq_entry *entry = &gathered->entries[n];
        if (!is_put(put_string(self, bytes, entry->length, entry->value)))
            return false;
        bytes += entry->length;
    }
    return true;
}

/* Nobody can tell that the pairs come at once: no code but our own and Python's runs from the first to the last. */
PyObject *strings_begin(PyObject *object, PyObject *pairs)
{
    Strings *self = (Strings *)object;
    PyObject *each = PyObject_GetIter(pairs), *pair = NULL;
    if (!each)
        return NULL;
    Gathered gathered = {NULL, NULL, 0, 0, 0, 0};
    bool gathers = is_empty(self) && puts_itself(self) && is_plain_iterator(each);
    while (gathers && (pair = PyIter_Next(each)) && gather_plain(self, &gathered, pair))
        Py_CLEAR(pair);
    Py_DECREF(each);
    put_gathered(self, &gathered);
    forget(&gathered);
    PyObject *left = PyErr_Occurred() ? NULL : pair ? PyTuple_Pack(1, pair) : PyTuple_New(0);
    Py_XDECREF(pair);
    return left;
}
