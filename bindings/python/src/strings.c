/* `TextMap`, `BytesMap`, `TextHash` and `BytesHash`, which JudySL, JudySLBytes, JudyHS and JudyHSBytes stand on. */
#include <string.h>

#include "strings.h"

static int judysl_has_text(const Handle *handle) { return map_has_text(&handle->strings); }
static int judyhs_has_text(const Handle *handle) { return hash_has_text(&handle->hashed); }

#define STRING_CALLS(kind, member)                                                                                  \
    static uint32_t kind##_put(Handle *handle, const uint8_t *key, size_t length, uint64_t value)                    \
    {                                                                                                                \
        return sellumaq_##kind##_put(&handle->member, key, length, value);                                           \
    }                                                                                                                \
    static bool kind##_get(Handle *handle, const uint8_t *key, size_t length, uint64_t *value)                       \
    {                                                                                                                \
        return sellumaq_##kind##_get(&handle->member, key, length, value);                                           \
    }                                                                                                                \
    static bool kind##_remove(Handle *handle, const uint8_t *key, size_t length, uint64_t *value)                    \
    {                                                                                                                \
        return sellumaq_##kind##_remove(&handle->member, key, length, value);                                        \
    }                                                                                                                \
    static uint64_t kind##_len(Handle *handle) { return sellumaq_##kind##_len(&handle->member); }                    \
    static uint64_t kind##_bytes(Handle *handle) { return sellumaq_##kind##_bytes(&handle->member); }                \
    static void kind##_shrink(Handle *handle) { sellumaq_##kind##_shrink(&handle->member); }                         \
    static uint64_t kind##_free(Handle *handle) { return sellumaq_##kind##_free(&handle->member); }                  \
    static const StringCalls kind##_calls = {kind##_put,    kind##_get,  kind##_remove, kind##_len,     kind##_bytes, \
                                             kind##_shrink, kind##_free, &kind##_saved, kind##_has_text};

STRING_CALLS(judysl, strings)
STRING_CALLS(judyhs, hashed)

static bool set_key(Key *key, PyObject *bytes)
{
    char *start;
    Py_ssize_t length;
    if (!bytes || PyBytes_AsStringAndSize(bytes, &start, &length) < 0) {
        Py_XDECREF(bytes);
        return false;
    }
    key->owner = bytes;
    key->bytes = (const uint8_t *)start;
    key->length = (size_t)length;
    return true;
}

static bool read_text(PyObject *object, Key *key)
{
    if (!PyUnicode_Check(object)) {
        PyErr_Format(PyExc_TypeError, "not a str: %R", object);
        return false;
    }
    return set_key(key, PyUnicode_AsEncodedString(object, "utf-8", "surrogatepass"));
}

static bool read_bytes(PyObject *object, Key *key)
{
    Py_buffer view;
    if (PyBytes_Check(object))
        return set_key(key, Py_NewRef(object));
    if (PyObject_GetBuffer(object, &view, PyBUF_SIMPLE) < 0)
        return false;
    bool read = true;
    if ((size_t)view.len > sizeof key->copy)
        read = set_key(key, PyBytes_FromStringAndSize(view.buf, view.len));
    else {
        key->owner = NULL;
        key->bytes = key->copy;
        key->length = (size_t)view.len;
        memcpy(key->copy, view.buf, key->length);
    }
    PyBuffer_Release(&view);
    return read;
}

bool read_string(const Strings *self, PyObject *object, Key *key)
{
    return self->is_text ? read_text(object, key) : read_bytes(object, key);
}

/* The bytes of a key that is looked for: 1, 0 where the object can't be one, -1 with an error set. */
static int find_string(const Strings *self, PyObject *object, Key *key)
{
    if (self->is_text ? !PyUnicode_Check(object) : !PyObject_CheckBuffer(object))
        return 0;
    return read_string(self, object, key) ? 1 : -1;
}

void note_change(Strings *self, bool of_keys)
{
    self->changes.keys += of_keys;
    self->changes.all++;
}

uint32_t put_string(Strings *self, const uint8_t *key, size_t length, uint64_t value)
{
    uint32_t told = self->calls->put(&self->handle, key, length, value);
    if (told == SELLUMAQ_ADDED || told == SELLUMAQ_PRESENT)
        note_change(self, told == SELLUMAQ_ADDED);
    return told;
}

/* Reads a key's value, and takes the key out if that is wanted: 1, 0 where it isn't there, -1 with an error set. */
static int find_value(Strings *self, PyObject *object, uint64_t *value, bool take_out)
{
    Key key;
    int found = find_string(self, object, &key);
    if (found != 1)
        return found;
    found = (take_out ? self->calls->remove : self->calls->get)(&self->handle, key.bytes, key.length, value);
    if (take_out && found)
        note_change(self, true);
    Py_XDECREF(key.owner);
    return found;
}

void raise_bad_key(PyObject *object)
{
    PyErr_Format(PyExc_ValueError, "a zero byte in a key: %R", object);
}

bool is_put(uint32_t told)
{
    if (told == SELLUMAQ_PRESENT || told == SELLUMAQ_ADDED)
        return true;
    if (told == SELLUMAQ_FULL)
        PyErr_SetString(PyExc_OverflowError, "the dict is full");
    else
        PyErr_NoMemory();
    return false;
}

static bool put_value(Strings *self, PyObject *object, PyObject *value)
{
    Key key;
    uint64_t number;
    if (!read_word(value, &number) || !read_string(self, object, &key))
        return false;
    uint32_t told = put_string(self, key.bytes, key.length, number);
    Py_XDECREF(key.owner);
    if (told == SELLUMAQ_BAD_KEY)
        raise_bad_key(object);
    return told != SELLUMAQ_BAD_KEY && is_put(told);
}

/* ---- Python's calls ---- */

static PyObject *new_strings(PyTypeObject *type, const StringCalls *calls, bool is_text)
{
    allocfunc allocate = (allocfunc)PyType_GetSlot(type, Py_tp_alloc);
    Strings *self = (Strings *)allocate(type, 0);
    if (self) {
        self->calls = calls;
        self->is_text = is_text;
    }
    return (PyObject *)self;
}

#define NEW(name, calls, is_text)                                                                      \
    static PyObject *name(PyTypeObject *type, PyObject *Py_UNUSED(args), PyObject *Py_UNUSED(keywords)) \
    {                                                                                                  \
        return new_strings(type, &calls, is_text);                                                     \
    }
NEW(new_text_map, judysl_calls, true)
NEW(new_bytes_map, judysl_calls, false)
NEW(new_text_hash, judyhs_calls, true)
NEW(new_bytes_hash, judyhs_calls, false)

static void strings_dealloc(PyObject *object)
{
    PyTypeObject *type = Py_TYPE(object);
    Strings *self = (Strings *)object;
    forget_ahead(self);
    self->calls->free(&self->handle);
    ((freefunc)PyType_GetSlot(type, Py_tp_free))(object);
    Py_DECREF((PyObject *)type);
}

static Py_ssize_t strings_len(PyObject *object)
{
    Strings *self = (Strings *)object;
    return (Py_ssize_t)self->calls->len(&self->handle);
}

static PyObject *strings_sizeof(PyObject *object, PyObject *Py_UNUSED(none))
{
    Strings *self = (Strings *)object;
    return size_with(object, self->calls->bytes(&self->handle));
}

static int strings_contains(PyObject *self, PyObject *key)
{
    uint64_t value;
    return find_value((Strings *)self, key, &value, false);
}

static PyObject *strings_item(PyObject *self, PyObject *key)
{
    uint64_t value;
    int found = find_value((Strings *)self, key, &value, false);
    if (found < 0)
        return NULL;
    return found ? make_word(value) : answer_missing(self, key);
}

static int strings_set_item(PyObject *object, PyObject *key, PyObject *value)
{
    uint64_t old;
    if (value)
        return put_value((Strings *)object, key, value) ? 0 : -1;
    int found = find_value((Strings *)object, key, &old, true);
    if (found == 0)
        raise_key_error(key);
    return found == 1 ? 0 : -1;
}

bool puts_itself(const Strings *map) { return PyType_GetSlot(Py_TYPE((PyObject *)map), Py_mp_ass_subscript) == (void *)strings_set_item; }

static PyObject *strings_clear(PyObject *object, PyObject *Py_UNUSED(none))
{
    Strings *self = (Strings *)object;
    forget_ahead(self);
    note_change(self, true);
    self->calls->free(&self->handle);
    Py_RETURN_NONE;
}

static PyObject *strings_shrink(PyObject *object, PyObject *Py_UNUSED(none))
{
    Strings *self = (Strings *)object;
    self->calls->shrink(&self->handle);
    Py_RETURN_NONE;
}

/* Makes the map one that was loaded, unless its keys must be str and one isn't. */
static PyObject *become(Strings *self, Handle made)
{
    int is_well = self->is_text ? self->calls->has_text(&made) : 1;
    if (is_well == 1) {
        forget_ahead(self);
        note_change(self, true);
        self->calls->free(&self->handle);
        self->handle = made;
        Py_RETURN_NONE;
    }
    self->calls->free(&made);
    if (is_well < 0)
        return PyErr_NoMemory();
    PyErr_SetString(PyExc_ValueError, "not-text: the bytes of a key are no str in UTF-8");
    return NULL;
}

static PyObject *strings_tobytes(PyObject *object, PyObject *arguments, PyObject *keywords)
{
    Strings *self = (Strings *)object;
    return dump_array(&self->handle, self->calls->saved, arguments, keywords);
}

static PyObject *strings_frombytes(PyObject *object, PyObject *lent)
{
    Strings *self = (Strings *)object;
    Handle made;
    return load_array(self->calls->saved, lent, &made) ? become(self, made) : NULL;
}

static PyObject *strings_save(PyObject *object, PyObject *path)
{
    Strings *self = (Strings *)object;
    return save_array(&self->handle, self->calls->saved, path);
}

static PyObject *strings_load(PyObject *object, PyObject *path)
{
    Strings *self = (Strings *)object;
    Handle made;
    return open_array(self->calls->saved, path, &made) ? become(self, made) : NULL;
}

static PyObject *strings_get(PyObject *self, PyObject *const *arguments, Py_ssize_t count)
{
    uint64_t value;
    if (!has_default("get", count, 2))
        return NULL;
    int found = find_value((Strings *)self, arguments[0], &value, false);
    if (found < 0)
        return NULL;
    return found ? make_word(value) : Py_NewRef(count == 2 ? arguments[1] : Py_None);
}

static PyObject *strings_pop(PyObject *self, PyObject *const *arguments, Py_ssize_t count)
{
    uint64_t value;
    if (!has_default("pop", count, 2))
        return NULL;
    int found = find_value((Strings *)self, arguments[0], &value, true);
    if (found == 1)
        return make_word(value);
    if (found == 0 && count == 2)
        return Py_NewRef(arguments[1]);
    if (found == 0)
        raise_key_error(arguments[0]);
    return NULL;
}

static bool are_bytes(PyObject *object)
{
    if (!PyBytes_Check(object))
        PyErr_Format(PyExc_TypeError, "not bytes: %R", object);
    return PyBytes_Check(object);
}

/* _cursor(part, low, high, reverse): a bound is bytes or None, and included. */
static PyObject *cursor(PyObject *self, PyTypeObject *defining, PyObject *const *arguments, Py_ssize_t count, PyObject *keywords)
{
    uint64_t part;
    if (count != 4 || keywords) {
        PyErr_SetString(PyExc_TypeError, "_cursor takes a part, two bounds and whether it goes down");
        return NULL;
    }
    if (!read_word(arguments[0], &part))
        return NULL;
    PyObject *bounds[2];
    for (int n = 0; n < 2; n++) {
        bounds[n] = arguments[n + 1] == Py_None ? NULL : arguments[n + 1];
        if (bounds[n] && !are_bytes(bounds[n]))
            return NULL;
    }
    int reverse = PyObject_IsTrue(arguments[3]);
    if (reverse < 0)
        return NULL;
    if (part > ITEMS) {
        PyErr_SetString(PyExc_ValueError, "no such part");
        return NULL;
    }
    Module *state = state_of(defining);
    return !state ? NULL : new_string_cursor(state->string_cursor, (Strings *)self, (enum part)part, bounds[0], bounds[1], reverse);
}

static PyObject *with_prefix(PyObject *self, PyTypeObject *defining, PyObject *const *arguments, Py_ssize_t count, PyObject *keywords)
{
    if (count != 1 || keywords)
        return PyErr_Format(PyExc_TypeError, "_with_prefix takes a prefix");
    Module *state = are_bytes(arguments[0]) ? state_of(defining) : NULL;
    return !state ? NULL : new_prefix_cursor(state->string_cursor, (Strings *)self, arguments[0]);
}

/* How many keys there are below a string, or up to it. */
static PyObject *bisect(PyObject *object, PyObject *string, bool with_itself)
{
    Strings *self = (Strings *)object;
    Key key;
    uint64_t value;
    if (!read_string(self, string, &key))
        return NULL;
    size_t length = could_be_key(key.bytes, key.length);
    uint64_t count = sellumaq_judysl_count(&self->handle.strings, (const uint8_t *)"", 0, key.bytes, length);
    if (!with_itself && length == key.length && self->calls->get(&self->handle, key.bytes, length, &value))
        count--;
    Py_XDECREF(key.owner);
    return make_word(count);
}

static PyObject *bisect_left(PyObject *self, PyObject *string) { return bisect(self, string, false); }
static PyObject *bisect_right(PyObject *self, PyObject *string) { return bisect(self, string, true); }

/* Bytes as C takes them; false with an error set where an object is none. */
static bool read_own_bytes(PyObject *object, const uint8_t **bytes, size_t *length)
{
    char *start;
    Py_ssize_t count;
    if (PyBytes_AsStringAndSize(object, &start, &count) < 0)
        return false;
    *bytes = (const uint8_t *)start;
    *length = (size_t)count;
    return true;
}

/* Notes how many keys went; MemoryError where memory was wanted for that, and none did. */
static PyObject *tell_gone(Strings *self, uint64_t gone)
{
    if (gone == UINT64_MAX)
        return PyErr_NoMemory();
    if (gone > 0)
        note_change(self, true);
    return make_word(gone);
}

static PyObject *remove_range(PyObject *object, PyObject *const *arguments, Py_ssize_t count)
{
    const uint8_t *ends[2];
    size_t lengths[2];
    if (count != 2)
        return PyErr_Format(PyExc_TypeError, "two strings are needed");
    for (int n = 0; n < 2; n++)
        if (!read_own_bytes(arguments[n], &ends[n], &lengths[n]))
            return NULL;
    Strings *self = (Strings *)object;
    return tell_gone(self, sellumaq_judysl_remove_range(&self->handle.strings, ends[0], lengths[0], ends[1], lengths[1]));
}

static PyObject *longest_prefix(PyObject *object, PyObject *string)
{
    const uint8_t *bytes;
    size_t length, prefix;
    uint64_t value;
    Strings *self = (Strings *)object;
    if (!read_own_bytes(string, &bytes, &length))
        return NULL;
    return sellumaq_judysl_longest_prefix(&self->handle.strings, bytes, length, &prefix, &value) ? PyLong_FromSize_t(prefix) : Py_NewRef(Py_None);
}

static PyObject *remove_prefix(PyObject *object, PyObject *prefix)
{
    const uint8_t *bytes;
    size_t length;
    Strings *self = (Strings *)object;
    return read_own_bytes(prefix, &bytes, &length) ? tell_gone(self, sellumaq_judysl_remove_prefix(&self->handle.strings, bytes, length)) : NULL;
}

/* Finds the n-th key, counted from 1, and its value, as the library does; SELLUMAQ_TOO_SMALL with an error set where
 * there is no memory for it. */
static uint32_t find_nth(const Strings *self, uint64_t n, Found *key, uint64_t *value)
{
    uint32_t told;
    do
        told = sellumaq_judysl_by_count(&self->handle.strings, n, key->bytes, key->room, &key->length, value);
    while (told == SELLUMAQ_TOO_SMALL && widen_found(key, *value));
    return told;
}

/* The key at a place, which counts from the end where it is negative, or the pair; IndexError where there is none. */
static PyObject *part_at(PyObject *object, PyObject *place, enum part part)
{
    Strings *self = (Strings *)object;
    Py_ssize_t at = PyNumber_AsSsize_t(place, PyExc_IndexError);
    if (at == -1 && PyErr_Occurred())
        return NULL;
    if (at < 0)
        at += strings_len(object);
    Found key;
    uint64_t value;
    begin_found(&key);
    uint32_t told = at >= 0 ? find_nth(self, (uint64_t)at + 1, &key, &value) : SELLUMAQ_NONE;
    PyObject *found = told == SELLUMAQ_FOUND ? make_part(part, make_key(self, key.bytes, key.length), value) : NULL;
    forget_found(&key);
    return told == SELLUMAQ_NONE ? raise_no_place(place) : found;
}

static PyObject *key_at(PyObject *self, PyObject *place) { return part_at(self, place, KEYS); }
static PyObject *item_at(PyObject *self, PyObject *place) { return part_at(self, place, ITEMS); }

static PyObject *hash_list(PyObject *object, PyObject *part)
{
    uint64_t wanted;
    if (!read_word(part, &wanted))
        return NULL;
    if (wanted > ITEMS) {
        PyErr_SetString(PyExc_ValueError, "no such part");
        return NULL;
    }
    return list_of((Strings *)object, (enum part)wanted);
}

/* What was told ahead may be gone from the map, and is passed over then. */
static PyObject *hash_popitem(PyObject *object, PyObject *Py_UNUSED(none))
{
    uint64_t value;
    while (strings_len(object) > 0) {
        PyObject *key = next_ahead((Strings *)object);
        int found = key ? find_value((Strings *)object, key, &value, true) : -1;
        if (found == 1)
            return make_part(ITEMS, key, value);
        Py_XDECREF(key);
        if (found < 0)
            return NULL;
    }
    PyErr_SetString(PyExc_KeyError, "popitem(): dictionary is empty");
    return NULL;
}

#define IN_ORDER ">>> from sellumaq import JudySL\n>>> ages = JudySL(Ada=36, Alan=41, Grace=85)\n"
#define AGES ">>> from sellumaq import JudyHS\n>>> ages = JudyHS(Ada=36, Alan=41)\n"

#define STRING_METHODS \
    {"clear", strings_clear, METH_NOARGS, \
     DOC("clear($self, /)", "Takes every key out and gives the memory back.", AGES ">>> ages.clear(); ages\nJudyHS({})")}, \
    {"shrink", strings_shrink, METH_NOARGS, \
     DOC("shrink($self, /)", "Gives back memory that deletes left free.", \
         AGES ">>> del ages['Ada']; ages.shrink(); ages\nJudyHS({'Alan': 41})")}, \
    {"get", (PyCFunction)(void (*)(void))strings_get, METH_FASTCALL, \
     DOC("get($self, key, default=None, /)", "The value of a key, or the default where it isn't there.", \
         AGES ">>> ages.get('Ada'), ages.get('Bob', 7)\n(36, 7)")}, \
    {"pop", (PyCFunction)(void (*)(void))strings_pop, METH_FASTCALL, \
     DOC("pop($self, key, default=..., /)", "Takes a key out and answers its value, or the default; KeyError where there is neither.", \
         AGES ">>> ages.pop('Ada'), ages.pop('Ada', 7)\n(36, 7)")}, \
    SIZE_METHOD(strings, AGES, "ages"), \
    SAVED_METHODS(strings, AGES, "ages", "58")

static PyMethodDef map_methods[] = {
    STRING_METHODS,
    {"bisect_left", bisect_left, METH_O,
     DOC("bisect_left($self, string, /)", "How many keys there are below a string.", IN_ORDER ">>> ages.bisect_left('Alan')\n1")},
    {"bisect_right", bisect_right, METH_O,
     DOC("bisect_right($self, string, /)", "How many keys there are up to a string.", IN_ORDER ">>> ages.bisect_right('Alan')\n2")},
    {"_begin", strings_begin, METH_O, "Puts in at once what pairs begin with, as far as that can be done; answers the pair after these, or none."},
    {"_make", strings_make, METH_O, "Makes the map one of the pairs of an iterable, whose keys must ascend."},
    {"_copy", (PyCFunction)(void (*)(void))strings_copy, METH_METHOD | METH_FASTCALL | METH_KEYWORDS,
     "Makes the map one of another's pairs."},
    {"_join", (PyCFunction)(void (*)(void))strings_join, METH_METHOD | METH_FASTCALL | METH_KEYWORDS, "Puts another's pairs in, all or none."},
    {"_remove_range", (PyCFunction)(void (*)(void))remove_range, METH_FASTCALL, "Takes the keys from one string to another out; answers how many."},
    {"_longest_prefix", longest_prefix, METH_O, "How many bytes the longest key has that begins a string, or None."},
    {"_remove_prefix", remove_prefix, METH_O, "Takes the keys out that begin with a string; answers how many."},
    {"_key_at", key_at, METH_O, "The key at a place."},
    {"_item_at", item_at, METH_O, "The pair at a place."},
    {"_cursor", (PyCFunction)(void (*)(void))cursor, METH_METHOD | METH_FASTCALL | METH_KEYWORDS, "A walk between two strings."},
    {"_with_prefix", (PyCFunction)(void (*)(void))with_prefix, METH_METHOD | METH_FASTCALL | METH_KEYWORDS,
     "A walk through the keys that begin with a string."},
    {NULL, NULL, 0, NULL},
};
static PyMethodDef hash_methods[] = {
    STRING_METHODS,
    {"popitem", hash_popitem, METH_NOARGS,
     DOC("popitem($self, /)",
         "Takes out a pair, which may be any, and answers it; KeyError where the dict is empty. Keys are listed an eighth of them at a time.",
         AGES ">>> pair = ages.popitem(); pair in [('Ada', 36), ('Alan', 41)], len(ages)\n(True, 1)")},
    {"_list", hash_list, METH_O, "All keys, values or pairs, by the lengths of the keys, and those of one length by their bytes."},
    {NULL, NULL, 0, NULL},
};

#define STRING_SLOTS(name, new, methods)                                                                                    \
    static PyType_Slot name##_slots[] = {                                                                                   \
        {Py_tp_dealloc, strings_dealloc}, {Py_mp_length, strings_len}, {Py_sq_contains, strings_contains},                   \
        {Py_mp_subscript, strings_item}, {Py_mp_ass_subscript, strings_set_item}, {Py_tp_methods, methods}, {Py_tp_new, new}, \
        {0, NULL},                                                                                                          \
    };
STRING_SLOTS(TextMap, new_text_map, map_methods)
STRING_SLOTS(BytesMap, new_bytes_map, map_methods)
STRING_SLOTS(TextHash, new_text_hash, hash_methods)
STRING_SLOTS(BytesHash, new_bytes_hash, hash_methods)

#define SPEC(type) {"sellumaq._native." #type, sizeof(Strings), 0, Py_TPFLAGS_DEFAULT | Py_TPFLAGS_BASETYPE | Py_TPFLAGS_IMMUTABLETYPE, type##_slots}
static PyType_Spec specs[] = {SPEC(TextMap), SPEC(BytesMap), SPEC(TextHash), SPEC(BytesHash)};
static const char *const names[] = {"TextMap", "BytesMap", "TextHash", "BytesHash"};

int add_strings(PyObject *module)
{
    for (size_t n = 0; n < sizeof specs / sizeof *specs; n++) {
        PyObject *type = PyType_FromModuleAndSpec(module, &specs[n], NULL);
        int added = type ? PyModule_AddObjectRef(module, names[n], type) : -1;
        Py_XDECREF(type);
        if (added < 0)
            return -1;
    }
    return 0;
}
