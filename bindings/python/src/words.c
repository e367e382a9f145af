/* `WordSet` and `WordMap`, which Judy1 and JudyL stand on. */
#include "words.h"

/* What a kind's calls are by the union of handles. */
#define SEARCH(kind, member, name)                                        \
    static bool kind##_##name(Handle *handle, uint64_t from, uint64_t *word) \
    {                                                                     \
        return sellumaq_##kind##_##name(&handle->member, from, word);     \
    }
#define WORD_CALLS(kind, member)                                                                          \
    SEARCH(kind, member, first)                                                                           \
    SEARCH(kind, member, next)                                                                            \
    SEARCH(kind, member, last)                                                                            \
    SEARCH(kind, member, prev)                                                                            \
    SEARCH(kind, member, first_empty)                                                                     \
    SEARCH(kind, member, last_empty)                                                                      \
    SEARCH(kind, member, by_count)                                                                        \
    static uint64_t kind##_len(Handle *handle) { return sellumaq_##kind##_len(&handle->member); }         \
    static uint64_t kind##_bytes(Handle *handle) { return sellumaq_##kind##_bytes(&handle->member); }     \
    static uint64_t kind##_free(Handle *handle) { return sellumaq_##kind##_free(&handle->member); }       \
    static uint64_t kind##_count(Handle *handle, uint64_t from, uint64_t to)                              \
    {                                                                                                     \
        return sellumaq_##kind##_count(&handle->member, from, to);                                        \
    }                                                                                                     \
    static uint64_t kind##_remove_range(Handle *handle, uint64_t from, uint64_t to)                       \
    {                                                                                                     \
        return sellumaq_##kind##_remove_range(&handle->member, from, to);                                 \
    }                                                                                                     \
    static uint64_t kind##_retain_range(Handle *handle, uint64_t from, uint64_t to)                       \
    {                                                                                                     \
        return sellumaq_##kind##_retain_range(&handle->member, from, to);                                 \
    }                                                                                                     \
    static const WordCalls kind##_calls = {                                                               \
        kind##_first,      kind##_next, kind##_last, kind##_prev,  kind##_first_empty, kind##_last_empty, \
        kind##_by_count,   kind##_has,  kind##_remove, kind##_len, kind##_bytes, kind##_count,            \
        kind##_free,       kind##_put,  kind##_from_sorted, kind##_from_unsorted, kind##_remove_range,    \
        kind##_retain_range, &kind##_saved,                                                               \
    };

static bool judy1_has(Handle *handle, uint64_t key) { return sellumaq_judy1_test(&handle->set, key); }
static bool judy1_remove(Handle *handle, uint64_t key) { return sellumaq_judy1_unset(&handle->set, key); }
static uint32_t judy1_put(Handle *handle, const uint64_t *item) { return sellumaq_judy1_set(&handle->set, item[0]); }
static uint32_t judy1_from_sorted(Handle *handle, const uint64_t *items, size_t count, size_t *place)
{
    return sellumaq_judy1_from_sorted(&handle->set, items, count, place);
}
static uint32_t judy1_from_unsorted(Handle *handle, const uint64_t *items, size_t count)
{
    return sellumaq_judy1_from_unsorted(&handle->set, items, count);
}
WORD_CALLS(judy1, set)

static bool judyl_has(Handle *handle, uint64_t key)
{
    uint64_t value;
    return sellumaq_judyl_get(&handle->map, key, &value);
}
static bool judyl_remove(Handle *handle, uint64_t key) { return sellumaq_judyl_del(&handle->map, key); }
static uint32_t judyl_put(Handle *handle, const uint64_t *item) { return sellumaq_judyl_put(&handle->map, item[0], item[1]); }
static uint32_t judyl_from_sorted(Handle *handle, const uint64_t *items, size_t count, size_t *place)
{
    return sellumaq_judyl_from_sorted(&handle->map, (const sellumaq_pair *)items, count, place);
}
static uint32_t judyl_from_unsorted(Handle *handle, const uint64_t *items, size_t count)
{
    return sellumaq_judyl_from_unsorted(&handle->map, (const sellumaq_pair *)items, count);
}
WORD_CALLS(judyl, map)

/* ---- what sets and maps have alike ---- */

static PyObject *new_words(PyTypeObject *type, const WordCalls *calls, bool is_map)
{
    allocfunc allocate = (allocfunc)PyType_GetSlot(type, Py_tp_alloc);
    Words *self = (Words *)allocate(type, 0);
    if (self) {
        self->calls = calls;
        self->is_map = is_map;
    }
    return (PyObject *)self;
}

static PyObject *new_set(PyTypeObject *type, PyObject *Py_UNUSED(args), PyObject *Py_UNUSED(keywords))
{
    return new_words(type, &judy1_calls, false);
}

static PyObject *new_map(PyTypeObject *type, PyObject *Py_UNUSED(args), PyObject *Py_UNUSED(keywords))
{
    return new_words(type, &judyl_calls, true);
}

static void words_dealloc(PyObject *object)
{
    PyTypeObject *type = Py_TYPE(object);
    Words *self = (Words *)object;
    self->calls->free(&self->handle);
    ((freefunc)PyType_GetSlot(type, Py_tp_free))(object);
    Py_DECREF((PyObject *)type);
}

static Py_ssize_t words_len(PyObject *object)
{
    Words *self = (Words *)object;
    return (Py_ssize_t)self->calls->len(&self->handle);
}

static PyObject *words_sizeof(PyObject *object, PyObject *Py_UNUSED(none))
{
    Words *self = (Words *)object;
    return size_with(object, self->calls->bytes(&self->handle));
}

static int words_contains(PyObject *object, PyObject *key)
{
    Words *self = (Words *)object;
    uint64_t word;
    int could_be = read_key(key, &word);
    return could_be == 1 ? self->calls->has(&self->handle, word) : could_be;
}

void count_changes(Words *self, int keys, int values)
{
    self->changes.keys += (uint64_t)keys;
    self->changes.all += (uint64_t)(keys + values);
}

/* Notes what a call changed that was to put a key in; false with an error set where there is no memory. */
static bool note_put(Words *self, uint32_t told)
{
    count_changes(self, told == SELLUMAQ_ADDED, self->is_map && told == SELLUMAQ_PRESENT);
    if (told == SELLUMAQ_NO_MEMORY)
        PyErr_NoMemory();
    return told != SELLUMAQ_NO_MEMORY;
}

bool put_words(Words *self, const uint64_t *item) { return note_put(self, self->calls->put(&self->handle, item)); }

static PyObject *words_clear(PyObject *object, PyObject *Py_UNUSED(none))
{
    Words *self = (Words *)object;
    count_changes(self, 1, 0);
    self->calls->free(&self->handle);
    Py_RETURN_NONE;
}

/* Makes the array one that was loaded. */
static PyObject *become(Words *self, Handle made)
{
    count_changes(self, 1, 0);
    self->calls->free(&self->handle);
    self->handle = made;
    Py_RETURN_NONE;
}

static PyObject *words_tobytes(PyObject *object, PyObject *arguments, PyObject *keywords)
{
    Words *self = (Words *)object;
    return dump_array(&self->handle, self->calls->saved, arguments, keywords);
}

static PyObject *words_frombytes(PyObject *object, PyObject *lent)
{
    Words *self = (Words *)object;
    Handle made;
    return load_array(self->calls->saved, lent, &made) ? become(self, made) : NULL;
}

static PyObject *words_save(PyObject *object, PyObject *path)
{
    Words *self = (Words *)object;
    return save_array(&self->handle, self->calls->saved, path);
}

static PyObject *words_load(PyObject *object, PyObject *path)
{
    Words *self = (Words *)object;
    Handle made;
    return open_array(self->calls->saved, path, &made) ? become(self, made) : NULL;
}

/* Takes a key out: 1, 0 where it isn't there, -1 with an error set. */
static int remove_key(Words *self, PyObject *key)
{
    uint64_t word;
    int found = read_key(key, &word);
    if (found == 1) {
        found = self->calls->remove(&self->handle, word);
        count_changes(self, found, 0);
    }
    return found;
}

static PyObject *number_or_none(bool found, uint64_t word)
{
    if (!found)
        Py_RETURN_NONE;
    return make_word(word);
}

/* A search up; below the words it begins with 0, above them it finds nothing. */
static PyObject *search_up(Words *self, PyObject *from, Search *search)
{
    uint64_t word = 0;
    enum side side = read_number(from, &word);
    if (side == NO_NUMBER)
        return NULL;
    bool found = side != ABOVE && search(&self->handle, side == BELOW ? 0 : word, &word);
    return number_or_none(found, word);
}

static PyObject *search_down(Words *self, PyObject *from, Search *search)
{
    uint64_t word = 0;
    enum side side = read_number(from, &word);
    if (side == NO_NUMBER)
        return NULL;
    bool found = side != BELOW && search(&self->handle, side == ABOVE ? UINT64_MAX : word, &word);
    return number_or_none(found, word);
}

static PyObject *at_or_after(PyObject *self, PyObject *from) { return search_up((Words *)self, from, ((Words *)self)->calls->first); }
static PyObject *at_or_before(PyObject *self, PyObject *from) { return search_down((Words *)self, from, ((Words *)self)->calls->last); }
static PyObject *absent_at_or_after(PyObject *self, PyObject *from)
{
    return search_up((Words *)self, from, ((Words *)self)->calls->first_empty);
}
static PyObject *absent_at_or_before(PyObject *self, PyObject *from)
{
    return search_down((Words *)self, from, ((Words *)self)->calls->last_empty);
}

/* How many keys there are below a number, or up to it. */
static PyObject *bisect(Words *self, PyObject *number, bool with_itself)
{
    uint64_t word = 0, count = 0;
    enum side side = read_number(number, &word);
    if (side == NO_NUMBER)
        return NULL;
    if (side == ABOVE)
        count = self->calls->len(&self->handle);
    else if (side == WITHIN && (with_itself || word > 0))
        count = self->calls->count(&self->handle, 0, with_itself ? word : word - 1);
    return make_word(count);
}

static PyObject *bisect_left(PyObject *self, PyObject *number) { return bisect((Words *)self, number, false); }
static PyObject *bisect_right(PyObject *self, PyObject *number) { return bisect((Words *)self, number, true); }

/* Reads a place, which counts from the end where it is negative, as a number from 1 on; 0 with an error set where no
 * key can stand there. */
static uint64_t read_place(Words *self, PyObject *place)
{
    Py_ssize_t at = PyNumber_AsSsize_t(place, PyExc_IndexError);
    if (at == -1 && PyErr_Occurred())
        return 0;
    if (at < 0)
        at += (Py_ssize_t)self->calls->len(&self->handle);
    if (at < 0)
        raise_no_place(place);
    return at < 0 ? 0 : (uint64_t)at + 1;
}

static PyObject *key_at(PyObject *object, PyObject *place)
{
    Words *self = (Words *)object;
    uint64_t word, n = read_place(self, place);
    if (n == 0)
        return NULL;
    return self->calls->by_count(&self->handle, n, &word) ? make_word(word) : raise_no_place(place);
}

static PyObject *keys_of_slice(PyObject *object, PyObject *slice)
{
    Words *self = (Words *)object;
    Py_ssize_t start, stop, step;
    if (PySlice_Unpack(slice, &start, &stop, &step) < 0)
        return NULL;
    Py_ssize_t count = PySlice_AdjustIndices(words_len(object), &start, &stop, step);
    PyObject *keys = PyList_New(0);
    for (Py_ssize_t n = 0; keys && n < count; n++) {
        uint64_t word = 0;
        bool found = n > 0 && step == 1 ? false : self->calls->by_count(&self->handle, (uint64_t)(start + n * step) + 1, &word);
        if (n > 0 && step == 1) {
            PyObject *last = PyList_GetItem(keys, n - 1);
            word = PyLong_AsUnsignedLongLong(last);
            found = self->calls->next(&self->handle, word, &word);
        }
        PyObject *key = found ? make_word(word) : NULL;
        if (!found)
            break;
        if (!key || PyList_Append(keys, key) < 0)
            Py_CLEAR(keys);
        Py_XDECREF(key);
    }
    return keys;
}

static PyObject *item_at(PyObject *self, PyObject *place)
{
    return PySlice_Check(place) ? keys_of_slice(self, place) : key_at(self, place);
}

/* _cursor(part, low, high, reverse): the bounds are words, both included. */
static PyObject *cursor(PyObject *self, PyTypeObject *defining, PyObject *const *arguments, Py_ssize_t count, PyObject *keywords)
{
    uint64_t part, low, high;
    if (count != 4 || keywords) {
        PyErr_SetString(PyExc_TypeError, "_cursor takes a part, two words and whether it goes down");
        return NULL;
    }
    if (!read_word(arguments[0], &part) || !read_word(arguments[1], &low) || !read_word(arguments[2], &high))
        return NULL;
    int reverse = PyObject_IsTrue(arguments[3]);
    if (reverse < 0)
        return NULL;
    if (part > (((Words *)self)->is_map ? ITEMS : KEYS)) {
        PyErr_SetString(PyExc_ValueError, "no such part");
        return NULL;
    }
    Module *state = state_of(defining);
    return !state ? NULL : new_word_cursor(state->word_cursor, (Words *)self, (enum part)part, low, high, reverse);
}

/* Reads the words that a range goes from and to, both included; false with an error set. */
static bool read_range(PyObject *const *arguments, Py_ssize_t count, uint64_t *from, uint64_t *to)
{
    if (count == 2)
        return read_word(arguments[0], from) && read_word(arguments[1], to);
    PyErr_SetString(PyExc_TypeError, "two words are needed");
    return false;
}

static PyObject *remove_range(PyObject *object, PyObject *const *arguments, Py_ssize_t count)
{
    Words *self = (Words *)object;
    uint64_t from, to;
    if (!read_range(arguments, count, &from, &to))
        return NULL;
    uint64_t gone = self->calls->remove_range(&self->handle, from, to);
    count_changes(self, gone > 0, 0);
    return make_word(gone);
}

static PyObject *keep_range(PyObject *object, PyObject *const *arguments, Py_ssize_t count)
{
    Words *self = (Words *)object;
    uint64_t from, to;
    if (!read_range(arguments, count, &from, &to))
        return NULL;
    uint64_t gone = self->calls->retain_range(&self->handle, from, to);
    count_changes(self, gone > 0, 0);
    return make_word(gone);
}

#define SOME ">>> from sellumaq import Judy1\n>>> some = Judy1([10, 20, 30])\n"

#define WORD_METHODS \
    {"clear", words_clear, METH_NOARGS, \
     DOC("clear($self, /)", "Takes every key out and gives the memory back.", SOME ">>> some.clear(); some\nJudy1()")}, \
    {"at_or_after", at_or_after, METH_O, \
     DOC("at_or_after($self, number, /)", "The least key from a number on, or None.", SOME ">>> some.at_or_after(11)\n20")}, \
    {"at_or_before", at_or_before, METH_O, \
     DOC("at_or_before($self, number, /)", "The greatest key up to a number, or None.", SOME ">>> some.at_or_before(19)\n10")}, \
    {"absent_at_or_after", absent_at_or_after, METH_O, \
     DOC("absent_at_or_after($self, number, /)", "The least word from a number on that is no key, or None.", \
         SOME ">>> some.absent_at_or_after(10)\n11")}, \
    {"absent_at_or_before", absent_at_or_before, METH_O, \
     DOC("absent_at_or_before($self, number, /)", "The greatest word up to a number that is no key, or None.", \
         SOME ">>> some.absent_at_or_before(10)\n9")}, \
    {"bisect_left", bisect_left, METH_O, \
     DOC("bisect_left($self, number, /)", "How many keys there are below a number.", SOME ">>> some.bisect_left(20)\n1")}, \
    {"bisect_right", bisect_right, METH_O, \
     DOC("bisect_right($self, number, /)", "How many keys there are up to a number.", SOME ">>> some.bisect_right(20)\n2")}, \
    SIZE_METHOD(words, SOME, "some"), \
    SAVED_METHODS(words, SOME, "some", "55"), \
    {"_fill", words_fill, METH_O, "Puts the items of an iterable in."}, \
    {"_make", words_make, METH_O, "Makes the array one of the items of an iterable, whose keys must ascend."}, \
    {"_at", item_at, METH_O, "The key at a place, or the list of those of a slice."}, \
    {"_remove_range", (PyCFunction)(void (*)(void))remove_range, METH_FASTCALL, "Takes the keys from one word to another out; answers how many."}, \
    {"_keep_range", (PyCFunction)(void (*)(void))keep_range, METH_FASTCALL, "Takes all other keys out; answers how many."}, \
    {"_write", (PyCFunction)(void (*)(void))words_write, METH_FASTCALL, "Writes all keys or values into a buffer; answers how many."}, \
    {"_cursor", (PyCFunction)(void (*)(void))cursor, METH_METHOD | METH_FASTCALL | METH_KEYWORDS, "A walk between two words."}

#define WORD_SLOTS                            \
    {Py_tp_dealloc, words_dealloc},           \
    {Py_sq_length, words_len},                \
    {Py_sq_contains, words_contains}

/* ---- sets ---- */

static PyObject *set_add(PyObject *object, PyObject *key)
{
    Words *self = (Words *)object;
    uint64_t word;
    if (!read_word(key, &word) || !note_put(self, sellumaq_judy1_set(&self->handle.set, word)))
        return NULL;
    Py_RETURN_NONE;
}

static PyObject *set_discard(PyObject *self, PyObject *key)
{
    if (remove_key((Words *)self, key) < 0)
        return NULL;
    Py_RETURN_NONE;
}

static PyObject *set_remove(PyObject *self, PyObject *key)
{
    int found = remove_key((Words *)self, key);
    if (found == 0)
        raise_key_error(key);
    if (found != 1)
        return NULL;
    Py_RETURN_NONE;
}

/* Looks the keys of a group up and puts whether each is there behind what a list has; false with an error set. */
static bool append_whether(Words *self, const Group *group, PyObject *told)
{
    bool there[GROUP];
    sellumaq_judy1_test_many(&self->handle.set, group->keys, (size_t)group->count, there, GROUP);
    bool put = true;
    for (int n = 0; put && n < group->count; n++)
        put = append_new(told, PyBool_FromLong(group->could_be[n] && there[n]));
    return put;
}

/* Makes a change of the words of a range by a call of C, which may want memory, and answers how many keys more there
 * are. */
static PyObject *change_range(PyObject *object, PyObject *const *arguments, Py_ssize_t count, uint32_t call(sellumaq_judy1 *, uint64_t, uint64_t))
{
    Words *self = (Words *)object;
    uint64_t from, to;
    if (!read_range(arguments, count, &from, &to))
        return NULL;
    Py_ssize_t had = words_len(object);
    if (call(&self->handle.set, from, to) != SELLUMAQ_DONE)
        return PyErr_NoMemory();
    count_changes(self, 1, 0);
    return PyLong_FromSsize_t(words_len(object) - had);
}

static PyObject *put_range(PyObject *object, PyObject *const *arguments, Py_ssize_t count)
{
    return change_range(object, arguments, count, sellumaq_judy1_insert_range);
}

static PyObject *flip(PyObject *object, PyObject *const *arguments, Py_ssize_t count) { return change_range(object, arguments, count, sellumaq_judy1_flip); }

static PyObject *set_contains_many(PyObject *self, PyObject *const *arguments, Py_ssize_t count, PyObject *keywords)
{
    return look_up_many(self, arguments, count, keywords, append_whether);
}

static PyMethodDef set_methods[] = {
    WORD_METHODS,
    {"add", set_add, METH_O,
     DOC("add($self, key, /)", "Puts a key in. MemoryError where there is no memory for it; the set is as it was then.",
         SOME ">>> some.add(5); some\nJudy1([5, 10, 20, 30])")},
    {"discard", set_discard, METH_O,
     DOC("discard($self, key, /)", "Takes a key out, where it is there.", SOME ">>> some.discard(20); some.discard(5); some\nJudy1([10, 30])")},
    {"remove", set_remove, METH_O,
     DOC("remove($self, key, /)", "Takes a key out; KeyError where it isn't there.", SOME ">>> some.remove(20); some\nJudy1([10, 30])")},
    {"contains_many", (PyCFunction)(void (*)(void))set_contains_many, METH_FASTCALL | METH_KEYWORDS,
     DOC("contains_many($self, keys, /, out=None)",
         "Whether each of the keys of an iterable is there, in a list. With `out`, a buffer of as many bytes as the buffer `keys` has 64-bit words,\n"
         "it is told there, and how many are there is answered.",
         SOME ">>> some.contains_many([20, 15, 30])\n[True, False, True]\n>>> from array import array\n>>> there = bytearray(2)\n"
              ">>> some.contains_many(array('Q', [15, 30]), out=there), list(there)\n(1, [0, 1])")},
    {"_pick", set_pick, METH_O, "Puts those items of an iterable in that can be keys."},
    {"_combine", (PyCFunction)(void (*)(void))set_combine, METH_METHOD | METH_FASTCALL | METH_KEYWORDS,
     "Makes the set what is wanted of two sets."},
    {"_has_any", (PyCFunction)(void (*)(void))set_has_any, METH_METHOD | METH_FASTCALL | METH_KEYWORDS,
     "Whether this set and another have any key that is wanted."},
    {"_count_of", (PyCFunction)(void (*)(void))set_count_of, METH_METHOD | METH_FASTCALL | METH_KEYWORDS,
     "How many keys are wanted of this set and another."},
    {"_put_range", (PyCFunction)(void (*)(void))put_range, METH_FASTCALL, "Puts the words from one to another in; answers how many were absent."},
    {"_flip", (PyCFunction)(void (*)(void))flip, METH_FASTCALL, "Takes the keys from one word to another out, and puts the other words in; how many keys more there are."},
    {NULL, NULL, 0, NULL},
};

static PyType_Slot set_slots[] = {
    WORD_SLOTS, {Py_tp_new, new_set}, {Py_mp_subscript, item_at}, {Py_tp_methods, set_methods}, {0, NULL},
};

static PyType_Spec set_spec = {
    .name = "sellumaq._native.WordSet",
    .basicsize = sizeof(Words),
    .flags = Py_TPFLAGS_DEFAULT | Py_TPFLAGS_BASETYPE | Py_TPFLAGS_IMMUTABLETYPE,
    .slots = set_slots,
};

/* ---- maps ---- */

/* The value of a key: 1, 0 where it isn't there, -1 with an error set. */
static int find_value(Words *self, PyObject *key, uint64_t *word, uint64_t *value)
{
    int found = read_key(key, word);
    return found == 1 ? sellumaq_judyl_get(&self->handle.map, *word, value) : found;
}

static bool put_value(Words *self, PyObject *key, PyObject *value)
{
    uint64_t word, number;
    return read_word(key, &word) && read_word(value, &number) && note_put(self, sellumaq_judyl_put(&self->handle.map, word, number));
}

static PyObject *map_item(PyObject *self, PyObject *key)
{
    uint64_t word, value;
    int found = find_value((Words *)self, key, &word, &value);
    if (found < 0)
        return NULL;
    return found ? make_word(value) : answer_missing(self, key);
}

static int map_set_item(PyObject *object, PyObject *key, PyObject *value)
{
    Words *self = (Words *)object;
    if (value)
        return put_value(self, key, value) ? 0 : -1;
    int found = remove_key(self, key);
    if (found == 0)
        raise_key_error(key);
    return found == 1 ? 0 : -1;
}

static PyObject *map_get(PyObject *self, PyObject *const *arguments, Py_ssize_t count)
{
    uint64_t word, value;
    if (!has_default("get", count, 2))
        return NULL;
    int found = find_value((Words *)self, arguments[0], &word, &value);
    if (found < 0)
        return NULL;
    return found ? make_word(value) : Py_NewRef(count == 2 ? arguments[1] : Py_None);
}

/* Looks the keys of a group up and puts the value of each, or None, behind those of a list; false with an error set. */
static bool append_values(Words *self, const Group *group, PyObject *values)
{
    sellumaq_found found[GROUP];
    sellumaq_judyl_get_many(&self->handle.map, group->keys, (size_t)group->count, found, GROUP);
    bool put = true;
    for (int n = 0; put && n < group->count; n++)
        put = append_new(values, number_or_none(group->could_be[n] && found[n].there, found[n].value));
    return put;
}

static PyObject *pair_at(PyObject *object, PyObject *place)
{
    Words *self = (Words *)object;
    uint64_t key, value, n = read_place(self, place);
    if (n == 0)
        return NULL;
    return sellumaq_judyl_by_count_entry(&self->handle.map, n, &key, &value) ? make_part(ITEMS, make_word(key), value) : raise_no_place(place);
}

static PyObject *map_get_many(PyObject *self, PyObject *const *arguments, Py_ssize_t count, PyObject *keywords)
{
    return look_up_many(self, arguments, count, keywords, append_values);
}

static PyObject *map_pop(PyObject *object, PyObject *const *arguments, Py_ssize_t count)
{
    Words *self = (Words *)object;
    uint64_t word, value;
    if (!has_default("pop", count, 2))
        return NULL;
    int found = read_key(arguments[0], &word);
    if (found == 1)
        found = sellumaq_judyl_remove(&self->handle.map, word, &value);
    if (found == 1) {
        count_changes(self, 1, 0);
        return make_word(value);
    }
    if (found == 0 && count == 2)
        return Py_NewRef(arguments[1]);
    if (found == 0)
        raise_key_error(arguments[0]);
    return NULL;
}

static PyMethodDef map_methods[] = {
    WORD_METHODS,
    {"get", (PyCFunction)(void (*)(void))map_get, METH_FASTCALL,
     DOC("get($self, key, default=None, /)", "The value of a key, or the default where it isn't there.",
         ">>> from sellumaq import JudyL\n>>> squares = JudyL({2: 4})\n>>> squares.get(2), squares.get(3, 7)\n(4, 7)")},
    {"get_many", (PyCFunction)(void (*)(void))map_get_many, METH_FASTCALL | METH_KEYWORDS,
     DOC("get_many($self, keys, /, out=None)",
         "The values of the keys of an iterable, in a list, with None where one isn't there. With `out`, a buffer of as many 64-bit words as the\n"
         "buffer `keys` has, each value is put to its key's place, that of a key that isn't there stays, and how many are there is answered.",
         ">>> from sellumaq import JudyL\n>>> squares = JudyL({2: 4, 3: 9})\n>>> squares.get_many([3, 5, 2])\n[9, None, 4]\n"
         ">>> from array import array\n>>> values = array('Q', [7, 7])\n>>> squares.get_many(array('Q', [3, 5]), out=values), values\n"
         "(1, array('Q', [9, 7]))")},
    {"_make_of", (PyCFunction)(void (*)(void))map_make_of, METH_FASTCALL, "Makes the map one of a buffer of keys, which must ascend, and one of values."},
    {"_fill_of", (PyCFunction)(void (*)(void))map_fill_of, METH_FASTCALL, "Puts in the pairs of a buffer of keys and one of values."},
    {"pop", (PyCFunction)(void (*)(void))map_pop, METH_FASTCALL,
     DOC("pop($self, key, default=..., /)", "Takes a key out and answers its value, or the default; KeyError where there is neither.",
         ">>> from sellumaq import JudyL\n>>> squares = JudyL({2: 4})\n>>> squares.pop(2), squares.pop(2, 7)\n(4, 7)")},
    {"_pair_at", pair_at, METH_O, "The pair at a place."},
    {"_copy", (PyCFunction)(void (*)(void))map_copy, METH_METHOD | METH_FASTCALL | METH_KEYWORDS,
     "Makes the map one of another's pairs."},
    {"_join", (PyCFunction)(void (*)(void))map_join, METH_METHOD | METH_FASTCALL | METH_KEYWORDS, "Puts another's pairs in, all or none."},
    {NULL, NULL, 0, NULL},
};

static PyType_Slot map_slots[] = {
    WORD_SLOTS, {Py_tp_new, new_map}, {Py_mp_subscript, map_item}, {Py_mp_ass_subscript, map_set_item}, {Py_tp_methods, map_methods}, {0, NULL},
};

static PyType_Spec map_spec = {
    .name = "sellumaq._native.WordMap",
    .basicsize = sizeof(Words),
    .flags = Py_TPFLAGS_DEFAULT | Py_TPFLAGS_BASETYPE | Py_TPFLAGS_IMMUTABLETYPE,
    .slots = map_slots,
};

int add_words(PyObject *module)
{
    PyObject *set = PyType_FromModuleAndSpec(module, &set_spec, NULL), *map = PyType_FromModuleAndSpec(module, &map_spec, NULL);
    int added = set && map && PyModule_AddObjectRef(module, "WordSet", set) == 0 ? PyModule_AddObjectRef(module, "WordMap", map) : -1;
    Py_XDECREF(set);
    Py_XDECREF(map);
    return added;
}
