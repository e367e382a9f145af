/* Sets and maps of words, and their cursors. */
#ifndef SELLUMAQ_WORDS_H
#define SELLUMAQ_WORDS_H

#include "native.h"

/* A search from a word: false where it finds none. */
typedef bool Search(Handle *handle, uint64_t from, uint64_t *word);

/* The calls that sets and maps have alike. */
typedef struct {
    Search *first, *next, *last, *prev, *first_empty, *last_empty, *by_count;
    bool (*has)(Handle *handle, uint64_t key);
    bool (*remove)(Handle *handle, uint64_t key);
    uint64_t (*len)(Handle *handle);
    uint64_t (*bytes)(Handle *handle);
    uint64_t (*count)(Handle *handle, uint64_t from, uint64_t to);
    uint64_t (*free)(Handle *handle);
    /* An item of a set is a key, one of a map a key and its value behind it. */
    uint32_t (*put)(Handle *handle, const uint64_t *item);
    uint32_t (*from_sorted)(Handle *handle, const uint64_t *items, size_t count, size_t *place);
    uint32_t (*from_unsorted)(Handle *handle, const uint64_t *items, size_t count);
    /* These answer how many keys went. */
    uint64_t (*remove_range)(Handle *handle, uint64_t from, uint64_t to);
    uint64_t (*retain_range)(Handle *handle, uint64_t from, uint64_t to);
    const SavedCalls *saved;
} WordCalls;

typedef struct {
    PyObject_HEAD
    Handle handle;
    Changes changes;
    const WordCalls *calls;
    bool is_map;
} Words;

/* Notes that keys came or went, and that values were replaced. */
void count_changes(Words *self, int keys, int values);

/* Puts an item in; false with an error set where there is no memory. */
bool put_words(Words *self, const uint64_t *item);

/* word_fill.c */

/* Items whose keys ascend: the words of each behind those of the one before it. */
typedef struct {
    uint64_t *words;
    size_t count;
    size_t room; /* for so many items */
} Gathered;

/* Puts an item behind the others; false where there is no memory. */
bool gather_words(const Words *self, Gathered *gathered, const uint64_t *item);

/* Makes the array one of what was gathered; false where there is no memory, and then it is as it was. */
bool make_words(Words *self, const Gathered *gathered);

/* The same of items in any order, the last of each key; false where there is no memory, and then it is as it was. */
bool make_unsorted(Words *self, const uint64_t *items, size_t count);

/* `_fill`; `_pick` of a set, by which what can be no key is passed over; and `_make`, in which `from_sorted` ends. */
PyObject *words_fill(PyObject *object, PyObject *items);
PyObject *set_pick(PyObject *object, PyObject *items);

/* `_copy` makes a map one of another's pairs, and `_join` puts another's pairs in, all or none. `maps` is the type of
 * maps. */
PyObject *map_copy(PyObject *object, PyTypeObject *maps, PyObject *const *arguments, Py_ssize_t count,
                   PyObject *keywords);
PyObject *map_join(PyObject *object, PyTypeObject *maps, PyObject *const *arguments, Py_ssize_t count,
                   PyObject *keywords);
PyObject *words_make(PyObject *object, PyObject *items);

/* word_buffers.c */

/* Lends the items of a buffer of words: those of a list, or the pairs of a table of two columns, as the array has them.
 * False where the object has no such buffer, and is an iterable as any other. */
bool lend_items(const Words *self, PyObject *object, Py_buffer *view);

/* The same of a list of words, whatever the array has. */
bool lend_list_of_words(PyObject *object, Py_buffer *view);

/* Makes the array one of items that ascend; false with an error set, and then it is as it was. */
bool make_of(Words *self, const uint64_t *items, size_t count);

/* Puts items in, up to one that there is no memory for; false with an error set then. */
bool put_all(Words *self, const uint64_t *items, size_t count);

/* `_make_of` and `_fill_of` of a map take a buffer of keys and one of values; `_write` writes keys or values into a
 * buffer. */
PyObject *map_make_of(PyObject *self, PyObject *const *arguments, Py_ssize_t count);
PyObject *map_fill_of(PyObject *self, PyObject *const *arguments, Py_ssize_t count);
PyObject *words_write(PyObject *self, PyObject *const *arguments, Py_ssize_t count);

/* Writes what is told of each key of a buffer into another, and answers how many of the keys are there. */
PyObject *look_up_into(Words *self, PyObject *keys, PyObject *out);

/* word_groups.c: keys that are looked up many at a time. */

/* How many keys are handed to an array at a time. */
enum { GROUP = 256 };

/* Keys that wait to be looked up together; one that can't be a key of the array waits too. */
typedef struct {
    int count;
    bool could_be[GROUP];
    uint64_t keys[GROUP];
} Group;

/* Looks the keys of a group up and puts what is told of each behind what a list has; false with an error set. */
typedef bool Append(Words *self, const Group *group, PyObject *told);

/* Puts an object of our own, which may be NULL with an error set, behind what a list has; false with an error set. */
bool append_new(PyObject *list, PyObject *object);

/* What is told of the keys of an iterable, in a list; or into the buffer `out`, where one is given. */
PyObject *look_up_many(PyObject *object, PyObject *const *arguments, Py_ssize_t count, PyObject *keywords, Append *append_told);

/* word_sets.c: `_combine` makes a set what is wanted of two others, `_has_any` tells whether that is any key, and
 * `_count_of` how many they are. `sets` is the type of sets. */
PyObject *set_combine(PyObject *object, PyTypeObject *sets, PyObject *const *arguments, Py_ssize_t count,
                      PyObject *keywords);
PyObject *set_has_any(PyObject *object, PyTypeObject *sets, PyObject *const *arguments, Py_ssize_t count,
                      PyObject *keywords);
PyObject *set_count_of(PyObject *object, PyTypeObject *sets, PyObject *const *arguments, Py_ssize_t count,
                       PyObject *keywords);

/* A cursor over the keys of `words` from one word to another, both included; it holds a reference to the array. */
PyObject *new_word_cursor(PyTypeObject *type, Words *words, enum part part, uint64_t low, uint64_t high, bool reverse);

#endif
