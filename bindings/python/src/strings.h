/* Maps from strings and byte strings, and the cursor of those in order. */
#ifndef SELLUMAQ_STRINGS_H
#define SELLUMAQ_STRINGS_H

#include "native.h"

/* The calls that maps from strings and from byte strings have alike. */
typedef struct {
    uint32_t (*put)(Handle *handle, const uint8_t *key, size_t length, uint64_t value);
    bool (*get)(Handle *handle, const uint8_t *key, size_t length, uint64_t *value);
    bool (*remove)(Handle *handle, const uint8_t *key, size_t length, uint64_t *value);
    uint64_t (*len)(Handle *handle);
    uint64_t (*bytes)(Handle *handle);
    void (*shrink)(Handle *handle);
    uint64_t (*free)(Handle *handle);
    const SavedCalls *saved;
    int (*has_text)(const Handle *handle); /* whether each key is a str; -1 where there is no memory for a list of them */
} StringCalls;

/* What a walk told of keys: their bytes, one key behind the other, and the length and the value of each. */
typedef struct {
    uint8_t *bytes;
    sellumaq_entry *entries;
    size_t count;
} Told;

typedef struct {
    PyObject_HEAD
    Handle handle;
    Changes changes;
    const StringCalls *calls;
    bool is_text; /* keys are str, which C sees in UTF-8, surrogates too */
    Told ahead;   /* of a map without order: what `popitem` takes out next, of which some may be gone, */
    size_t place; /* behind so many of these, */
    size_t begin; /* whose keys have so many bytes */
} Strings;

/* So many bytes of a key have room in place; for more memory is asked for. */
enum { SHORT_KEY = 1024 };

/* A key's bytes. Those of a bytes-like object are a copy, since what it lends may change below the call: in place where
 * they are few. */
typedef struct {
    PyObject *owner; /* what keeps `bytes`, or NULL */
    const uint8_t *bytes;
    size_t length;
    uint8_t copy[SHORT_KEY];
} Key;

/* Room that a search writes a key to, which grows for a key that doesn't fit. */
typedef struct {
    uint8_t *bytes; /* `few`, or memory of its own */
    size_t room;    /* for so many bytes, */
    size_t length;  /* of which the key has so many */
    uint8_t few[SHORT_KEY];
} Found;

/* Begins with the room in place. */
void begin_found(Found *found);

/* Room for so many bytes; those that are there stay. False with an error set where there is no memory, and nothing
 * changed. */
bool widen_found(Found *found, size_t bytes);

/* Gives the memory back. */
void forget_found(Found *found);

/* The bytes of a key that is to be stored: false with an error set where the object is of no such kind. */
bool read_string(const Strings *self, PyObject *object, Key *key);

/* ValueError for an object whose bytes are no key of a map in order. */
void raise_bad_key(PyObject *object);

/* Notes that keys came or went, or that a value was replaced. */
void note_change(Strings *self, bool of_keys);

/* Gives a key a value, and answers as the library does. */
uint32_t put_string(Strings *self, const uint8_t *key, size_t length, uint64_t value);

/* Whether a call put its key in; else an error is set. The bytes are a key. */
bool is_put(uint32_t told);

/* Whether a map's `__setitem__` is the extension's own. */
bool puts_itself(const Strings *map);

/* How many bytes the longest beginning of a string has that can be a key in order. Where that isn't all of it no key
 * lies between the two: the string goes on with a zero. */
size_t could_be_key(const uint8_t *bytes, size_t length);

/* A key as Python has it. */
PyObject *make_key(const Strings *map, const uint8_t *bytes, size_t length);

/* All that a map without order holds, as a list. */
PyObject *list_of(Strings *map, enum part part);

/* A key that a map without order may hold, unless it was taken out since this was told; NULL with an error set where
 * there is no memory. The map isn't empty. */
PyObject *next_ahead(Strings *map);

/* Gives the memory back of what was told ahead. */
void forget_ahead(Strings *map);

/* Asks for so many keys of a map without order before an object is made of one, so that the map can't change meanwhile.
 * False where there is no memory. */
bool tell_keys(const sellumaq_judyhs *map, size_t count, Told *told);
void forget_told(Told *told);

/* string_text.c: whether each key is a str. Of a map without order they are listed: -1 where there is no memory for
 * that. */
bool map_has_text(const sellumaq_judysl *map);
int hash_has_text(const sellumaq_judyhs *map);

/* string_fill.c: of maps in order `_begin`, by which `_fill` begins, and `_make`, in which `from_sorted` ends. */
PyObject *strings_begin(PyObject *object, PyObject *pairs);
PyObject *strings_make(PyObject *object, PyObject *pairs);

/* `_copy` makes a map in order one of another's pairs, and `_join` puts another's pairs in, all or none. `maps` is the
 * type of both. */
PyObject *strings_copy(PyObject *object, PyTypeObject *maps, PyObject *const *arguments, Py_ssize_t count,
                       PyObject *keywords);
PyObject *strings_join(PyObject *object, PyTypeObject *maps, PyObject *const *arguments, Py_ssize_t count,
                       PyObject *keywords);

/* A cursor over the keys of a map in order, from one bound to another, both included. A bound is bytes, or NULL where
 * there is none. */
PyObject *new_string_cursor(PyTypeObject *type, Strings *map, enum part part, PyObject *low, PyObject *high, bool reverse);

/* The same over those that begin with a prefix, which is bytes. */
PyObject *new_prefix_cursor(PyTypeObject *type, Strings *map, PyObject *prefix);

#endif
