/* What the files of the extension share.
 *
 * Each call of the library is made under the GIL, and between its first and its last instruction no Python code runs:
 * what may run some (`__index__`, a buffer, a collection of garbage) comes before the handle is touched or after. So a
 * thread, a signal handler or a finalizer finds each array between two calls.
 */
#ifndef SELLUMAQ_NATIVE_H
#define SELLUMAQ_NATIVE_H

#define PY_SSIZE_T_CLEAN
#define Py_LIMITED_API 0x030b0000
#include <Python.h>
#include <limits.h>
#include <stdbool.h>
#include <stdint.h>

#include "sellumaq.h"

typedef union {
    sellumaq_judy1 set;
    sellumaq_judyl map;
    sellumaq_judysl strings;
    sellumaq_judyhs hashed;
} Handle;

/* What a cursor took of an array is good until these change: of keys alone the first, else the second. */
typedef struct {
    uint64_t keys; /* how often a key came or went */
    uint64_t all;  /* how often that happened, or a value was replaced */
} Changes;

/* A method's docstring, which Python reads the signature from: what the call does, and an example, which the tests
 * run. */
#define DOC(signature, text, example) signature "\n--\n\n" text "\n\n" example

/* `__sizeof__` of a type. An example's line `sample` makes `array`. */
#define SIZE_METHOD(type, sample, array) \
    {"__sizeof__", type##_sizeof, METH_NOARGS, \
     DOC("__sizeof__($self, /)", "How many bytes the array takes: those of the object, and those that the library asked for.", \
         sample ">>> had = " array ".__sizeof__(); " array ".clear(); had > " array ".__sizeof__()\nTrue")}

/* What a cursor gives of a key. */
enum part { KEYS, VALUES, ITEMS };

typedef struct {
    PyTypeObject *word_cursor;
    PyTypeObject *string_cursor;
} Module;

/* module.c */

/* The state of a type's module; NULL with an error set where a collection of garbage has taken that away, which may be
 * before it frees the last method of the type. */
Module *state_of(PyTypeObject *type);

/* convert.c */

/* Where a whole number lies beside the words. */
enum side { BELOW, WITHIN, ABOVE, NO_NUMBER };

/* The side of a number, with the word where it is within; NO_NUMBER with an error set. */
enum side read_number(PyObject *number, uint64_t *word);

/* A word to be stored: false with an error set where the object is none. */
bool read_word(PyObject *object, uint64_t *word);

/* A word to be looked for: 1, 0 where the object can't be one, -1 with an error set. */
int read_key(PyObject *object, uint64_t *word);

/* A word as Python has it. Most are small, and made faster from a long. */
static inline PyObject *make_word(uint64_t word)
{
    return word <= LONG_MAX ? PyLong_FromLong((long)word) : PyLong_FromUnsignedLongLong(word);
}

/* KeyError with one argument, whatever the key is. */
void raise_key_error(PyObject *key);

/* What `map[key]` answers where the key isn't there: what the class's `__missing__` does, as of a dict's subclass; else
 * KeyError, and NULL. */
PyObject *answer_missing(PyObject *map, PyObject *key);

/* IndexError for a place at which no key stands; answers NULL. */
PyObject *raise_no_place(PyObject *place);

/* A key, a value or both; a new reference to the key is taken over. */
PyObject *make_part(enum part part, PyObject *key, uint64_t value);

/* `__sizeof__` of an array for which the library holds so many bytes: these and the object's own. */
PyObject *size_with(PyObject *object, uint64_t held);

/* `get`'s and `pop`'s arguments: a key and perhaps a default. */
bool has_default(const char *name, Py_ssize_t count, Py_ssize_t most);

/* items.c */

/* The one array that a method is given, of the type that has the method; NULL with an error set where it is none. */
PyObject *read_array(PyTypeObject *type, PyObject *const *arguments, Py_ssize_t count, PyObject *keywords);

/* A pair, which is any iterable of two objects, as a tuple; ValueError where it has another number of them, as of
 * dict. */
PyObject *make_pair(PyObject *object);

/* Whether an iterator is one of Python's own, or a cursor: a step of it runs no code of others, so nobody can see how
 * far it is. A collection of garbage may run some, which may as well come before the first step. */
bool is_plain_iterator(PyObject *each);

/* A list with room for so many objects of a size, in the place of another, which may be NULL; NULL where there is no
 * memory, and the list stays. */
void *make_room(void *list, size_t *room, size_t needed, size_t size);

/* ValueError for the key at this place. */
void raise_not_ascending(size_t place);

/* saved.c */

/* The calls by which a kind is saved and loaded. */
typedef struct {
    uint32_t (*dump)(const Handle *handle, uint32_t format, const char *name, size_t length, uint8_t *bytes, size_t room, size_t *size);
    uint32_t (*load)(Handle *handle, const uint8_t *bytes, size_t count, uint32_t *fault);
    uint32_t (*save)(const Handle *handle, const char *path);
    uint32_t (*open)(Handle *handle, const char *path, uint32_t *fault);
} SavedCalls;

extern const SavedCalls judy1_saved, judyl_saved, judysl_saved, judyhs_saved;

/* `tobytes(*, name="array", format=2)` and `save(path)`. */
PyObject *dump_array(const Handle *handle, const SavedCalls *calls, PyObject *arguments, PyObject *keywords);
PyObject *save_array(const Handle *handle, const SavedCalls *calls, PyObject *path);

/* Makes a new array of what a buffer lends, or of a file; false with an error set, and then none is made. */
bool load_array(const SavedCalls *calls, PyObject *lent, Handle *made);
bool open_array(const SavedCalls *calls, PyObject *path, Handle *made);

/* The methods of sets and maps by these. An example's line `sample` makes `array`, whose dump has so many bytes in the
 * format JDY1. */
#define SAVED_METHODS(type, sample, array, size) \
    {"tobytes", (PyCFunction)(void (*)(void))type##_tobytes, METH_VARARGS | METH_KEYWORDS, \
     DOC("tobytes($self, /, *, name='array', format=2)", \
         "The dump of the array, in the format JDY2 or JDY1, as judystore, C and Rust read it too. ValueError where none can say it.", \
         sample ">>> " array ".tobytes()[:4], len(" array ".tobytes(format=1))\n(b'JDY2', " size ")")}, \
    {"frombytes", type##_frombytes, METH_O, \
     DOC("frombytes($self, bytes, /)", \
         "Replaces what the array holds by that of a dump, of either format, which may be any buffer. ValueError names the fault of one that\n" \
         "is none; the array is as it was then.", \
         sample ">>> other = type(" array ")(); other.frombytes(" array ".tobytes()); other == " array "\nTrue")}, \
    {"save", type##_save, METH_O, \
     DOC("save($self, path, /)", \
         "Saves the array to a file, as `tobytes` tells it, in place of an old one, at once: a file beside takes its name when the disk has\n" \
         "it. OSError where the system refuses that; the old file is as it was.", \
         sample ">>> " array ".save('/nowhere/array')\nTraceback (most recent call last):\n" \
                "FileNotFoundError: [Errno 2] No such file or directory: '/nowhere/array'")}, \
    {"load", type##_load, METH_O, \
     DOC("load($self, path, /)", \
         "Replaces what the array holds by that of a file, as `frombytes` does.", \
         sample ">>> " array ".load('/dev/null')\nTraceback (most recent call last):\nValueError: truncated: the bytes end within the dump")}

/* word_cursor.c and string_cursor.c */
bool is_word_cursor(PyObject *object);
bool is_string_cursor(PyObject *object);

/* words.c, word_cursor.c, strings.c, string_cursor.c: each adds its types to the module; -1 with an error set. */
int add_words(PyObject *module);
int add_word_cursor(PyObject *module);
int add_strings(PyObject *module);
int add_string_cursor(PyObject *module);

#endif
