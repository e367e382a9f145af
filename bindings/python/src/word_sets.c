/* What two sets of words have together and alone, and sets made of that, by the calls of C; where one set has few keys
 * these are looked up in the other. No Python code runs meanwhile. */
#include "words.h"

/* Whose a key is: the first set's alone, both sets', the second's alone. What an operation keeps is some of these. */
enum { FIRST = 1, BOTH = 2, SECOND = 4, ALL = FIRST | BOTH | SECOND };

/* How many keys are looked up at a time. */
enum { PAGE = 256 };

/* A set is few beside another where it has at most one key for so many of the other's. */
enum { MANY = 8 };

static uint64_t count_of(const Words *set) { return sellumaq_judy1_len(&set->handle.set); }

static bool is_few_beside(const Words *few, const Words *many) { return count_of(few) < count_of(many) / MANY; }

/* ---- keys that are looked up ---- */

/* Keys of one set, and whether each is in another. */
typedef struct {
    const sellumaq_judy1 *set, *other;
    uint64_t from;
    bool ended;
    size_t count;
    uint64_t keys[PAGE];
    bool there[PAGE];
} Page;

static void begin(Page *page, const Words *set, const Words *other)
{
    page->set = &set->handle.set;
    page->other = &other->handle.set;
    page->from = 0;
    page->ended = false;
}

/* The next keys; false where none is left. */
static bool next_page(Page *page)
{
    page->count = page->ended ? 0 : sellumaq_judy1_walk(page->set, page->from, page->keys, PAGE);
    sellumaq_judy1_test_many(page->other, page->keys, page->count, page->there, PAGE);
    page->ended = page->count < PAGE || page->keys[page->count - 1] == UINT64_MAX;
    page->from = page->ended ? 0 : page->keys[page->count - 1] + 1;
    return page->count > 0;
}

/* How many keys of a set are in another. */
static uint64_t count_found(const Words *set, const Words *other)
{
    Page page;
    uint64_t count = 0;
    for (begin(&page, set, other); next_page(&page);)
        for (size_t n = 0; n < page.count; n++)
            count += page.there[n];
    return count;
}

/* Gathers those keys of a set that are in another, or those that aren't; false where there is no memory. */
static bool gather_found(Gathered *gathered, const Words *set, const Words *other, bool there)
{
    Page page;
    for (begin(&page, set, other); next_page(&page);)
        for (size_t n = 0; n < page.count; n++)
            if (page.there[n] == there && !gather_words(set, gathered, &page.keys[n]))
                return false;
    return true;
}

/* ---- sets made of two ---- */

static bool make_of_found(Words *self, const Words *set, const Words *other, bool there)
{
    Gathered gathered = {NULL, 0, 0};
    bool made = gather_found(&gathered, set, other, there) && make_words(self, &gathered);
    PyMem_Free(gathered.words);
    return made;
}

/* Makes a new set what is wanted of two, and answers as the library does. */
static uint32_t make_new(sellumaq_judy1 *made, const Words *first, const Words *second, int wanted)
{
    const sellumaq_judy1 *one = &first->handle.set, *other = &second->handle.set;
    switch (wanted) {
    case FIRST: return sellumaq_judy1_difference(made, one, other);
    case BOTH: return sellumaq_judy1_intersection(made, one, other);
    case SECOND: return sellumaq_judy1_difference(made, other, one);
    case FIRST | BOTH: return sellumaq_judy1_copy(made, one);
    case FIRST | SECOND: return sellumaq_judy1_symmetric_difference(made, one, other);
    case BOTH | SECOND: return sellumaq_judy1_copy(made, other);
    case ALL: return sellumaq_judy1_union(made, one, other);
    default: return SELLUMAQ_ADDED;
    }
}

/* Makes a set what is wanted of two, in place of what it held; false where there is no memory, and then it is as it
 * was. */
static bool make_anew(Words *self, const Words *first, const Words *second, int wanted)
{
    sellumaq_judy1 made = {0};
    /* The library is never handed one set twice. */
    if (first == second)
        wanted = wanted & BOTH ? FIRST | BOTH : 0;
    else if ((wanted == BOTH || wanted == FIRST) && is_few_beside(first, second))
        return make_of_found(self, first, second, wanted == BOTH);
    else if ((wanted == BOTH || wanted == SECOND) && is_few_beside(second, first))
        return make_of_found(self, second, first, wanted == BOTH);
    if (make_new(&made, first, second, wanted) != SELLUMAQ_ADDED)
        return false;
    sellumaq_judy1_free(&self->handle.set);
    self->handle.set = made;
    count_changes(self, 1, 0);
    return true;
}

static void remove_keys(Words *self, const uint64_t *keys, size_t count)
{
    for (size_t n = 0; n < count; n++)
        sellumaq_judy1_unset(&self->handle.set, keys[n]);
}

/* Puts keys in that the set lacks; where there is no memory for one, none of them. */
static bool put_keys(Words *self, const uint64_t *keys, size_t count)
{
    size_t n = 0;
    while (n < count && sellumaq_judy1_set(&self->handle.set, keys[n]) == SELLUMAQ_ADDED)
        n++;
    if (n < count)
        remove_keys(self, keys, n);
    return n == count;
}

/* Makes a set what is wanted of it and another, key by key: what goes is some of both, what comes the other's alone. */
static bool change(Words *self, const Words *other, int wanted)
{
    Gathered gone = {NULL, 0, 0}, come = {NULL, 0, 0};
    bool changed = (wanted & BOTH || gather_found(&gone, other, self, true)) &&
                   (!(wanted & SECOND) || gather_found(&come, other, self, false)) && put_keys(self, come.words, come.count);
    if (changed)
        remove_keys(self, gone.words, gone.count);
    count_changes(self, 1, 0);
    PyMem_Free(gone.words);
    PyMem_Free(come.words);
    return changed;
}

/* ---- what is told of two ---- */

static uint64_t count_common(const Words *first, const Words *second)
{
    if (first == second)
        return count_of(first);
    if (is_few_beside(first, second))
        return count_found(first, second);
    if (is_few_beside(second, first))
        return count_found(second, first);
    return sellumaq_judy1_intersection_count(&first->handle.set, &second->handle.set);
}

static bool is_part(const Words *one, const Words *other)
{
    return is_few_beside(one, other) ? count_found(one, other) == count_of(one) : sellumaq_judy1_is_subset(&one->handle.set, &other->handle.set);
}

static bool is_apart(const Words *one, const Words *other)
{
    bool walked = !is_few_beside(one, other) && !is_few_beside(other, one);
    return walked ? sellumaq_judy1_is_disjoint(&one->handle.set, &other->handle.set) : count_common(one, other) == 0;
}

/* Whether a key is wanted of those that are in two sets. The set that has more keys has some alone. */
static bool has_any(const Words *first, const Words *second, int wanted)
{
    if (first == second)
        return wanted & BOTH && count_of(first) > 0;
    if (wanted & (count_of(first) > count_of(second) ? FIRST : count_of(first) < count_of(second) ? SECOND : 0))
        return true;
    if ((wanted & (FIRST | SECOND)) == (FIRST | SECOND)) {
        if (!sellumaq_judy1_has_same_keys(&first->handle.set, &second->handle.set))
            return true;
    } else if ((wanted & FIRST && !is_part(first, second)) || (wanted & SECOND && !is_part(second, first)))
        return true;
    return wanted & BOTH && !is_apart(first, second);
}

/* ---- Python's calls ---- */

/* The set that an argument is; NULL with an error set where it is none. */
static Words *read_set(PyTypeObject *sets, PyObject *object)
{
    if (PyObject_TypeCheck(object, sets))
        return (Words *)object;
    PyErr_Format(PyExc_TypeError, "not a set of words: %R", object);
    return NULL;
}

static bool read_wanted(PyObject *object, int *wanted)
{
    uint64_t word;
    if (!read_word(object, &word))
        return false;
    *wanted = (int)(word & ALL);
    return true;
}

PyObject *set_combine(PyObject *object, PyTypeObject *sets, PyObject *const *arguments, Py_ssize_t count,
                      PyObject *keywords)
{
    int wanted;
    if (count != 3 || keywords)
        return PyErr_Format(PyExc_TypeError, "_combine takes whose keys are wanted, and two sets");
    Words *self = (Words *)object, *first = read_set(sets, arguments[1]);
    Words *second = first ? read_set(sets, arguments[2]) : NULL;
    if (!second || !read_wanted(arguments[0], &wanted))
        return NULL;
    bool by_key = self == first && (wanted & FIRST) && is_few_beside(second, first);
    if (!(by_key ? change(self, second, wanted) : make_anew(self, first, second, wanted)))
        return PyErr_NoMemory();
    Py_RETURN_NONE;
}

/* Reads whose keys are wanted, and a set; NULL with an error set. */
static Words *read_question(PyTypeObject *sets, PyObject *const *arguments, Py_ssize_t count, PyObject *keywords, int *wanted)
{
    if (count != 2 || keywords) {
        PyErr_SetString(PyExc_TypeError, "whose keys are wanted, and a set, are needed");
        return NULL;
    }
    Words *second = read_set(sets, arguments[1]);
    return second && read_wanted(arguments[0], wanted) ? second : NULL;
}

PyObject *set_has_any(PyObject *object, PyTypeObject *sets, PyObject *const *arguments, Py_ssize_t count,
                      PyObject *keywords)
{
    int wanted;
    Words *second = read_question(sets, arguments, count, keywords, &wanted);
    return second ? PyBool_FromLong(has_any((Words *)object, second, wanted)) : NULL;
}

PyObject *set_count_of(PyObject *object, PyTypeObject *sets, PyObject *const *arguments, Py_ssize_t count,
                       PyObject *keywords)
{
    int wanted;
    Words *first = (Words *)object, *second = read_question(sets, arguments, count, keywords, &wanted);
    if (!second)
        return NULL;
    uint64_t common = count_common(first, second), keys = wanted & BOTH ? common : 0;
    keys += wanted & FIRST ? count_of(first) - common : 0;
    return make_word(keys + (wanted & SECOND ? count_of(second) - common : 0));
}
