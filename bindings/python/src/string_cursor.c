/* A walk through strings in order. It takes many pairs at a time, downward those of some places, and the next ones
 * anew where the map has changed since; its first step, and one down after a change, is a search beside the key given
 * last. So each key that comes is one that stands in the map then. A key that is too long for a page comes by a search,
 * and so does the one after it. Where memory is refused the walk stays where it is. */
#include <string.h>

#include "strings.h"

/* How many pairs are taken at most, and how many bytes their keys have then. A first page has few, for walks that are
 * soon left, and one that is taken since the map has changed has one; each further page has so many times as many. */
enum { PAIRS = 256, GROWTH = 8, ROOM = 16 * SHORT_KEY };

/* Pairs that were taken: the keys one behind the other, and the length and the value of each. */
typedef struct {
    uint64_t seen; /* how many changes there were then */
    size_t most;   /* how many were asked for */
    size_t count;
    size_t given; /* how many of these were given, from the end at which the walk begins, */
    size_t end;   /* and where the bytes of the last one end, or, downward, begin */
    uint64_t below; /* downward: how many keys lie below these, where it was told, */
    size_t fit;     /* and how many pairs had a place where more were asked for */
    sellumaq_entry entries[PAIRS];
    uint8_t bytes[ROOM];
    uint8_t least[]; /* downward, ROOM bytes: the first of the keys, as it is told by its place */
} Page;

typedef struct {
    PyObject_HEAD
    Strings *map; /* NULL: the walk is over */
    PyObject *end; /* the last bytes that may come, or what all keys begin with, or NULL */
    enum part part;
    bool reverse;
    bool is_prefix; /* whether keys begin with `end` */
    bool bounded;   /* whether the walk begins at a bound, */
    bool begun;     /* whether a step was made, */
    bool inclusive; /* and whether the first may find the bytes in `key` themselves */
    const uint64_t *changes; /* the count of changes that matter */
    Page *page; /* NULL where none was wanted yet, or there was no memory for one; it stays up to the cursor's end */
    Found key;  /* the key given last by a search, or before a page; of the first step the bound */
} Cursor;

/* What a step finds. */
enum step { OVER, PAIR, REFUSED }; /* the last one with an error set */

/* A pair that a step finds; the bytes are the cursor's. */
typedef struct {
    const uint8_t *bytes;
    size_t length;
    uint64_t value;
} Pair;

void begin_found(Found *found)
{
    found->bytes = found->few;
    found->room = sizeof found->few;
    found->length = 0;
}

bool widen_found(Found *found, size_t bytes)
{
    if (bytes <= found->room)
        return true;
    bool is_own = found->bytes != found->few;
    uint8_t *wide = PyMem_Realloc(is_own ? found->bytes : NULL, bytes);
    if (!wide) {
        PyErr_NoMemory();
        return false;
    }
    if (!is_own)
        memcpy(wide, found->few, found->length);
    found->bytes = wide;
    found->room = bytes;
    return true;
}

void forget_found(Found *found)
{
    if (found->bytes != found->few)
        PyMem_Free(found->bytes);
}

/* Puts a key in the room; false with an error set where there is no memory for it, and nothing changed. */
static bool keep(Found *found, const uint8_t *bytes, size_t length)
{
    if (!widen_found(found, length))
        return false;
    memcpy(found->bytes, bytes, length);
    found->length = length;
    return true;
}

size_t could_be_key(const uint8_t *bytes, size_t length)
{
    const uint8_t *zero = memchr(bytes, 0, length);
    return zero ? (size_t)(zero - bytes) : length;
}

/* Puts the cursor at the longest beginning of its bound that can be a key. Going up, where that isn't all of it, it is
 * before the bound. False with an error set where there is no memory for it. */
static bool begin(Cursor *self, PyObject *bound)
{
    char *bytes = "";
    Py_ssize_t length = 0;
    begin_found(&self->key);
    self->bounded = bound || !self->reverse;
    if (bound)
        PyBytes_AsStringAndSize(bound, &bytes, &length);
    size_t could_be = could_be_key((const uint8_t *)bytes, (size_t)length);
    self->inclusive = self->reverse || could_be == (size_t)length;
    return keep(&self->key, (const uint8_t *)bytes, could_be);
}

PyObject *new_string_cursor(PyTypeObject *type, Strings *map, enum part part, PyObject *low, PyObject *high, bool reverse)
{
    Cursor *self = (Cursor *)PyType_GenericAlloc(type, 0);
    if (!self)
        return NULL;
    self->map = (Strings *)Py_NewRef((PyObject *)map);
    self->part = part;
    self->reverse = reverse;
    self->end = Py_XNewRef(reverse ? low : high);
    self->changes = part == KEYS ? &map->changes.keys : &map->changes.all;
    if (!begin(self, reverse ? high : low))
        Py_CLEAR(self);
    return (PyObject *)self;
}

PyObject *new_prefix_cursor(PyTypeObject *type, Strings *map, PyObject *prefix)
{
    Cursor *self = (Cursor *)new_string_cursor(type, map, KEYS, prefix, prefix, false);
    if (self)
        self->is_prefix = true;
    return (PyObject *)self;
}

/* Ends the walk, which lets the map go. */
static void finish(Cursor *self)
{
    Strings *map = self->map;
    PyObject *end = self->end;
    self->map = NULL;
    self->end = NULL;
    Py_XDECREF((PyObject *)map);
    Py_XDECREF(end);
}

/* Asks for the greatest pair of all. Where no key is longer than the room, bytes of 0xff up to the longest one's length
 * are a bound. */
static uint32_t ask_last(Found *key, const sellumaq_judysl *map, uint64_t *value)
{
    size_t longest = sellumaq_judysl_longest(map);
    if (longest > key->room)
        return sellumaq_judysl_by_count(map, sellumaq_judysl_len(map), key->bytes, key->room, &key->length, value);
    memset(key->bytes, 0xff, longest);
    key->length = longest;
    return sellumaq_judysl_last(map, key->bytes, key->room, &key->length, value);
}

/* Asks for the next pair, whose key may want more room than there is. */
static uint32_t ask(Cursor *self, uint64_t *value)
{
    Found *key = &self->key;
    const sellumaq_judysl *map = &self->map->handle.strings;
    bool itself = !self->begun && self->inclusive;
    if (!self->begun && !self->bounded)
        return ask_last(key, map, value);
    if (self->reverse)
        return (itself ? sellumaq_judysl_last : sellumaq_judysl_prev)(map, key->bytes, key->room, &key->length, value);
    return (itself ? sellumaq_judysl_first : sellumaq_judysl_next)(map, key->bytes, key->room, &key->length, value);
}

/* Finds the next pair by a search. */
static enum step search(Cursor *self, Pair *pair)
{
    uint32_t told;
    while ((told = ask(self, &pair->value)) == SELLUMAQ_TOO_SMALL)
        if (!widen_found(&self->key, pair->value))
            return REFUSED;
    self->begun = true;
    pair->bytes = self->key.bytes;
    pair->length = self->key.length;
    return told == SELLUMAQ_FOUND ? PAIR : OVER;
}

/* Makes a cursor's page; false where there is no memory for it. */
static bool make_page(Cursor *self)
{
    Page *page = PyMem_Malloc(sizeof *page + (self->reverse ? ROOM : 0));
    if (page) {
        page->seen = *self->changes;
        page->most = 1;
        page->count = page->given = page->end = 0;
        page->below = UINT64_MAX;
        page->fit = PAIRS;
        self->page = page;
    }
    return page != NULL;
}

/* Keeps the key that a page gave last; false with an error set where there is no memory for it. */
static bool keep_last(Cursor *self)
{
    const Page *page = self->page;
    if (page->given == 0)
        return true;
    size_t length = page->entries[self->reverse ? page->count - page->given : page->given - 1].length;
    return keep(&self->key, page->bytes + page->end - (self->reverse ? 0 : length), length);
}

/* Leaves a page on which nothing is left to be given, for one that may have so many times GROWTH pairs. */
static void turn_over(Page *page, size_t most)
{
    page->most = most;
    page->count = page->given = page->end = 0;
}

/* Takes the pairs behind the key given last, if there are any and the first one has a place; false with an error set
 * where there is no memory to keep that key. */
static bool fill(Cursor *self)
{
    Page *page = self->page;
    size_t more = page->most * GROWTH;
    if (!keep_last(self))
        return false;
    turn_over(page, page->seen != *self->changes ? 1 : more < PAIRS ? more : PAIRS);
    page->seen = *self->changes;
    page->count = sellumaq_judysl_walk(&self->map->handle.strings, self->key.bytes, self->key.length, false, page->bytes, ROOM,
                                       page->entries, page->most);
    return true;
}

/* Takes the `count` pairs below so many keys, or fewer where these have no place; none where the least of them has
 * none. */
static void take_below(const Cursor *self, uint64_t below, size_t count)
{
    Page *page = self->page;
    const sellumaq_judysl *map = &self->map->handle.strings;
    size_t wanted, length = 0;
    uint64_t value;
    page->count = count;
    do {
        wanted = page->count;
        if (sellumaq_judysl_by_count(map, below - wanted + 1, page->least, ROOM, &length, &value) == SELLUMAQ_FOUND)
            page->count = sellumaq_judysl_walk(map, page->least, length, true, page->bytes, ROOM, page->entries, wanted);
        else
            page->count = 0;
        if (0 < page->count && page->count < wanted)
            page->fit = page->count;
    } while (0 < page->count && page->count < wanted);
    page->below = below - page->count;
    for (size_t n = 0; n < page->count; n++)
        page->end += page->entries[n].length;
}

/* How many keys lie below the one given last, which may be gone. */
static uint64_t count_below(const Cursor *self)
{
    const sellumaq_judysl *map = &self->map->handle.strings;
    uint64_t value;
    return sellumaq_judysl_count(map, (const uint8_t *)"", 0, self->key.bytes, self->key.length) -
           sellumaq_judysl_get(map, self->key.bytes, self->key.length, &value);
}

/* Takes the pairs below the key given last, if there are any and they have a place; false with an error set where there
 * is no memory to keep that key. */
static bool fill_back(Cursor *self)
{
    Page *page = self->page;
    size_t more = page->most * GROWTH;
    if (!keep_last(self))
        return false;
    turn_over(page, more < page->fit ? more : page->fit);
    if (page->below == UINT64_MAX)
        page->below = count_below(self);
    if (page->below > 0)
        take_below(self, page->below, page->below < page->most ? (size_t)page->below : page->most);
    return true;
}

/* Forgets the page, and goes on by a search. */
static enum step search_anew(Cursor *self, Pair *pair)
{
    Page *page = self->page;
    if (!keep_last(self))
        return REFUSED;
    turn_over(page, 1);
    page->seen = *self->changes;
    page->below = UINT64_MAX;
    return search(self, pair);
}

/* Whether the key given last is too long for a page, which holds nothing then; the next one may well be so too. */
static bool is_long(const Cursor *self) { return self->key.length > ROOM; }

/* Finds the next pair on the page, downward. */
static enum step turn_back(Cursor *self, Pair *pair)
{
    Page *page = self->page;
    if (page->given == page->count) {
        if (is_long(self))
            return search_anew(self, pair);
        if (!fill_back(self))
            return REFUSED;
        if (page->count == 0)
            return page->below > 0 ? search_anew(self, pair) : OVER;
    }
    const sellumaq_entry *entry = &page->entries[page->count - ++page->given];
    page->end -= entry->length;
    *pair = (Pair){page->bytes + page->end, entry->length, entry->value};
    return PAIR;
}

/* Finds the next pair on the page. */
static enum step turn(Cursor *self, Pair *pair)
{
    Page *page = self->page;
    if (page->given == page->count || page->seen != *self->changes) {
        if (is_long(self))
            return search(self, pair);
        if (!fill(self))
            return REFUSED;
        if (page->count == 0)
            return sellumaq_judysl_longest(&self->map->handle.strings) > ROOM ? search(self, pair) : OVER;
    }
    const sellumaq_entry *entry = &page->entries[page->given++];
    *pair = (Pair){page->bytes + page->end, entry->length, entry->value};
    page->end += entry->length;
    return PAIR;
}

static enum step find_next(Cursor *self, Pair *pair)
{
    if (!self->begun || !(self->page || make_page(self)))
        return search(self, pair);
    if (!self->reverse)
        return turn(self, pair);
    return self->page->seen != *self->changes ? search_anew(self, pair) : turn_back(self, pair);
}

/* Takes back a step whose pair isn't given: the walk stands before that then. */
static void step_back(Cursor *self)
{
    Page *page = self->page;
    if (!page || page->given == 0) {
        self->begun = false;
        self->bounded = self->inclusive = true;
    } else if (self->reverse)
        page->end += page->entries[page->count - page->given--].length;
    else
        page->end -= page->entries[--page->given].length;
}

static bool is_beyond_end(const Cursor *self, const Pair *pair)
{
    char *bytes;
    Py_ssize_t length;
    if (!self->end)
        return false;
    PyBytes_AsStringAndSize(self->end, &bytes, &length);
    size_t other = (size_t)length, shared = pair->length < other ? pair->length : other;
    int order = memcmp(pair->bytes, bytes, shared);
    if (self->is_prefix)
        return order != 0; /* no key that comes is below the prefix, as its own beginnings are */
    if (order == 0)
        order = (pair->length > other) - (pair->length < other);
    return self->reverse ? order < 0 : order > 0;
}

static PyObject *cursor_next(PyObject *object)
{
    Cursor *self = (Cursor *)object;
    Pair pair;
    if (!self->map)
        return NULL;
    enum step step = find_next(self, &pair);
    if (step == REFUSED)
        return NULL;
    if (step == OVER || is_beyond_end(self, &pair)) {
        finish(self);
        return NULL;
    }
    PyObject *found = self->part == VALUES ? make_word(pair.value)
                                           : make_part(self->part, make_key(self->map, pair.bytes, pair.length), pair.value);
    if (!found)
        step_back(self);
    return found;
}

bool is_string_cursor(PyObject *object) { return PyType_GetSlot(Py_TYPE(object), Py_tp_iternext) == (void *)cursor_next; }

static int cursor_traverse(PyObject *object, visitproc visit, void *arg)
{
    Py_VISIT((PyObject *)Py_TYPE(object));
    Py_VISIT((PyObject *)((Cursor *)object)->map);
    return 0;
}

static int cursor_clear(PyObject *object)
{
    finish((Cursor *)object);
    return 0;
}

static void cursor_dealloc(PyObject *object)
{
    PyTypeObject *type = Py_TYPE(object);
    PyObject_GC_UnTrack(object);
    finish((Cursor *)object);
    PyMem_Free(((Cursor *)object)->page);
    forget_found(&((Cursor *)object)->key);
    PyObject_GC_Del(object);
    Py_DECREF((PyObject *)type);
}

static PyType_Slot slots[] = {
    {Py_tp_doc, "A walk through a map from strings."},
    {Py_tp_iter, PyObject_SelfIter},
    {Py_tp_iternext, cursor_next},
    {Py_tp_traverse, cursor_traverse},
    {Py_tp_clear, cursor_clear},
    {Py_tp_dealloc, cursor_dealloc},
    {0, NULL},
};

static PyType_Spec spec = {
    .name = "sellumaq._native.StringCursor",
    .basicsize = sizeof(Cursor),
    .flags = Py_TPFLAGS_DEFAULT | Py_TPFLAGS_HAVE_GC | Py_TPFLAGS_DISALLOW_INSTANTIATION | Py_TPFLAGS_IMMUTABLETYPE,
    .slots = slots,
};

int add_string_cursor(PyObject *module)
{
    Module *state = PyModule_GetState(module);
    state->string_cursor = (PyTypeObject *)PyType_FromModuleAndSpec(module, &spec, NULL);
    return state->string_cursor ? 0 : -1;
}
