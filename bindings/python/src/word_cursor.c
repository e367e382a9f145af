/* A walk through words. It takes many pairs at a time, and looks the next ones up anew where the array has changed
 * since: each key that comes is one that stands in the array then. */
#include "words.h"

/* How many pairs are taken at most: a page of them. The first time it takes a few, for walks that are soon left. */
#define PAIRS 256
#define FIRST_PAIRS 8

typedef struct {
    PyObject_HEAD
    Words *words; /* NULL: the walk is over */
    enum part part;
    bool reverse;
    uint64_t from; /* where the next pairs begin */
    uint64_t end;  /* the last word that may come */
    const uint64_t *changes; /* the count of changes that matter, */
    uint64_t seen;           /* and how many there were when pairs were taken */
    int most; /* how many are taken next */
    int left; /* how many of those that were taken are still to come */
    int step; /* from a key to the next in `told`: through a set 1, through a map 2 */
    const uint64_t *told; /* the key that comes next, behind which its value stands in a map */
    union {
        uint64_t keys[PAIRS];       /* through a set */
        sellumaq_pair pairs[PAIRS]; /* through a map */
    };
} Cursor;

PyObject *new_word_cursor(PyTypeObject *type, Words *words, enum part part, uint64_t low, uint64_t high, bool reverse)
{
    Cursor *self = (Cursor *)PyType_GenericAlloc(type, 0);
    if (!self)
        return NULL;
    self->words = (Words *)Py_NewRef((PyObject *)words);
    self->part = part;
    self->reverse = reverse;
    self->from = reverse ? high : low;
    self->end = reverse ? low : high;
    self->changes = part == KEYS ? &words->changes.keys : &words->changes.all;
    self->seen = *self->changes;
    self->most = FIRST_PAIRS;
    self->step = words->is_map ? 2 : 1;
    return (PyObject *)self;
}

static bool is_beyond(const Cursor *self, uint64_t key)
{
    return self->reverse ? key < self->end : key > self->end;
}

static uint64_t key_at(const Cursor *self, int place)
{
    return self->words->is_map ? self->pairs[place].key : self->keys[place];
}

/* The next keys and, in a map, their values, from `from` on or, backward, down. */
static size_t walk(Cursor *self)
{
    Handle *handle = &self->words->handle;
    size_t most = (size_t)self->most;
    if (self->words->is_map)
        return self->reverse ? sellumaq_judyl_walk_down(&handle->map, self->from, self->pairs, most)
                             : sellumaq_judyl_walk(&handle->map, self->from, self->pairs, most);
    return self->reverse ? sellumaq_judy1_walk_down(&handle->set, self->from, self->keys, most)
                         : sellumaq_judy1_walk(&handle->set, self->from, self->keys, most);
}

/* The same without those that lie beyond the last word. */
static int take_within(Cursor *self)
{
    int taken = (int)walk(self);
    while (taken > 0 && is_beyond(self, key_at(self, taken - 1)))
        taken--;
    return taken;
}

/* Ends the walk, which lets the array go. */
static void finish(Cursor *self)
{
    Words *words = self->words;
    self->words = NULL;
    self->told = NULL;
    self->left = 0;
    Py_XDECREF((PyObject *)words);
}

/* Moves `from` behind the key that was given last, if one was; false where no key can come after it. */
static bool step_over(Cursor *self)
{
    uint64_t last = self->told ? self->told[-self->step] : 0;
    if (!self->told)
        return true;
    if (last == self->end)
        return false;
    self->from = self->reverse ? last - 1 : last + 1;
    return true;
}

static bool is_stale(const Cursor *self) { return *self->changes != self->seen; }

/* Takes the next pairs, and answers how many. */
static int take(Cursor *self)
{
    if (!step_over(self) || is_beyond(self, self->from))
        return 0;
    self->most = is_stale(self) ? FIRST_PAIRS : self->most;
    self->seen = *self->changes;
    self->left = take_within(self);
    self->most = PAIRS;
    self->told = self->words->is_map ? &self->pairs[0].key : self->keys;
    return self->left;
}

static PyObject *cursor_next(PyObject *object)
{
    Cursor *self = (Cursor *)object;
    if (!self->words)
        return NULL;
    if ((self->left == 0 || is_stale(self)) && take(self) == 0) {
        finish(self);
        return NULL;
    }
    const uint64_t *told = self->told;
    self->told += self->step;
    self->left--;
    return self->part == KEYS ? make_word(told[0]) : self->part == VALUES ? make_word(told[1]) : make_part(ITEMS, make_word(told[0]), told[1]);
}

bool is_word_cursor(PyObject *object) { return PyType_GetSlot(Py_TYPE(object), Py_tp_iternext) == (void *)cursor_next; }

static int cursor_traverse(PyObject *object, visitproc visit, void *arg)
{
    Py_VISIT((PyObject *)Py_TYPE(object));
    Py_VISIT((PyObject *)((Cursor *)object)->words);
    return 0;
}

static int cursor_clear(PyObject *object)
{
    finish((Cursor *)object);
    return 0;
}

static void cursor_dealloc(PyObject *object)
{
    PyTypeObject *type = Py_TYPE(object);
    PyObject_GC_UnTrack(object);
    finish((Cursor *)object);
    PyObject_GC_Del(object);
    Py_DECREF((PyObject *)type);
}

static PyType_Slot slots[] = {
    {Py_tp_doc, "A walk through an array of words."},
    {Py_tp_iter, PyObject_SelfIter},
    {Py_tp_iternext, cursor_next},
    {Py_tp_traverse, cursor_traverse},
    {Py_tp_clear, cursor_clear},
    {Py_tp_dealloc, cursor_dealloc},
    {0, NULL},
};

static PyType_Spec spec = {
    .name = "sellumaq._native.WordCursor",
    .basicsize = sizeof(Cursor),
    .flags = Py_TPFLAGS_DEFAULT | Py_TPFLAGS_HAVE_GC | Py_TPFLAGS_DISALLOW_INSTANTIATION | Py_TPFLAGS_IMMUTABLETYPE,
    .slots = slots,
};

int add_word_cursor(PyObject *module)
{
    Module *state = PyModule_GetState(module);
    state->word_cursor = (PyTypeObject *)PyType_FromModuleAndSpec(module, &spec, NULL);
    return state->word_cursor ? 0 : -1;
}
