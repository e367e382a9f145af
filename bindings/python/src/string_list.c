/* The keys of a map without order: all of them, listed at once, or some ahead, to be taken out one by one. */
#include <string.h>

#include "strings.h"

PyObject *make_key(const Strings *map, const uint8_t *bytes, size_t length)
{
    const char *text = (const char *)bytes;
    return map->is_text ? PyUnicode_DecodeUTF8(text, (Py_ssize_t)length, "surrogatepass") : PyBytes_FromStringAndSize(text, (Py_ssize_t)length);
}

/* `popitem` is told one key in so many ahead, and these more, since each walk lists all keys of the map and sorts
 * them. */
#define SHARE_AHEAD 8
#define LEAST_AHEAD 64

/* How many bytes of keys are asked for at least. */
enum { LEAST_ROOM = 1024 };

static bool grow(Told *told, size_t bytes)
{
    uint8_t *more = PyMem_Realloc(told->bytes, bytes);
    if (more)
        told->bytes = more;
    return more != NULL;
}

bool tell_keys(const sellumaq_judyhs *map, size_t count, Told *told)
{
    size_t used = 0, room = 8 * count < LEAST_ROOM ? LEAST_ROOM : 8 * count, taken;
    told->entries = PyMem_Malloc(count * sizeof *told->entries);
    if (!told->entries)
        return false;
    while (told->count < count) {
        if (!grow(told, used + room))
            return false;
        if (!sellumaq_judyhs_walk(map, told->count, told->bytes + used, room, told->entries + told->count, count - told->count, &taken))
            return false;
        while (taken-- > 0)
            used += told->entries[told->count++].length;
        room *= 2;
    }
    return true;
}

/* The list is lengthened item by item, since an object that is made meanwhile may run a collection of garbage, by which
 * others see the list. */
static PyObject *make_list(const Strings *map, enum part part, const Told *told)
{
    const uint8_t *bytes = told->bytes;
    PyObject *list = PyList_New(0);
    for (size_t n = 0; list && n < told->count; n++) {
        const sellumaq_entry *entry = &told->entries[n];
        PyObject *item = part == VALUES ? make_word(entry->value) : make_part(part, make_key(map, bytes, entry->length), entry->value);
        if (!item || PyList_Append(list, item) < 0)
            Py_CLEAR(list);
        Py_XDECREF(item);
        bytes += entry->length;
    }
    return list;
}

void forget_told(Told *told)
{
    PyMem_Free(told->bytes);
    PyMem_Free(told->entries);
    *told = (Told){NULL, NULL, 0};
}

PyObject *list_of(Strings *map, enum part part)
{
    Told told = {NULL, NULL, 0};
    const sellumaq_judyhs *hashed = &map->handle.hashed;
    PyObject *list = tell_keys(hashed, sellumaq_judyhs_len(hashed), &told) ? make_list(map, part, &told) : PyErr_NoMemory();
    forget_told(&told);
    return list;
}

void forget_ahead(Strings *map)
{
    forget_told(&map->ahead);
    map->place = map->begin = 0;
}

static bool tell_ahead(Strings *map)
{
    size_t count = sellumaq_judyhs_len(&map->handle.hashed), most = count / SHARE_AHEAD + LEAST_AHEAD;
    forget_ahead(map);
    bool told = tell_keys(&map->handle.hashed, count < most ? count : most, &map->ahead);
    if (!told)
        forget_ahead(map);
    return told;
}

PyObject *next_ahead(Strings *map)
{
    if (map->place == map->ahead.count && !tell_ahead(map))
        return PyErr_NoMemory();
    size_t begin = map->begin, length = map->ahead.entries[map->place++].length;
    map->begin += length;
    return make_key(map, map->ahead.bytes + begin, length);
}
