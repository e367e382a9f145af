/* Whether a map that was loaded has keys that are str. */
#include <string.h>

#include "strings.h"

/* How many keys of a map in order are told at a time, and how many bytes these have; a dump says no longer ones. */
enum { PAGE = 256, ROOM = 16 * SELLUMAQ_SAVED_KEY_BYTES };

/* Whether bytes are a str in UTF-8, in which surrogates stand as other characters do. */
static bool is_text(const uint8_t *bytes, size_t length)
{
    for (size_t at = 0; at < length;) {
        uint8_t first = bytes[at++];
        if (first < 0x80)
            continue;
        size_t more = first >= 0xF0 ? 3 : first >= 0xE0 ? 2 : 1;
        uint32_t character = first & (0x3Fu >> more), least = more == 3 ? 0x10000 : more == 2 ? 0x800 : 0x80;
        if (first < 0xC0 || first > 0xF4 || length - at < more)
            return false;
        for (; more > 0; more--, at++) {
            if ((bytes[at] & 0xC0) != 0x80)
                return false;
            character = character << 6 | (bytes[at] & 0x3F);
        }
        if (character < least || character > 0x10FFFF)
            return false;
    }
    return true;
}

/* The same of keys that stand one behind the other. */
static bool are_text(const uint8_t *bytes, const sellumaq_entry *entries, size_t count)
{
    for (size_t n = 0; n < count; n++) {
        if (!is_text(bytes, entries[n].length))
            return false;
        bytes += entries[n].length;
    }
    return true;
}

bool map_has_text(const sellumaq_judysl *map)
{
    uint8_t bytes[ROOM], last[SELLUMAQ_SAVED_KEY_BYTES] = {0};
    sellumaq_entry entries[PAGE];
    size_t length = 0, count = sellumaq_judysl_walk(map, last, 0, true, bytes, ROOM, entries, PAGE);
    while (count > 0) {
        if (!are_text(bytes, entries, count))
            return false;
        const uint8_t *end = bytes;
        for (size_t n = 0; n < count; n++)
            end += length = entries[n].length;
        memcpy(last, end - length, length);
        count = sellumaq_judysl_walk(map, last, length, false, bytes, ROOM, entries, PAGE);
    }
    return true;
}

int hash_has_text(const sellumaq_judyhs *map)
{
    Told told = {NULL, NULL, 0};
    int found = tell_keys(map, sellumaq_judyhs_len(map), &told) ? are_text(told.bytes, told.entries, told.count) : -1;
    forget_told(&told);
    return found;
}
