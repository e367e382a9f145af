/* Arrays of words made of lists in any order: sorted here, and made by the proved `from_sorted`. No proof reads
 * this. */
#include <stdlib.h>
#include <string.h>

#include "sellumaq.h"

/* Items are keys, or keys with a value behind each: so many words. */
typedef struct {
    uint64_t *at;
    size_t count, words;
} Items;

/* In which bits two keys differ. */
static uint64_t differing(const Items *items) {
    uint64_t bits = 0;
    for (size_t i = 0; i < items->count; i++) bits |= items->at[i * items->words] ^ items->at[0];
    return bits;
}

/* Puts items in the order of one byte of their keys, those that are alike in it as they stand. */
static void order_by(const Items *items, uint64_t *to, int shift) {
    size_t places[256] = {0}, next = 0;
    for (size_t i = 0; i < items->count; i++) places[items->at[i * items->words] >> shift & 255]++;
    for (int byte = 0; byte < 256; byte++) {
        size_t count = places[byte];
        places[byte] = next;
        next += count;
    }
    for (size_t i = 0; i < items->count; i++) {
        const uint64_t *item = items->at + i * items->words;
        memcpy(to + places[item[0] >> shift & 255]++ * items->words, item, items->words * sizeof *item);
    }
}

/* Sorts items byte by byte from the lowest on, and leaves of those with one key the last. There is room for as many
 * behind them. */
static void sort(Items *items) {
    uint64_t *spare = items->at + items->count * items->words, bits = differing(items);
    for (int shift = 0; shift < 64; shift += 8) {
        if (!(bits >> shift & 255)) continue;
        order_by(items, spare, shift);
        uint64_t *sorted = spare;
        spare = items->at;
        items->at = sorted;
    }
    size_t kept = 0, words = items->words;
    for (size_t i = 0; i < items->count; i++) {
        if (kept && items->at[(kept - 1) * words] == items->at[i * words]) kept--;
        memmove(items->at + kept++ * words, items->at + i * words, words * sizeof *items->at);
    }
    items->count = kept;
}

/* A copy of a list with room for it twice, which is to be freed; NULL where there is no memory. */
static uint64_t *copied(const void *list, size_t count, size_t words) {
    size_t size = words * sizeof(uint64_t);
    if (count > (size_t)-1 / 2 / size) return NULL;
    uint64_t *copy = malloc(count ? 2 * count * size : 1);
    if (copy && count) memcpy(copy, list, count * size);
    return copy;
}

uint32_t sellumaq_judy1_from_unsorted(sellumaq_judy1 *set, const uint64_t *keys, size_t count) {
    uint64_t *copy = copied(keys, count, 1);
    if (!copy) return SELLUMAQ_NO_MEMORY;
    Items items = {copy, count, 1};
    size_t place;
    sort(&items);
    uint32_t told = sellumaq_judy1_from_sorted(set, items.at, items.count, &place);
    free(copy);
    return told;
}

uint32_t sellumaq_judyl_from_unsorted(sellumaq_judyl *map, const sellumaq_pair *pairs, size_t count) {
    uint64_t *copy = copied(pairs, count, 2);
    if (!copy) return SELLUMAQ_NO_MEMORY;
    Items items = {copy, count, 2};
    size_t place;
    sort(&items);
    uint32_t told = sellumaq_judyl_from_sorted(map, (const sellumaq_pair *)items.at, items.count, &place);
    free(copy);
    return told;
}
