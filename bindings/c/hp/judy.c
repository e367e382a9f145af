/* HP's names over Sellumaq's calls. Nothing is decided here but what the manual pages say of null pointers and of the
 * errors, where a search that finds nothing leaves its word, and how many bytes an array has. */
#include "Judy.h"
#include "../sellumaq.h"
#include "memory.h"

#include <string.h>

_Static_assert(sizeof(Word_t) == sizeof(uint64_t), "a word has 64 bits");

static void tell(PJError_t error, JU_Errno_t number) {
    if (error) {
        error->je_Errno = number;
        error->je_ErrID = 0;
    }
}

static int refuse(PJError_t error, JU_Errno_t number) {
    tell(error, number);
    return JERR;
}

static PPvoid_t refuse_slot(PJError_t error, JU_Errno_t number) {
    tell(error, number);
    return PPJERR;
}

/* A change of an array: whether it is to be made first, and the thread's balance of bytes before. */
typedef struct { int is_new; Word_t before; } change;

static change begin(PPvoid_t array) {
    sellumaq_hp_begins = !*array;
    return (change){sellumaq_hp_begins, sellumaq_hp_balance};
}

/* Ends it: what the balance has grown by are bytes of the array's, which a change that moves no memory leaves as
 * they were. An array that was made has grown by its own block. */
static void end(PPvoid_t array, change change) {
    Word_t grown = sellumaq_hp_balance - change.before;
    if (!grown || !*array) return;
    Word_t *bytes = sellumaq_hp_bytes(*array);
    *bytes = (change.is_new ? 0 : *bytes) + grown;
}

/* What an array that holds no key is after a change: null, as the manual pages say. And its end as a whole, which
 * answers its bytes. */
#define ENDS(kind) \
    static void kind##_end(PPvoid_t array, change change) { \
        sellumaq_##kind *held = (sellumaq_##kind *)array; \
        if (*array && !sellumaq_##kind##_len(held)) sellumaq_##kind##_free(held); \
        end(array, change); \
    } \
    static Word_t kind##_freed(PPvoid_t array) { \
        Word_t before = sellumaq_hp_balance; \
        sellumaq_##kind##_free((sellumaq_##kind *)array); \
        return before - sellumaq_hp_balance; \
    }

ENDS(judy1)
ENDS(judyl)
ENDS(judysl)
ENDS(judyhs)

/* A change of an array that the caller names by a pointer. */
#define CHANGES(refused) \
    if (!array) return refused(error, JU_ERRNO_NULLPPARRAY)

/* A search from a word that the caller names by a pointer, and which the word found replaces. */
#define SEARCHES(refused) \
    if (!word) return refused(error, JU_ERRNO_NULLPINDEX)

/* A call on a string, which the caller names by a pointer. */
#define READS(refused) \
    if (!string) return refused(error, JU_ERRNO_NULLPINDEX)

/* A call on bytes, which the caller names by a pointer; where there are none, that may be null. */
#define READS_BYTES(refused) \
    if (!bytes && length) return refused(error, JU_ERRNO_NULLPINDEX)

int Judy1Set(PPvoid_t array, Word_t key, PJError_t error) {
    CHANGES(refuse);
    change change = begin(array);
    uint32_t done = sellumaq_judy1_set((sellumaq_judy1 *)array, key);
    if (done != SELLUMAQ_NO_MEMORY) {
        end(array, change);
        return (int)done;
    }
    judy1_end(array, change);
    return refuse(error, JU_ERRNO_NOMEM);
}

int Judy1Unset(PPvoid_t array, Word_t key, PJError_t error) {
    CHANGES(refuse);
    change change = begin(array);
    int was_there = sellumaq_judy1_unset((sellumaq_judy1 *)array, key);
    if (was_there) judy1_end(array, change);
    return was_there;
}

Word_t Judy1FreeArray(PPvoid_t array, PJError_t error) {
    CHANGES(refuse);
    return judy1_freed(array);
}

PPvoid_t JudyLIns(PPvoid_t array, Word_t key, PJError_t error) {
    CHANGES(refuse_slot);
    uint64_t *slot;
    change change = begin(array);
    int is_there = sellumaq_judyl_ins((sellumaq_judyl *)array, key, &slot);
    if (is_there) end(array, change);
    else judyl_end(array, change);
    return is_there ? (PPvoid_t)slot : refuse_slot(error, JU_ERRNO_NOMEM);
}

int JudyLDel(PPvoid_t array, Word_t key, PJError_t error) {
    CHANGES(refuse);
    change change = begin(array);
    int was_there = sellumaq_judyl_del((sellumaq_judyl *)array, key);
    if (was_there) judyl_end(array, change);
    return was_there;
}

Word_t JudyLFreeArray(PPvoid_t array, PJError_t error) {
    CHANGES(refuse);
    return judyl_freed(array);
}

int Judy1Test(Pcvoid_t array, Word_t key, PJError_t error) {
    (void)error;
    sellumaq_judy1 set = {(void *)array};
    return sellumaq_judy1_test(&set, key);
}

PPvoid_t JudyLGet(Pcvoid_t array, Word_t key, PJError_t error) {
    (void)error;
    sellumaq_judyl map = {(void *)array};
    uint64_t *slot;
    return sellumaq_judyl_slot(&map, key, &slot) ? (PPvoid_t)slot : NULL;
}

/* A search for a key that finds none leaves its word where HP's library does: one further on its way, round the ends
 * too; an array of no key leaves it. Programs go on from there. The searches for words that are no keys leave
 * theirs. */
enum { UP = 1, DOWN = -1, STAYS = 0 };

static void pass(Pcvoid_t array, Word_t *word, int step) {
    if (array) *word += (Word_t)step;
}

#define SET_SEARCH(name, call, step) \
    int name(Pcvoid_t array, Word_t *word, PJError_t error) { \
        SEARCHES(refuse); \
        sellumaq_judy1 set = {(void *)array}; \
        if (call(&set, *word, word)) return 1; \
        pass(array, word, step); \
        return 0; \
    }

SET_SEARCH(Judy1First, sellumaq_judy1_first, UP)
SET_SEARCH(Judy1Next, sellumaq_judy1_next, UP)
SET_SEARCH(Judy1Last, sellumaq_judy1_last, DOWN)
SET_SEARCH(Judy1Prev, sellumaq_judy1_prev, DOWN)
SET_SEARCH(Judy1FirstEmpty, sellumaq_judy1_first_empty, STAYS)
SET_SEARCH(Judy1NextEmpty, sellumaq_judy1_next_empty, STAYS)
SET_SEARCH(Judy1LastEmpty, sellumaq_judy1_last_empty, STAYS)
SET_SEARCH(Judy1PrevEmpty, sellumaq_judy1_prev_empty, STAYS)

#define MAP_SEARCH(name, call, step) \
    PPvoid_t name(Pcvoid_t array, Word_t *word, PJError_t error) { \
        SEARCHES(refuse_slot); \
        sellumaq_judyl map = {(void *)array}; \
        uint64_t *slot; \
        if (call(&map, *word, word, &slot)) return (PPvoid_t)slot; \
        pass(array, word, step); \
        return NULL; \
    }

MAP_SEARCH(JudyLFirst, sellumaq_judyl_first_slot, UP)
MAP_SEARCH(JudyLNext, sellumaq_judyl_next_slot, UP)
MAP_SEARCH(JudyLLast, sellumaq_judyl_last_slot, DOWN)
MAP_SEARCH(JudyLPrev, sellumaq_judyl_prev_slot, DOWN)

#define MAP_EMPTIES(name, call) \
    int name(Pcvoid_t array, Word_t *word, PJError_t error) { \
        SEARCHES(refuse); \
        sellumaq_judyl map = {(void *)array}; \
        return call(&map, *word, word); \
    }

MAP_EMPTIES(JudyLFirstEmpty, sellumaq_judyl_first_empty)
MAP_EMPTIES(JudyLNextEmpty, sellumaq_judyl_next_empty)
MAP_EMPTIES(JudyLLastEmpty, sellumaq_judyl_last_empty)
MAP_EMPTIES(JudyLPrevEmpty, sellumaq_judyl_prev_empty)

int Judy1ByCount(Pcvoid_t array, Word_t n, Word_t *word, PJError_t error) {
    SEARCHES(refuse);
    sellumaq_judy1 set = {(void *)array};
    return sellumaq_judy1_by_count(&set, n, word);
}

PPvoid_t JudyLByCount(Pcvoid_t array, Word_t n, Word_t *word, PJError_t error) {
    SEARCHES(refuse_slot);
    sellumaq_judyl map = {(void *)array};
    uint64_t *slot;
    return sellumaq_judyl_by_count_slot(&map, n, word, &slot) ? (PPvoid_t)slot : NULL;
}

Word_t Judy1Count(Pcvoid_t array, Word_t from, Word_t to, PJError_t error) {
    sellumaq_judy1 set = {(void *)array};
    tell(error, JU_ERRNO_NONE);
    return sellumaq_judy1_count(&set, from, to);
}

Word_t JudyLCount(Pcvoid_t array, Word_t from, Word_t to, PJError_t error) {
    sellumaq_judyl map = {(void *)array};
    tell(error, JU_ERRNO_NONE);
    return sellumaq_judyl_count(&map, from, to);
}

/* Whether a list's keys ascend. */
static int ascend(const Word_t *keys, Word_t count) {
    for (Word_t at = 1; at < count; at++)
        if (keys[at - 1] >= keys[at]) return 0;
    return 1;
}

/* What a list of keys asks of the caller, beside those. */
#define MAKES \
    CHANGES(refuse); \
    if (*array) return refuse(error, JU_ERRNO_NONNULLPARRAY); \
    if (!keys) return refuse(error, JU_ERRNO_NULLPINDEX)

int Judy1SetArray(PPvoid_t array, Word_t count, const Word_t *keys, PJError_t error) {
    MAKES;
    if (!ascend(keys, count)) return refuse(error, JU_ERRNO_UNSORTED);
    for (Word_t at = 0; at < count; at++) {
        if (Judy1Set(array, keys[at], error) == 1) continue;
        Judy1FreeArray(array, PJE0);
        return JERR;
    }
    return 1;
}

int JudyLInsArray(PPvoid_t array, Word_t count, const Word_t *keys, const Word_t *values, PJError_t error) {
    MAKES;
    if (!values) return refuse(error, JU_ERRNO_NULLPVALUE);
    if (!ascend(keys, count)) return refuse(error, JU_ERRNO_UNSORTED);
    for (Word_t at = 0; at < count; at++) {
        PPvoid_t slot = JudyLIns(array, keys[at], error);
        if (slot != PPJERR) {
            *(PWord_t)slot = values[at];
            continue;
        }
        JudyLFreeArray(array, PJE0);
        return JERR;
    }
    return 1;
}

/* The slot that an insert of a string hands out, or why it hands out none. */
static PPvoid_t inserted(PJError_t error, uint32_t answer, uint64_t *slot) {
    if (answer == SELLUMAQ_FOUND) return (PPvoid_t)slot;
    return refuse_slot(error, answer == SELLUMAQ_NO_MEMORY ? JU_ERRNO_NOMEM : JU_ERRNO_FULL);
}

PPvoid_t JudySLIns(PPvoid_t array, const uint8_t *string, PJError_t error) {
    CHANGES(refuse_slot);
    READS(refuse_slot);
    uint64_t *slot = NULL;
    change change = begin(array);
    uint32_t answer = sellumaq_judysl_ins((sellumaq_judysl *)array, string, strlen((const char *)string), &slot);
    if (answer == SELLUMAQ_FOUND) end(array, change);
    else judysl_end(array, change);
    return inserted(error, answer, slot);
}

int JudySLDel(PPvoid_t array, const uint8_t *string, PJError_t error) {
    CHANGES(refuse);
    READS(refuse);
    change change = begin(array);
    int was_there = sellumaq_judysl_del((sellumaq_judysl *)array, string, strlen((const char *)string));
    if (was_there) judysl_end(array, change);
    return was_there;
}

Word_t JudySLFreeArray(PPvoid_t array, PJError_t error) {
    CHANGES(refuse);
    return judysl_freed(array);
}

PPvoid_t JudySLGet(Pcvoid_t array, const uint8_t *string, PJError_t error) {
    READS(refuse_slot);
    sellumaq_judysl map = {(void *)array};
    uint64_t *slot;
    return sellumaq_judysl_slot(&map, string, strlen((const char *)string), &slot) ? (PPvoid_t)slot : NULL;
}

typedef uint32_t scan(const sellumaq_judysl *map, uint8_t *buffer, size_t capacity, size_t *length, uint64_t **slot);
typedef uint32_t value_scan(const sellumaq_judysl *map, uint8_t *buffer, size_t capacity, size_t *length, uint64_t *value);

/* A search of strings: by two calls that find the same key, one with its slot, and one that tells how long it is. */
typedef struct {
    scan *slot;
    value_scan *value;
} searcher;

/* Up to so many bytes a string is found in a buffer of the search's own. */
enum { SHORT = 1024 };

/* A search from a short string for one of any length, which replaces it where it is short too. The calls may write
 * behind a key that they find, up to the capacity that they are told, and how much room the caller has isn't told: so
 * the key is found in a buffer of this call's. */
static uint32_t search_short(scan *call, const sellumaq_judysl *map, uint8_t *string, size_t *length, uint64_t **slot) {
    uint8_t buffer[SHORT];
    memcpy(buffer, string, *length);
    uint32_t told = call(map, buffer, sizeof buffer, length, slot);
    if (told == SELLUMAQ_FOUND) memcpy(string, buffer, *length);
    return told;
}

/* A search from a string, which the string found replaces. One that is no longer fits the caller's room, and a longer
 * one does too, as the manual page asks; how long it is is told first, so that nothing behind it is touched. */
static PPvoid_t search(searcher by, Pcvoid_t array, uint8_t *string, PJError_t error) {
    READS(refuse_slot);
    sellumaq_judysl map = {(void *)array};
    size_t length = strlen((const char *)string);
    uint64_t *slot, wanted = 0;
    uint32_t told = length <= SHORT ? search_short(by.slot, &map, string, &length, &slot)
                                    : by.slot(&map, string, length, &length, &slot);
    if (told == SELLUMAQ_TOO_SMALL && by.value(&map, string, length, &length, &wanted) == SELLUMAQ_TOO_SMALL)
        told = by.slot(&map, string, wanted, &length, &slot);
    if (told != SELLUMAQ_FOUND) return NULL;
    string[length] = 0;
    return (PPvoid_t)slot;
}

#define STRING_SEARCH(name, which) \
    PPvoid_t name(Pcvoid_t array, uint8_t *string, PJError_t error) { \
        return search((searcher){sellumaq_judysl_##which##_slot, sellumaq_judysl_##which}, array, string, error); \
    }

STRING_SEARCH(JudySLFirst, first)
STRING_SEARCH(JudySLNext, next)
STRING_SEARCH(JudySLLast, last)
STRING_SEARCH(JudySLPrev, prev)

/* A pointer to no bytes that isn't null. */
static const uint8_t *bytes_at(const void *bytes) { return bytes ? bytes : (const uint8_t *)""; }

PPvoid_t JudyHSIns(PPvoid_t array, void *bytes, Word_t length, PJError_t error) {
    CHANGES(refuse_slot);
    READS_BYTES(refuse_slot);
    uint64_t *slot = NULL;
    change change = begin(array);
    uint32_t answer = sellumaq_judyhs_ins((sellumaq_judyhs *)array, bytes_at(bytes), length, &slot);
    if (answer == SELLUMAQ_FOUND) end(array, change);
    else judyhs_end(array, change);
    return inserted(error, answer, slot);
}

int JudyHSDel(PPvoid_t array, void *bytes, Word_t length, PJError_t error) {
    CHANGES(refuse);
    READS_BYTES(refuse);
    change change = begin(array);
    int was_there = sellumaq_judyhs_del((sellumaq_judyhs *)array, bytes_at(bytes), length);
    if (was_there) judyhs_end(array, change);
    return was_there;
}

Word_t JudyHSFreeArray(PPvoid_t array, PJError_t error) {
    CHANGES(refuse);
    return judyhs_freed(array);
}

PPvoid_t JudyHSGet(Pcvoid_t array, void *bytes, Word_t length) {
    /* The call has nowhere to put an error. */
    if (!bytes && length) return NULL;
    sellumaq_judyhs map = {(void *)array};
    uint64_t *slot;
    return sellumaq_judyhs_slot(&map, bytes_at(bytes), length, &slot) ? (PPvoid_t)slot : NULL;
}

Word_t Judy1MemUsed(Pcvoid_t array) { return array ? *sellumaq_hp_bytes(array) : 0; }
Word_t Judy1MemActive(Pcvoid_t array) { return Judy1MemUsed(array); }
Word_t JudyLMemUsed(Pcvoid_t array) { return array ? *sellumaq_hp_bytes(array) : 0; }
Word_t JudyLMemActive(Pcvoid_t array) { return JudyLMemUsed(array); }
