/* Sellumaq: Judy arrays for C, with the answers of finite sets and maps.
 *
 * Four kinds of arrays: a set of 64-bit words (`sellumaq_judy1`), and maps to 64-bit words from words
 * (`sellumaq_judyl`), from strings (`sellumaq_judysl`) and from byte strings (`sellumaq_judyhs`). All but the last
 * keep their keys in order. None takes memory before its first insert.
 *
 * An array is one word, the handle. A handle of zeros is the empty array, so `sellumaq_judyl map = {0};` is all that
 * making one takes; `sellumaq_judyl_free` gives all its memory back, and leaves the empty array. Each call is proved
 * to answer as a plain finite set or map does, but where its comment says otherwise (see the project's README). What
 * the proof asks of the caller, and no compiler checks:
 *
 *   - One call at a time is made on an array; what threads may do besides is told below.
 *   - A copy of a handle's word is the same array, so after a change of the one the other must not be used.
 *   - A slot, the pointer to the value of a key, may be read and written until the next call that may change the
 *     array: each whose handle isn't `const`, but `slot` and its fellows.
 *   - A pointer through which a call answers points to a word of the caller's, and a pointer to a key or a buffer to
 *     as many bytes, keys or pairs as are told beside it. It isn't NULL, also where these are none. No two of one
 *     call overlap.
 *   - No call is made from within a signal handler.
 *
 * Threads may read one array together, by the calls whose handle is `const`, and each may change arrays of its own.
 * A call that may change an array is the only one on it. The proofs are of one call at a time on an array. That
 * threads may read one together is read off the code: these calls write nothing in an array, and the library has no
 * data but the arrays'. It is tested by threads under helgrind. A write through a slot changes the array: no other
 * thread may be in a call then that reads that value.
 *
 * Cost. Of the searches that the calls on words make it is proved how many nodes of the tree they enter, whatever
 * the array holds. A look-up, a rank and a place enter at most 8, a neighbour and the nearest word that is no key at
 * most 15. That `test`, `get`, `by_count`, `first`, `first_empty` and the fellows of these two make at most one
 * search each, and `count` two, is read off the code.
 *
 * Memory. A map from strings or byte strings that lost most of its keys keeps each page of their bytes in which one
 * is left. `sellumaq_judysl_shrink` and `sellumaq_judyhs_shrink` give such pages back. How
 * many bytes an array takes is told by `sellumaq_judy1_bytes` and its fellows.
 *
 * Machine: a processor of x86-64-v2, which has SSE4.2 and popcnt, and Linux with glibc.
 *
 * Calls that answer through a pointer write there only where they answer true, or SELLUMAQ_FOUND; `insert` where it
 * answers SELLUMAQ_PRESENT, and `from_sorted` where it answers SELLUMAQ_BAD_KEY. Searches of strings, `dump`, `load`
 * and `open` say it at their place.
 *
 * Not even a delete of the last key makes a handle zeros: the handle keeps the few bytes that it points to, up to
 * `free`. HP's names do so, in the other library. */
#ifndef SELLUMAQ_H
#define SELLUMAQ_H

#include <stdbool.h>
#include <stddef.h>
#include <stdint.h>

/* The version that this header is of. Before a release its text says so, `1.0.0-dev`, and the numbers are those of
 * the release to come. */
#define SELLUMAQ_VERSION "1.0.0-dev"
#define SELLUMAQ_VERSION_MAJOR 1
#define SELLUMAQ_VERSION_MINOR 0
#define SELLUMAQ_VERSION_PATCH 0

#ifdef __cplusplus
extern "C" {
#endif

/* The version of the library that the program runs over, as SELLUMAQ_VERSION tells that of the header. The text is
 * never freed. This call and `sellumaq_error_text` aren't among the proved ones. */
const char *sellumaq_version(void);

/* What a call answers that has more to tell than yes and no. */
enum {
    SELLUMAQ_PRESENT = 0,   /* of `set`, `put` and `insert`: the key was there */
    /* of these: the key was absent, and is there now; of `from_sorted`, `union` and fellows: the array is made */
    SELLUMAQ_ADDED = 1,
    SELLUMAQ_NONE = 0,      /* of strings: there is no such key */
    SELLUMAQ_FOUND = 1,     /* of strings and byte strings: the key is there, and what was asked of it is told */
    SELLUMAQ_DONE = 1,      /* of `dump`, `load`, `split_off`, `append`, `copy_range` and fellows: it is done */
    /* the key is absent, there is no memory for it, and nothing changed; of `from_sorted`: none for the keys */
    SELLUMAQ_NO_MEMORY = 2,
    /* of strings and byte strings (words have no limit but memory): the key is absent, and the map holds
     * 4,294,967,295 keys; of `from_sorted`: the keys are more than that */
    SELLUMAQ_FULL = 3,
    /* of strings: a byte of the key is zero; of byte strings: it has more bytes than any object; of `from_sorted` also:
     * a key isn't above the one before it; of `dump`: a key has more than SELLUMAQ_SAVED_KEY_BYTES */
    SELLUMAQ_BAD_KEY = 4,
    /* of strings: the key found doesn't fit the caller's buffer, and `*value` tells how many bytes it has, but where a
     * slot is asked for; of `dump`: the text doesn't, and `*size` tells how many it has */
    SELLUMAQ_TOO_SMALL = 5,
    /* of `dump`: the name has no bytes, more than 32, or one that is no ASCII letter, digit, `_` or `-` */
    SELLUMAQ_BAD_NAME = 6,
    SELLUMAQ_TOO_MANY = 7,  /* of `dump`: there are more than 4,294,967,295 keys, which no dump can say */
    SELLUMAQ_BAD_DUMP = 8,  /* of `load`: the bytes are no dump of one such array, and `*fault` says why */
    SELLUMAQ_BAD_FORMAT = 9, /* of `dump`: the format is neither 1 nor 2 */
    SELLUMAQ_SYSTEM = 10    /* of `save` and `open`: a call of the system failed, and errno says why */
};

/* An answer as text for people, in English and without an end of line: from SELLUMAQ_NO_MEMORY on why the call
 * refused. 0 and 1 mean two things each, and no refusal, and their texts say so; any other number is told as one
 * that no call answers. The text is never freed. */
const char *sellumaq_error_text(int number);

/* ---- sets of words ---- */

typedef struct { void *array; } sellumaq_judy1;

/* Puts a key in: SELLUMAQ_ADDED where it was absent, SELLUMAQ_PRESENT where it was there; SELLUMAQ_NO_MEMORY where
 * it is absent and there is no memory for it, and nothing changed. A key that is there is never refused. */
uint32_t sellumaq_judy1_set(sellumaq_judy1 *set, uint64_t key);

/* Takes a key out; true where it was there. Never refused. After the last key the handle may still hold a little
 * memory, up to `free`. */
bool sellumaq_judy1_unset(sellumaq_judy1 *set, uint64_t key);

/* Whether a key is there. */
bool sellumaq_judy1_test(const sellumaq_judy1 *set, uint64_t key);

/* Looks up the keys of a list, as many as there is room for, and tells of each at its place what
 * `sellumaq_judy1_test` answers; answers how many these are. Up to 16 keys go down the set side by side and wait for
 * memory together. In large sets of words far apart that takes less time than a call each, and in sets that stand in
 * the caches more. */
size_t sellumaq_judy1_test_many(const sellumaq_judy1 *set, const uint64_t *keys, size_t count, bool *there,
    size_t capacity);

/* The nearest keys: the least from `from` on, the least above it, the greatest up to it, the greatest below it.
 * False where there is none. */
bool sellumaq_judy1_first(const sellumaq_judy1 *set, uint64_t from, uint64_t *key);
bool sellumaq_judy1_next(const sellumaq_judy1 *set, uint64_t from, uint64_t *key);
bool sellumaq_judy1_last(const sellumaq_judy1 *set, uint64_t from, uint64_t *key);
bool sellumaq_judy1_prev(const sellumaq_judy1 *set, uint64_t from, uint64_t *key);

/* The same four among the words that are no keys. */
bool sellumaq_judy1_first_empty(const sellumaq_judy1 *set, uint64_t from, uint64_t *word);
bool sellumaq_judy1_next_empty(const sellumaq_judy1 *set, uint64_t from, uint64_t *word);
bool sellumaq_judy1_last_empty(const sellumaq_judy1 *set, uint64_t from, uint64_t *word);
bool sellumaq_judy1_prev_empty(const sellumaq_judy1 *set, uint64_t from, uint64_t *word);

/* The keys from `from` on, in ascending order, as many as the buffer has room for; answers how many these are. Fewer
 * than that are the last ones, and what stands behind them in the buffer stays. The next call goes on from above the
 * last key; the array may change between the two. A walk of 64 keys a call takes a small part of the time of `next`. */
size_t sellumaq_judy1_walk(const sellumaq_judy1 *set, uint64_t from, uint64_t *keys, size_t capacity);

/* The keys from `from` down, in descending order, as many as the buffer has room for; answers how many these are, and
 * leaves what stands behind them, as `sellumaq_judy1_walk` does. The next call goes on from below the last key. A call
 * first counts its keys and finds the last of them by its place, so ask for many at once. */
size_t sellumaq_judy1_walk_down(const sellumaq_judy1 *set, uint64_t from, uint64_t *keys, size_t capacity);

/* Makes the set one of `count` keys that strictly ascend, in place of what it held, whose memory is given back:
 * SELLUMAQ_ADDED. It takes a part of the time of as many `set`, and 16 bytes more for each key while it is at work.
 * Else the set is as it was. SELLUMAQ_BAD_KEY: a key isn't above the one before it, and `*place` is the place of the
 * first such key, counted from 0. SELLUMAQ_NO_MEMORY: the keys ascend, and there is no memory for them. */
uint32_t sellumaq_judy1_from_sorted(sellumaq_judy1 *set, const uint64_t *keys, size_t count, size_t *place);

/* Makes the set one of `count` keys in any order, of which some may be alike, in place of what it held, whose memory
 * is given back: SELLUMAQ_DONE. Else it is as it was: SELLUMAQ_NO_MEMORY. A copy of the keys is sorted, which takes
 * 32 bytes for each meanwhile. The sorting is not among what is proved; `sellumaq_judy1_from_sorted`, to which it
 * hands the keys, is. */
uint32_t sellumaq_judy1_from_unsorted(sellumaq_judy1 *set, const uint64_t *keys, size_t count);

/* How many keys there are. */
uint64_t sellumaq_judy1_len(const sellumaq_judy1 *set);

/* How many bytes of memory the set takes: those of its blocks and of what the handle points to, as they were asked for,
 * without what malloc takes beside each. 0 where the handle is zeros, and at most 40 for one key. It goes over all
 * nodes, asks for no memory and changes nothing. The number is tested and not proved. */
uint64_t sellumaq_judy1_bytes(const sellumaq_judy1 *set);

/* How many keys there are from one word to another, both included; 0 where the first is above the second. */
uint64_t sellumaq_judy1_count(const sellumaq_judy1 *set, uint64_t from, uint64_t to);

/* The n-th key, counted from 1; false for 0 and above the number of keys. */
bool sellumaq_judy1_by_count(const sellumaq_judy1 *set, uint64_t n, uint64_t *key);

/* How many words from one to another, both included, are no keys; 0 where the first is above the second. All 2^64
 * words are answered as 2^64 - 1. */
uint64_t sellumaq_judy1_count_empty(const sellumaq_judy1 *set, uint64_t from, uint64_t to);

/* Takes the keys from one word to another out, both included, and answers how many they were. It can't fail. Where
 * all keys of a node go, it is freed whole; where memory for a smaller node is refused, the larger one stays. */
uint64_t sellumaq_judy1_remove_range(sellumaq_judy1 *set, uint64_t from, uint64_t to);

/* Takes all keys out but those from one word to another, both included, and answers how many went: all where the
 * first is above the second. It can't fail. Where more keys go than stay, these are put into new nodes, if there is
 * memory. */
uint64_t sellumaq_judy1_retain_range(sellumaq_judy1 *set, uint64_t from, uint64_t to);

/* Makes `made` the set of the keys from one word to another, both included, with nodes as small as they allow, in
 * place of what it held: SELLUMAQ_DONE. Else it is as it was: SELLUMAQ_NO_MEMORY. The set stays. The two handles are
 * two. */
uint32_t sellumaq_judy1_copy_range(sellumaq_judy1 *made, const sellumaq_judy1 *set, uint64_t from, uint64_t to);

/* Moves the keys from a word on to `made`, in place of what that held: SELLUMAQ_DONE. Else both are as they were:
 * SELLUMAQ_NO_MEMORY. The two handles are two. */
uint32_t sellumaq_judy1_split_off(sellumaq_judy1 *made, sellumaq_judy1 *set, uint64_t at);

/* Moves all keys of `other` into the set, and leaves `other` empty: SELLUMAQ_DONE. Else both are as they were:
 * SELLUMAQ_NO_MEMORY, or SELLUMAQ_FULL where they would have all 2^64 words. The two handles are two. */
uint32_t sellumaq_judy1_append(sellumaq_judy1 *set, sellumaq_judy1 *other);

/* Puts each word from one to another in, both included, or turns each of them round: one that is a key goes, and one
 * that is none comes. Nothing changes where the first is above the second. SELLUMAQ_DONE. Else the set is as it was:
 * SELLUMAQ_NO_MEMORY, or SELLUMAQ_FULL for all 2^64 words. All nodes are made anew, in some 20 nanoseconds a word,
 * and take two bits a word. Where three quarters of that aren't to be had in one piece for a wide range, that is
 * told at once. */
uint32_t sellumaq_judy1_insert_range(sellumaq_judy1 *set, uint64_t from, uint64_t to);
uint32_t sellumaq_judy1_flip(sellumaq_judy1 *set, uint64_t from, uint64_t to);

/* Makes `made` a copy, with nodes as small as its keys allow, in place of what it held: SELLUMAQ_ADDED. Else it is
 * as it was: SELLUMAQ_NO_MEMORY. The two handles are two. */
uint32_t sellumaq_judy1_copy(sellumaq_judy1 *made, const sellumaq_judy1 *set);

/* How many keys both have; the one or the other; the one and not the other; exactly one of them. All 2^64 words,
 * which no memory holds, would be answered as 2^64 - 1. Neither set changes. It goes through both node by node, and
 * asks for no memory. */
uint64_t sellumaq_judy1_intersection_count(const sellumaq_judy1 *one, const sellumaq_judy1 *other);
uint64_t sellumaq_judy1_union_count(const sellumaq_judy1 *one, const sellumaq_judy1 *other);
uint64_t sellumaq_judy1_difference_count(const sellumaq_judy1 *one, const sellumaq_judy1 *other);
uint64_t sellumaq_judy1_symmetric_difference_count(const sellumaq_judy1 *one, const sellumaq_judy1 *other);

/* Makes `made` the set of the keys that the one or the other has; that both have; that the one has and not the
 * other; that exactly one of them has. What it held is given back: SELLUMAQ_ADDED. Else it is as it was:
 * SELLUMAQ_NO_MEMORY, or SELLUMAQ_FULL for all 2^64 words. The two stay. The three handles are three: to make one of
 * the two the result, make a new one, free the old one and copy the handle. */
uint32_t sellumaq_judy1_union(sellumaq_judy1 *made, const sellumaq_judy1 *one, const sellumaq_judy1 *other);
uint32_t sellumaq_judy1_intersection(sellumaq_judy1 *made, const sellumaq_judy1 *one, const sellumaq_judy1 *other);
uint32_t sellumaq_judy1_difference(sellumaq_judy1 *made, const sellumaq_judy1 *one, const sellumaq_judy1 *other);
uint32_t sellumaq_judy1_symmetric_difference(sellumaq_judy1 *made, const sellumaq_judy1 *one,
    const sellumaq_judy1 *other);

/* Whether each key of the one is a key of the other; whether none is; whether both have the same keys. It ends in the
 * node where that is known. */
bool sellumaq_judy1_is_subset(const sellumaq_judy1 *one, const sellumaq_judy1 *other);
bool sellumaq_judy1_is_disjoint(const sellumaq_judy1 *one, const sellumaq_judy1 *other);
bool sellumaq_judy1_has_same_keys(const sellumaq_judy1 *one, const sellumaq_judy1 *other);

/* Gives all memory back, and answers how many keys there were. The handle is the empty array then. */
uint64_t sellumaq_judy1_free(sellumaq_judy1 *set);

/* ---- maps from words to words ---- */

typedef struct { void *array; } sellumaq_judyl;

/* Hands out the slot of a key, which is put in with the value 0 where it is absent; the value of a key that is there
 * stays. False where the key is absent and there is no memory for it; nothing changed then. */
bool sellumaq_judyl_ins(sellumaq_judyl *map, uint64_t key, uint64_t **slot);

/* Gives a key a value, in place of the one that it had, and answers as `sellumaq_judy1_set` does. A new key takes
 * less time by this than by its slot. */
uint32_t sellumaq_judyl_put(sellumaq_judyl *map, uint64_t key, uint64_t value);

/* The same, and where the key was there it tells the value that it had. It takes no second way down the map. */
uint32_t sellumaq_judyl_insert(sellumaq_judyl *map, uint64_t key, uint64_t value, uint64_t *was);

/* The value of a key; false where the key is absent. */
bool sellumaq_judyl_get(const sellumaq_judyl *map, uint64_t key, uint64_t *value);

/* What a look-up of many keys tells of one: its value and 1; 0 and 0 where it is absent. */
typedef struct { uint64_t value, there; } sellumaq_found;

/* Looks up the keys of a list, as many as there is room for, and tells of each at its place what
 * `sellumaq_judyl_get` answers; answers how many these are. Up to 16 keys go down the map side by side and wait for
 * memory together. In large maps of words far apart that takes less time than a call each, and in maps that stand in
 * the caches more. */
size_t sellumaq_judyl_get_many(const sellumaq_judyl *map, const uint64_t *keys, size_t count, sellumaq_found *found,
    size_t capacity);

/* The slot of a key; false where the key is absent. */
bool sellumaq_judyl_slot(const sellumaq_judyl *map, uint64_t key, uint64_t **slot);

/* Takes a key out with its value; true where it was there. Never refused. After the last key the handle may still
 * hold a little memory, up to `free`. */
bool sellumaq_judyl_del(sellumaq_judyl *map, uint64_t key);

/* The same, and where the key was there it tells the value that it had. */
bool sellumaq_judyl_remove(sellumaq_judyl *map, uint64_t key, uint64_t *was);

/* The nearest keys: the least from `from` on, the least above it, the greatest up to it, the greatest below it.
 * False where there is none. */
bool sellumaq_judyl_first(const sellumaq_judyl *map, uint64_t from, uint64_t *key);
bool sellumaq_judyl_next(const sellumaq_judyl *map, uint64_t from, uint64_t *key);
bool sellumaq_judyl_last(const sellumaq_judyl *map, uint64_t from, uint64_t *key);
bool sellumaq_judyl_prev(const sellumaq_judyl *map, uint64_t from, uint64_t *key);

/* The same four keys with their values, each in one way down the map: a walk over keys and values takes half as long
 * by these. */
bool sellumaq_judyl_first_entry(const sellumaq_judyl *map, uint64_t from, uint64_t *key, uint64_t *value);
bool sellumaq_judyl_next_entry(const sellumaq_judyl *map, uint64_t from, uint64_t *key, uint64_t *value);
bool sellumaq_judyl_last_entry(const sellumaq_judyl *map, uint64_t from, uint64_t *key, uint64_t *value);
bool sellumaq_judyl_prev_entry(const sellumaq_judyl *map, uint64_t from, uint64_t *key, uint64_t *value);

/* The same four keys with the slots of their values. */
bool sellumaq_judyl_first_slot(const sellumaq_judyl *map, uint64_t from, uint64_t *key, uint64_t **slot);
bool sellumaq_judyl_next_slot(const sellumaq_judyl *map, uint64_t from, uint64_t *key, uint64_t **slot);
bool sellumaq_judyl_last_slot(const sellumaq_judyl *map, uint64_t from, uint64_t *key, uint64_t **slot);
bool sellumaq_judyl_prev_slot(const sellumaq_judyl *map, uint64_t from, uint64_t *key, uint64_t **slot);

/* The same four among the words that are no keys. */
bool sellumaq_judyl_first_empty(const sellumaq_judyl *map, uint64_t from, uint64_t *word);
bool sellumaq_judyl_next_empty(const sellumaq_judyl *map, uint64_t from, uint64_t *word);
bool sellumaq_judyl_last_empty(const sellumaq_judyl *map, uint64_t from, uint64_t *word);
bool sellumaq_judyl_prev_empty(const sellumaq_judyl *map, uint64_t from, uint64_t *word);

/* A key with its value. */
typedef struct { uint64_t key, value; } sellumaq_pair;

/* The keys from `from` on with their values, by ascending key, as many as the buffer has room for; answers how many
 * these are, as `sellumaq_judy1_walk` does. */
size_t sellumaq_judyl_walk(const sellumaq_judyl *map, uint64_t from, sellumaq_pair *pairs, size_t capacity);

/* The keys from `from` down with their values, by descending key, as many as the buffer has room for; answers how many
 * these are, as `sellumaq_judy1_walk_down` does. */
size_t sellumaq_judyl_walk_down(const sellumaq_judyl *map, uint64_t from, sellumaq_pair *pairs, size_t capacity);

/* Makes the map one of `count` keys that strictly ascend, each with its value, as `sellumaq_judy1_from_sorted` does. */
uint32_t sellumaq_judyl_from_sorted(sellumaq_judyl *map, const sellumaq_pair *pairs, size_t count, size_t *place);

/* Makes the map one of `count` keys in any order, each with its value, as `sellumaq_judy1_from_unsorted` does. Of
 * pairs with one key the last one's value stays. */
uint32_t sellumaq_judyl_from_unsorted(sellumaq_judyl *map, const sellumaq_pair *pairs, size_t count);

/* How many keys there are. */
uint64_t sellumaq_judyl_len(const sellumaq_judyl *map);

/* How many bytes of memory the map takes, as sellumaq_judy1_bytes answers of a set. */
uint64_t sellumaq_judyl_bytes(const sellumaq_judyl *map);

/* How many keys there are from one word to another, both included; 0 where the first is above the second. */
uint64_t sellumaq_judyl_count(const sellumaq_judyl *map, uint64_t from, uint64_t to);

/* The n-th key, counted from 1; false for 0 and above the number of keys. */
bool sellumaq_judyl_by_count(const sellumaq_judyl *map, uint64_t n, uint64_t *key);

/* The same key with its value, in one way down the map, and with the slot of its value. */
bool sellumaq_judyl_by_count_entry(const sellumaq_judyl *map, uint64_t n, uint64_t *key, uint64_t *value);
bool sellumaq_judyl_by_count_slot(const sellumaq_judyl *map, uint64_t n, uint64_t *key, uint64_t **slot);

/* How many words from one to another, both included, are no keys; 0 where the first is above the second. All 2^64
 * words are answered as 2^64 - 1. */
uint64_t sellumaq_judyl_count_empty(const sellumaq_judyl *map, uint64_t from, uint64_t to);

/* Takes the keys from one word to another out, both included, and answers how many they were. It can't fail. Where
 * all keys of a node go, it is freed whole; where memory for a smaller node is refused, the larger one stays. */
uint64_t sellumaq_judyl_remove_range(sellumaq_judyl *map, uint64_t from, uint64_t to);

/* Takes all keys out but those from one word to another, both included, and answers how many went: all where the
 * first is above the second. It can't fail. Where more keys go than stay, these are put into new nodes, if there is
 * memory. */
uint64_t sellumaq_judyl_retain_range(sellumaq_judyl *map, uint64_t from, uint64_t to);

/* Makes `made` the map of the keys from one word to another, both included, and their values, with nodes as small as
 * they allow, in place of what it held: SELLUMAQ_DONE. Else it is as it was: SELLUMAQ_NO_MEMORY. The map stays. The
 * two handles are two. */
uint32_t sellumaq_judyl_copy_range(sellumaq_judyl *made, const sellumaq_judyl *map, uint64_t from, uint64_t to);

/* Moves the keys from a word on, with their values, to `made`, in place of what that held: SELLUMAQ_DONE. Else both
 * are as they were: SELLUMAQ_NO_MEMORY. The two handles are two. */
uint32_t sellumaq_judyl_split_off(sellumaq_judyl *made, sellumaq_judyl *map, uint64_t at);

/* Moves all keys of `other` into the map, and leaves `other` empty: SELLUMAQ_DONE. A key that both have keeps the
 * map's value. Else both are as they were: SELLUMAQ_NO_MEMORY, or SELLUMAQ_FULL where they would have all 2^64
 * words. The two handles are two. */
uint32_t sellumaq_judyl_append(sellumaq_judyl *map, sellumaq_judyl *other);

/* Makes `made` a copy, with nodes as small as its keys allow, in place of what it held: SELLUMAQ_ADDED. Else it is
 * as it was: SELLUMAQ_NO_MEMORY. The two handles are two. */
uint32_t sellumaq_judyl_copy(sellumaq_judyl *made, const sellumaq_judyl *map);

/* How many keys both have; the one or the other; the one and not the other; exactly one of them. All 2^64 words,
 * which no memory holds, would be answered as 2^64 - 1. Neither map changes. It goes through both node by node, and
 * asks for no memory. */
uint64_t sellumaq_judyl_intersection_count(const sellumaq_judyl *one, const sellumaq_judyl *other);
uint64_t sellumaq_judyl_union_count(const sellumaq_judyl *one, const sellumaq_judyl *other);
uint64_t sellumaq_judyl_difference_count(const sellumaq_judyl *one, const sellumaq_judyl *other);
uint64_t sellumaq_judyl_symmetric_difference_count(const sellumaq_judyl *one, const sellumaq_judyl *other);

/* Makes `made` the map of the keys that the one or the other has; that both have; that the one has and not the
 * other; that exactly one of them has. What it held is given back: SELLUMAQ_ADDED. Else it is as it was:
 * SELLUMAQ_NO_MEMORY, or SELLUMAQ_FULL for all 2^64 words. The two stay. The three handles are three: to make one of
 * the two the result, make a new one, free the old one and copy the handle. The values are those of the one, but
 * where it lacks the key. */
uint32_t sellumaq_judyl_union(sellumaq_judyl *made, const sellumaq_judyl *one, const sellumaq_judyl *other);
uint32_t sellumaq_judyl_intersection(sellumaq_judyl *made, const sellumaq_judyl *one, const sellumaq_judyl *other);
uint32_t sellumaq_judyl_difference(sellumaq_judyl *made, const sellumaq_judyl *one, const sellumaq_judyl *other);
uint32_t sellumaq_judyl_symmetric_difference(sellumaq_judyl *made, const sellumaq_judyl *one,
    const sellumaq_judyl *other);

/* Whether each key of the one is a key of the other; whether none is; whether both have the same keys, whatever
 * their values are. It ends in the node where that is known. */
bool sellumaq_judyl_is_subset(const sellumaq_judyl *one, const sellumaq_judyl *other);
bool sellumaq_judyl_is_disjoint(const sellumaq_judyl *one, const sellumaq_judyl *other);
bool sellumaq_judyl_has_same_keys(const sellumaq_judyl *one, const sellumaq_judyl *other);

/* Gives all memory back, and answers how many keys there were. The handle is the empty array then. */
uint64_t sellumaq_judyl_free(sellumaq_judyl *map);

/* ---- maps from strings and from byte strings: what both have ---- */

/* The most bytes of a key that a dump can say. A map takes longer ones, as long as an object of C may be: PTRDIFF_MAX
 * bytes. */
#define SELLUMAQ_SAVED_KEY_BYTES 1024

/* What a walk tells of a key: how many bytes it has, and its value. */
typedef struct { size_t length; uint64_t value; } sellumaq_entry;

/* ---- maps from strings to words ----
 *
 * A key is a string of any number of bytes of which none is zero, without the zero byte that ends it in C. The order
 * is that of its bytes as unsigned numbers, a string before those that go on behind it. No call goes deeper for a
 * longer key, none that searches or counts asks for memory, and no delete of one is refused. */

typedef struct { void *array; } sellumaq_judysl;

/* Hands out the slot of a key, which is put in with the value 0 where it is absent; the value of a key that is there
 * stays. SELLUMAQ_FOUND; or, and then nothing changed and nothing is handed out, the first that applies of
 * SELLUMAQ_BAD_KEY, SELLUMAQ_FULL and SELLUMAQ_NO_MEMORY. A key that is there is never refused. */
uint32_t sellumaq_judysl_ins(sellumaq_judysl *map, const uint8_t *key, size_t length, uint64_t **slot);

/* Gives a key a value: SELLUMAQ_PRESENT where it was there, whose value it replaces, or SELLUMAQ_ADDED; or, and then
 * nothing changed, the first that applies of SELLUMAQ_BAD_KEY, SELLUMAQ_FULL and SELLUMAQ_NO_MEMORY. A key that is
 * there is never refused. */
uint32_t sellumaq_judysl_put(sellumaq_judysl *map, const uint8_t *key, size_t length, uint64_t value);

/* The same, and where the key was there it tells the value that it had. It takes no second way down the map. */
uint32_t sellumaq_judysl_insert(sellumaq_judysl *map, const uint8_t *key, size_t length, uint64_t value, uint64_t *was);

/* The value of a key; false where the key is absent, as bytes that are no key always are. */
bool sellumaq_judysl_get(const sellumaq_judysl *map, const uint8_t *key, size_t length, uint64_t *value);

/* The slot of a key; false where the key is absent. */
bool sellumaq_judysl_slot(const sellumaq_judysl *map, const uint8_t *key, size_t length, uint64_t **slot);

/* Takes a key out with its value; true where it was there. Never refused. After the last key the handle may still
 * hold a little memory, up to `free`. */
bool sellumaq_judysl_del(sellumaq_judysl *map, const uint8_t *key, size_t length);

/* The same, and where the key was there it tells the value that it had. It takes no second way down the map. */
bool sellumaq_judysl_remove(sellumaq_judysl *map, const uint8_t *key, size_t length, uint64_t *was);

/* The nearest keys: the least from a string on, the least above it, the greatest up to it, the greatest below it.
 * The string is the first `*length` bytes of the caller's buffer of `capacity` bytes, and needn't be a key of the
 * map. SELLUMAQ_FOUND: the key found has taken its place, `*length` is the key's length and `*value` its value. Else
 * the buffer and `*length` stay. SELLUMAQ_NONE: there is none. SELLUMAQ_TOO_SMALL: it doesn't fit the buffer, and
 * `*value` tells how many bytes it has, which is the capacity to come again with; with as many as
 * `sellumaq_judysl_longest` tells this never comes, and the key is found by one way down and not two.
 * SELLUMAQ_BAD_KEY: a byte of the string is zero, or `*length` is above `capacity`. */
uint32_t sellumaq_judysl_first(const sellumaq_judysl *map, uint8_t *buffer, size_t capacity, size_t *length,
    uint64_t *value);
uint32_t sellumaq_judysl_next(const sellumaq_judysl *map, uint8_t *buffer, size_t capacity, size_t *length,
    uint64_t *value);
uint32_t sellumaq_judysl_last(const sellumaq_judysl *map, uint8_t *buffer, size_t capacity, size_t *length,
    uint64_t *value);
uint32_t sellumaq_judysl_prev(const sellumaq_judysl *map, uint8_t *buffer, size_t capacity, size_t *length,
    uint64_t *value);

/* The same four keys with the slots of their values: where the four above answer SELLUMAQ_FOUND and write the value to
 * `*value`, the slot of the key found is handed out through `slot`. SELLUMAQ_TOO_SMALL doesn't tell here how many bytes
 * the key has, and `*slot` stays: those above tell it, and as many as `sellumaq_judysl_longest` tells are enough. */
uint32_t sellumaq_judysl_first_slot(const sellumaq_judysl *map, uint8_t *buffer, size_t capacity, size_t *length,
    uint64_t **slot);
uint32_t sellumaq_judysl_next_slot(const sellumaq_judysl *map, uint8_t *buffer, size_t capacity, size_t *length,
    uint64_t **slot);
uint32_t sellumaq_judysl_last_slot(const sellumaq_judysl *map, uint8_t *buffer, size_t capacity, size_t *length,
    uint64_t **slot);
uint32_t sellumaq_judysl_prev_slot(const sellumaq_judysl *map, uint8_t *buffer, size_t capacity, size_t *length,
    uint64_t **slot);

/* The keys from a string on, or those above it where `itself` is false, with their values, by ascending key. The
 * bytes of the keys are written to `bytes`, one key behind the other, and the length and the value of each to its
 * place in `entries`; what stands behind them in both stays. Answers how many keys it told. It ends where no key is
 * left, or where the `room` bytes or the `capacity` entries have no place for the next one. With as many bytes of room
 * as `sellumaq_judysl_longest` tells, and one entry, 0 says that no key is left. 0 too where a byte of the string is
 * zero. Each key but the first is a step from the one before it. Only where `sellumaq_judysl_longest` tells more than
 * 1,024 bytes, or the string has more, it is several ways down the map: there `sellumaq_judysl_next` takes less time,
 * with room for the longest key. */
size_t sellumaq_judysl_walk(const sellumaq_judysl *map, const uint8_t *from, size_t length, bool itself,
                            uint8_t *bytes, size_t room, sellumaq_entry *entries, size_t capacity);

/* Makes the map one of `count` strings that strictly ascend, each with its value, in place of what it held, whose
 * memory is given back: SELLUMAQ_ADDED. The strings stand one behind the other in the `room` bytes, and the length
 * and the value of each in `entries`, as a walk writes them. Else the map is as it was. SELLUMAQ_BAD_KEY: one goes
 * beyond the bytes; or all are there, and one is no key or isn't above the one before it. `*place` is the place of
 * the first such one, counted from 0. SELLUMAQ_FULL: they are keys that ascend, and more than 4,294,967,295.
 * SELLUMAQ_NO_MEMORY: they are keys that ascend, and there is no memory for them. It takes 24 bytes more for each
 * string while it is at work. */
uint32_t sellumaq_judysl_from_sorted(sellumaq_judysl *map, const uint8_t *bytes, size_t room,
    const sellumaq_entry *entries, size_t count, size_t *place);

/* How many keys there are. */
uint64_t sellumaq_judysl_len(const sellumaq_judysl *map);

/* How many bytes of memory the map takes, as sellumaq_judy1_bytes answers of a set. It goes over all nodes and over the
 * pages that keys stand in, and reads no key. */
uint64_t sellumaq_judysl_bytes(const sellumaq_judysl *map);

/* How many bytes the longest key had that came in since the map was last empty, also where it has gone: no key has
 * more. 0 where the handle is zeros. A buffer of so many bytes is never too small. That is proved; that the number is
 * no greater is tested. */
size_t sellumaq_judysl_longest(const sellumaq_judysl *map);

/* How many keys there are from one string to another, both included; 0 where the first is above the second, or where
 * one has a zero byte. It takes at most two ways down the map, however many keys it counts. Of a level of at most 64
 * entries these are read; a wider one has a list of sums, which are added up by groups, and no entry is read. Where
 * memory for its list was refused its entries are read too, until a later insert makes the list: at the latest when a
 * key has come for each eight entries. */
uint64_t sellumaq_judysl_count(const sellumaq_judysl *map, const uint8_t *from, size_t from_length, const uint8_t *to,
    size_t to_length);

/* The n-th key, counted from 1, told as those of the scans are: SELLUMAQ_FOUND, and the key is in the first
 * `*length` bytes of the buffer, whatever was there before. Else both stay: SELLUMAQ_NONE for 0 and above the number
 * of keys; SELLUMAQ_TOO_SMALL where it doesn't fit, and `*value` tells how many bytes it has. It takes one way down
 * the map, or two where the buffer is smaller than `sellumaq_judysl_longest` tells, and reads of a level what
 * `sellumaq_judysl_count` does. */
uint32_t sellumaq_judysl_by_count(const sellumaq_judysl *map, uint64_t n, uint8_t *buffer, size_t capacity,
    size_t *length, uint64_t *value);

/* The longest key that bytes begin with, whatever these are and however many: true, and `*prefix` is how many of
 * them it is. False where no key begins them; the empty key begins all. Mostly it takes one search or two, and never
 * more than the key is shorter than the bytes, and one. */
bool sellumaq_judysl_longest_prefix(const sellumaq_judysl *map, const uint8_t *bytes, size_t length, size_t *prefix,
    uint64_t *value);

/* Takes the keys from one string to another out, both included, and answers how many they were: 0 where the first is
 * above the second, and where one has a zero byte. Only where `sellumaq_judysl_longest` tells more than 1,024 bytes,
 * or the first string has more, it needs as much memory, which is tested and not proved. Where that is refused it
 * answers UINT64_MAX, and nothing changed. */
uint64_t sellumaq_judysl_remove_range(sellumaq_judysl *map, const uint8_t *from, size_t from_length, const uint8_t *to,
    size_t to_length);

/* Takes the keys that begin with a string out, and answers how many they were: 0 where it has a zero byte, and all
 * where it is empty; or UINT64_MAX, as `sellumaq_judysl_remove_range` does. */
uint64_t sellumaq_judysl_remove_prefix(sellumaq_judysl *map, const uint8_t *prefix, size_t length);

/* Gives back memory that deletes left free, of use after many of them. Where a quarter as many keys went as are left, a
 * copy takes the map's place, if there is memory for it; else keys move together within the map's pages, which asks for
 * no more memory. It can't fail; no key and no value changes, but slots that were handed out are no longer theirs. An
 * insert that is refused memory after many deletes moves keys together itself, and is tried once more before it
 * answers. */
void sellumaq_judysl_shrink(sellumaq_judysl *map);

/* Makes `made` a copy, in place of what it held: SELLUMAQ_ADDED. Else it is as it was: SELLUMAQ_NO_MEMORY. The two
 * handles are two. */
uint32_t sellumaq_judysl_copy(sellumaq_judysl *made, const sellumaq_judysl *map);

/* How many keys both have; the one or the other; the one and not the other; exactly one of them. Neither map
 * changes. It takes a walk over the map that has fewer keys, each of which is looked up in the other, and no memory. */
uint64_t sellumaq_judysl_intersection_count(const sellumaq_judysl *one, const sellumaq_judysl *other);
uint64_t sellumaq_judysl_union_count(const sellumaq_judysl *one, const sellumaq_judysl *other);
uint64_t sellumaq_judysl_difference_count(const sellumaq_judysl *one, const sellumaq_judysl *other);
uint64_t sellumaq_judysl_symmetric_difference_count(const sellumaq_judysl *one, const sellumaq_judysl *other);

/* Makes `made` the map of the keys that the one or the other has; that both have; that the one has and not the
 * other; that exactly one of them has. What it held is given back: SELLUMAQ_ADDED. Else it is as it was:
 * SELLUMAQ_NO_MEMORY, or SELLUMAQ_FULL where they are more than 4,294,967,295. The two stay. The three handles are
 * three. The values are those of the one, but where it lacks the key. */
uint32_t sellumaq_judysl_union(sellumaq_judysl *made, const sellumaq_judysl *one, const sellumaq_judysl *other);
uint32_t sellumaq_judysl_intersection(sellumaq_judysl *made, const sellumaq_judysl *one, const sellumaq_judysl *other);
uint32_t sellumaq_judysl_difference(sellumaq_judysl *made, const sellumaq_judysl *one, const sellumaq_judysl *other);
uint32_t sellumaq_judysl_symmetric_difference(sellumaq_judysl *made, const sellumaq_judysl *one,
    const sellumaq_judysl *other);

/* Whether each key of the one is a key of the other; whether none is; whether both have the same keys, whatever
 * their values are. The walk ends where that is known. */
bool sellumaq_judysl_is_subset(const sellumaq_judysl *one, const sellumaq_judysl *other);
bool sellumaq_judysl_is_disjoint(const sellumaq_judysl *one, const sellumaq_judysl *other);
bool sellumaq_judysl_has_same_keys(const sellumaq_judysl *one, const sellumaq_judysl *other);

/* Gives all memory back, and answers how many keys there were. The handle is the empty array then. */
uint64_t sellumaq_judysl_free(sellumaq_judysl *map);

/* ---- maps from byte strings to words ----
 *
 * A key is 0 or more bytes of any value. The keys are in no order. */

typedef struct { void *array; } sellumaq_judyhs;

/* Hands out the slot of a key, which is put in with the value 0 where it is absent; the value of a key that is there
 * stays. SELLUMAQ_FOUND; or, and then nothing changed and nothing is handed out, the first that applies of
 * SELLUMAQ_BAD_KEY, SELLUMAQ_FULL and SELLUMAQ_NO_MEMORY. A key that is there is never refused. */
uint32_t sellumaq_judyhs_ins(sellumaq_judyhs *map, const uint8_t *key, size_t length, uint64_t **slot);

/* Gives a key a value: SELLUMAQ_PRESENT where it was there, whose value it replaces, or SELLUMAQ_ADDED; or, and then
 * nothing changed, the first that applies of SELLUMAQ_BAD_KEY, SELLUMAQ_FULL and SELLUMAQ_NO_MEMORY. A key that is
 * there is never refused. */
uint32_t sellumaq_judyhs_put(sellumaq_judyhs *map, const uint8_t *key, size_t length, uint64_t value);

/* The same, and where the key was there it tells the value that it had, at the same cost. */
uint32_t sellumaq_judyhs_insert(sellumaq_judyhs *map, const uint8_t *key, size_t length, uint64_t value, uint64_t *was);

/* The value of a key; false where the key is absent. */
bool sellumaq_judyhs_get(const sellumaq_judyhs *map, const uint8_t *key, size_t length, uint64_t *value);

/* The slot of a key; false where the key is absent. */
bool sellumaq_judyhs_slot(const sellumaq_judyhs *map, const uint8_t *key, size_t length, uint64_t **slot);

/* Takes a key out with its value; true where it was there. Never refused. After the last key the handle may still
 * hold a little memory, up to `free`. */
bool sellumaq_judyhs_del(sellumaq_judyhs *map, const uint8_t *key, size_t length);

/* The same, and where the key was there it tells the value that it had, at the same cost. */
bool sellumaq_judyhs_remove(sellumaq_judyhs *map, const uint8_t *key, size_t length, uint64_t *was);

/* The keys with their values, by the lengths of the keys, and those of one length by their bytes, but for the first
 * `behind` ones; they are told as `sellumaq_judysl_walk` tells them, and `*count` is how many. The map keeps no
 * order: each call makes a list of all keys and sorts it, so that few calls with large buffers are better than many.
 * Where no key was told and one is left, it has more than `room` bytes. False, and nothing is written, where there
 * is no memory for the list. */
bool sellumaq_judyhs_walk(const sellumaq_judyhs *map, size_t behind, uint8_t *bytes, size_t room,
    sellumaq_entry *entries, size_t capacity, size_t *count);

/* How many keys there are. */
uint64_t sellumaq_judyhs_len(const sellumaq_judyhs *map);

/* How many bytes of memory the map takes, as sellumaq_judysl_bytes answers. Keys of more than 8 bytes that share their
 * length and their hash with another one are some of hundreds of thousands; the trees that these stand in are counted
 * as if they were full, so where there were such keys the map may take a little more than the number. */
uint64_t sellumaq_judyhs_bytes(const sellumaq_judyhs *map);

/* Gives back memory that deletes left free. A key that shares its hash with another stays where it is, and where memory
 * is refused so does one of more than 1,024 bytes. */
void sellumaq_judyhs_shrink(sellumaq_judyhs *map);

/* Gives all memory back, and answers how many keys there were. The handle is the empty array then. */
uint64_t sellumaq_judyhs_free(sellumaq_judyhs *map);

/* ---- one array as bytes: dump and load, of all four kinds ----
 *
 * The bytes are a dump of the store that has this array alone, in one of the two formats of docs/use/formats.md,
 * with the limit 4,294,967,295. So the same keys and values give the same bytes, on each machine, and judystore
 * reads them too. */

/* Why bytes are no dump of one array: the first fault, in the order of their fields. */
enum {
    SELLUMAQ_DUMP_TRUNCATED = 1,   /* they end within the dump */
    SELLUMAQ_DUMP_BAD_MAGIC = 2,   /* they don't begin with JDY1 or JDY2 */
    SELLUMAQ_DUMP_TOO_MANY = 3,    /* there are more arrays than 64 */
    SELLUMAQ_DUMP_BAD_NAME = 4,    /* the name of an array isn't one */
    SELLUMAQ_DUMP_SAME_NAME = 5,   /* two arrays have one name; of one array it is NOT_ONE that comes */
    SELLUMAQ_DUMP_BAD_KIND = 6,    /* the kind of an array is unknown */
    SELLUMAQ_DUMP_BAD_LIMIT = 7,   /* the limit of an array is 0, or above 4,294,967,295 */
    SELLUMAQ_DUMP_BAD_COUNT = 8,   /* an array has more keys than its limit */
    SELLUMAQ_DUMP_BAD_KEY = 9,     /* bytes of a string or a byte string are no key */
    SELLUMAQ_DUMP_BAD_ORDER = 10,  /* the keys of an array don't ascend */
    SELLUMAQ_DUMP_TRAILING = 11,   /* bytes follow the last array */
    /* of JDY2: a string shares another number of bytes with the one before it than is told */
    SELLUMAQ_DUMP_BAD_PREFIX = 12,
    SELLUMAQ_DUMP_NOT_ONE = 13,    /* they are the dump of a store of no array, or of several */
    SELLUMAQ_DUMP_OTHER_KIND = 14  /* they are the dump of an array of another kind */
};

/* Writes the array's dump under a name to the front of `bytes`, which has `room` bytes, in the format JDY1 (`format`
 * 1) or JDY2 (2): SELLUMAQ_DONE, and `*size` is how many bytes these are. What stands behind them stays. Else no
 * byte is written, and it is the first that applies of SELLUMAQ_BAD_FORMAT; SELLUMAQ_BAD_NAME; SELLUMAQ_TOO_MANY; of
 * byte strings, whose keys are sorted first, SELLUMAQ_NO_MEMORY where there is none for that; of strings and byte
 * strings SELLUMAQ_BAD_KEY where a key has more than SELLUMAQ_SAVED_KEY_BYTES; and SELLUMAQ_TOO_SMALL where the dump
 * has more bytes than `room`, and `*size` tells how many. `*size` is written at SELLUMAQ_DONE and SELLUMAQ_TOO_SMALL
 * alone. So a `room` of 0 asks for the size, which takes no walk for words, and one for strings. */
uint32_t sellumaq_judy1_dump(const sellumaq_judy1 *set, uint32_t format, const uint8_t *name, size_t length,
                             uint8_t *bytes, size_t room, size_t *size);
uint32_t sellumaq_judyl_dump(const sellumaq_judyl *map, uint32_t format, const uint8_t *name, size_t length,
                             uint8_t *bytes, size_t room, size_t *size);
uint32_t sellumaq_judysl_dump(const sellumaq_judysl *map, uint32_t format, const uint8_t *name, size_t length,
                              uint8_t *bytes, size_t room, size_t *size);
uint32_t sellumaq_judyhs_dump(const sellumaq_judyhs *map, uint32_t format, const uint8_t *name, size_t length,
                              uint8_t *bytes, size_t room, size_t *size);

/* Makes the array that of which `count` bytes are the dump, under whatever name and limit, in place of what it held,
 * whose memory is given back: SELLUMAQ_DONE. All `count` bytes are the dump. Else the array is as it was.
 * SELLUMAQ_NO_MEMORY: memory is asked for by the keys that were read, and never by a number that the bytes say.
 * SELLUMAQ_BAD_DUMP: the bytes are no such dump, and `*fault` is one of SELLUMAQ_DUMP_TRUNCATED and its fellows; it
 * is written then alone. */
uint32_t sellumaq_judy1_load(sellumaq_judy1 *set, const uint8_t *bytes, size_t count, uint32_t *fault);
uint32_t sellumaq_judyl_load(sellumaq_judyl *map, const uint8_t *bytes, size_t count, uint32_t *fault);
uint32_t sellumaq_judysl_load(sellumaq_judysl *map, const uint8_t *bytes, size_t count, uint32_t *fault);
uint32_t sellumaq_judyhs_load(sellumaq_judyhs *map, const uint8_t *bytes, size_t count, uint32_t *fault);

/* ---- one array in a file ----
 *
 * These aren't among the proved calls: they hand the bytes of files to `dump` and `load`, which are. */

/* How many bytes a dump has: SELLUMAQ_DONE, and `*size` tells it. Else it is what `dump` answers, and nothing is
 * written. */
uint32_t sellumaq_judy1_dump_size(const sellumaq_judy1 *set, uint32_t format, const uint8_t *name, size_t length,
    size_t *size);
uint32_t sellumaq_judyl_dump_size(const sellumaq_judyl *map, uint32_t format, const uint8_t *name, size_t length,
    size_t *size);
uint32_t sellumaq_judysl_dump_size(const sellumaq_judysl *map, uint32_t format, const uint8_t *name, size_t length,
    size_t *size);
uint32_t sellumaq_judyhs_dump_size(const sellumaq_judyhs *map, uint32_t format, const uint8_t *name, size_t length,
    size_t *size);

/* Saves the array to a file, as the dump JDY2 under the name `array`: SELLUMAQ_DONE, and the disk has it. The dump
 * is made in memory and written to a file beside, `.sellumaq-` and numbers, which takes the old one's name when it
 * is whole. So whoever opens the path finds the one or the other, and a file that can only be read is replaced too,
 * where its folder may be changed. A link is followed. The permissions of the old file are kept, or they are what
 * the process gives a new one; its owner is who saves.
 *
 * Else it is SELLUMAQ_NO_MEMORY, SELLUMAQ_TOO_MANY or SELLUMAQ_BAD_KEY, as of `dump`, or SELLUMAQ_SYSTEM: a call of
 * the system failed, and errno says why, EINVAL where something stands at the path that is no file. A call that was
 * interrupted is made again; the 1,000th time in a row is a failure, EINTR. The old file is as it was, and the one
 * beside is gone. Only where the disk tells a failure when asked to keep the new name the file may be the new one,
 * whole. */
uint32_t sellumaq_judy1_save(const sellumaq_judy1 *set, const char *path);
uint32_t sellumaq_judyl_save(const sellumaq_judyl *map, const char *path);
uint32_t sellumaq_judysl_save(const sellumaq_judysl *map, const char *path);
uint32_t sellumaq_judyhs_save(const sellumaq_judyhs *map, const char *path);

/* Makes the array that of a file, of either format, in place of what it held, and answers as `load` does, or
 * SELLUMAQ_SYSTEM: a call of the system failed, errno says why, and the array is as it was. The file is read into
 * memory first, so a writer can spoil the load and nothing else. Whoever has no room for it maps the file and calls
 * `load`, and lets nobody write to it meanwhile. */
uint32_t sellumaq_judy1_open(sellumaq_judy1 *set, const char *path, uint32_t *fault);
uint32_t sellumaq_judyl_open(sellumaq_judyl *map, const char *path, uint32_t *fault);
uint32_t sellumaq_judysl_open(sellumaq_judysl *map, const char *path, uint32_t *fault);
uint32_t sellumaq_judyhs_open(sellumaq_judyhs *map, const char *path, uint32_t *fault);

/* A fault of a load as text for people, in English and without an end of line, which begins with its name in
 * docs/use/formats.md; a number that is no fault has a text that says so. The text is never freed. */
const char *sellumaq_fault_text(uint32_t fault);

#ifdef __cplusplus
}
#endif

#endif
