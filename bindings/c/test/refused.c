/* A first insert into a handle of zeros that is refused memory, at each of its calls for memory: the handle is zeros
 * again, and nothing is kept. */
#include "../sellumaq.h"
#include "check.h"
#include "refusing.h"

/* The inserts into each kind; an answer of no memory is told as one. */
static uint8_t key[40] = "a string of more than a few bytes";
enum { LENGTH = 33, VALUE = 77 };

static uint32_t judy1_set(void *handle) { return sellumaq_judy1_set(handle, 5); }
static uint32_t judyl_put(void *handle) { return sellumaq_judyl_put(handle, 5, VALUE); }
static uint32_t judysl_put(void *handle) { return sellumaq_judysl_put(handle, key, LENGTH, VALUE); }
static uint32_t judyhs_put(void *handle) { return sellumaq_judyhs_put(handle, key, LENGTH, VALUE); }

static uint32_t judyl_ins(void *handle) {
    uint64_t own = VALUE, *slot = &own;
    bool made = sellumaq_judyl_ins(handle, 5, &slot);
    CHECK(made ? slot != &own && *slot == 0 : slot == &own);
    return made ? SELLUMAQ_ADDED : SELLUMAQ_NO_MEMORY;
}

static uint32_t judyl_insert(void *handle) {
    uint64_t was = VALUE;
    uint32_t answer = sellumaq_judyl_insert(handle, 5, 6, &was);
    CHECK(was == VALUE);
    return answer;
}

/* Of strings and of byte strings alike. */
#define INSERTS(kind) \
    static uint32_t kind##_ins(void *handle) { \
        uint64_t own = VALUE, *slot = &own; \
        uint32_t answer = sellumaq_##kind##_ins(handle, key, LENGTH, &slot); \
        CHECK(answer == SELLUMAQ_FOUND ? slot != &own && *slot == 0 : slot == &own); \
        return answer; \
    } \
    static uint32_t kind##_insert(void *handle) { \
        uint64_t was = VALUE; \
        uint32_t answer = sellumaq_##kind##_insert(handle, key, LENGTH, 6, &was); \
        CHECK(was == VALUE); \
        return answer; \
    }
INSERTS(judysl)
INSERTS(judyhs)

/* Refuses one call for memory more late each time, until the key is put in; answers how often it was refused. */
static int refuse_first(uint32_t (*insert)(void *handle), uint64_t (*release)(void *handle)) {
    for (int turn = 0;; turn++) {
        struct { void *array; } handle = {NULL};
        long before = held;
        answered = turn;
        uint32_t answer = insert(&handle);
        answered = -1;
        if (answer == SELLUMAQ_NO_MEMORY) {
            CHECK(handle.array == NULL && held == before);
            continue;
        }
        CHECK(answer == SELLUMAQ_ADDED && handle.array != NULL && held > before);
        CHECK(release(&handle) == 1 && handle.array == NULL && held == before);
        return turn;
    }
}

static uint64_t judy1_free(void *handle) { return sellumaq_judy1_free(handle); }
static uint64_t judyl_free(void *handle) { return sellumaq_judyl_free(handle); }
static uint64_t judysl_free(void *handle) { return sellumaq_judysl_free(handle); }
static uint64_t judyhs_free(void *handle) { return sellumaq_judyhs_free(handle); }

/* Strings that don't ascend are told as such where there is no memory for a list of them, and else that there is
 * none. */
static void from_sorted(void) {
    sellumaq_judysl map = {0};
    sellumaq_entry entries[3] = {{1, 0}, {1, 0}, {1, 0}};
    size_t place = VALUE;
    answered = 0;
    uint32_t up = sellumaq_judysl_from_sorted(&map, (const uint8_t *)"abc", 3, entries, 3, &place);
    CHECK(up == SELLUMAQ_NO_MEMORY && place == VALUE);
    uint32_t down = sellumaq_judysl_from_sorted(&map, (const uint8_t *)"acb", 3, entries, 3, &place);
    CHECK(down == SELLUMAQ_BAD_KEY && place == 2);
    uint32_t none = sellumaq_judysl_from_sorted(&map, (const uint8_t *)"a\0b", 3, entries, 3, &place);
    CHECK(none == SELLUMAQ_BAD_KEY && place == 1);
    uint32_t cut = sellumaq_judysl_from_sorted(&map, (const uint8_t *)"cba", 2, entries, 3, &place);
    CHECK(cut == SELLUMAQ_BAD_KEY && place == 2);
    answered = -1;
    CHECK(map.array == NULL);
}

int main(void) {
    puts("first inserts without memory"); /* so that the stream has its buffer */
    CHECK(refuse_first(judy1_set, judy1_free) > 0);
    CHECK(refuse_first(judyl_put, judyl_free) > 0 && refuse_first(judyl_ins, judyl_free) > 0 && refuse_first(judyl_insert, judyl_free) > 0);
    CHECK(refuse_first(judysl_put, judysl_free) > 1 && refuse_first(judysl_ins, judysl_free) > 1 && refuse_first(judysl_insert, judysl_free) > 1);
    CHECK(refuse_first(judyhs_put, judyhs_free) > 1 && refuse_first(judyhs_ins, judyhs_free) > 1 && refuse_first(judyhs_insert, judyhs_free) > 1);
    from_sorted();
    puts("refused: ok");
    return 0;
}
