/* The calls on strings and byte strings that put a value in or take a key out and tell the value that was there, beside
 * a table of keys. */
#include <string.h>

#include "../sellumaq.h"
#include "check.h"

enum { KEYS = 200, LONGEST = 96 };

/* More bytes than an object of C has. */
#define NO_OBJECT ((size_t)PTRDIFF_MAX + 1)

typedef struct {
    uint8_t bytes[LONGEST];
    size_t length;
    bool held;
    uint64_t value;
} Row;

static Row rows[KEYS];

/* Keys of 0 to 66 bytes: some begin alike, and the last bytes, which tell them apart, are from `least` on. */
static void make_rows(uint8_t least) {
    memset(rows, 0, sizeof rows);
    for (int place = 0; place < KEYS; place++) {
        size_t length = place == 0 ? 0 : (size_t)(1 + place % 67);
        memset(rows[place].bytes, 'k', length);
        if (length) rows[place].bytes[length - 1] = (uint8_t)(least + place / 67);
        rows[place].length = length;
    }
}

/* Changes a map by the calls of its kind and holds it against the table. */
#define CHANGES(kind, turns)                                                                                                        \
    static void change_##kind(sellumaq_##kind *map) {                                                                              \
        for (int turn = 0; turn < turns; turn++) {                                                                                 \
            Row *row = &rows[any() % KEYS];                                                                                        \
            uint64_t value = any(), was = 77;                                                                                      \
            bool there = row->held;                                                                                                \
            switch (any() % 4) {                                                                                                   \
            case 0:                                                                                                                \
                CHECK(sellumaq_##kind##_put(map, row->bytes, row->length, value) == (there ? SELLUMAQ_PRESENT : SELLUMAQ_ADDED));   \
                break;                                                                                                             \
            case 1:                                                                                                                \
                CHECK(sellumaq_##kind##_insert(map, row->bytes, row->length, value, &was) == (there ? SELLUMAQ_PRESENT : SELLUMAQ_ADDED)); \
                CHECK(was == (there ? row->value : 77));                                                                           \
                break;                                                                                                             \
            default:                                                                                                               \
                CHECK(sellumaq_##kind##_remove(map, row->bytes, row->length, &was) == there && was == (there ? row->value : 77));   \
                CHECK(!sellumaq_##kind##_get(map, row->bytes, row->length, &was));                                                 \
                row->held = false;                                                                                                 \
                continue;                                                                                                          \
            }                                                                                                                      \
            row->held = true;                                                                                                      \
            row->value = value;                                                                                                    \
            CHECK(sellumaq_##kind##_get(map, row->bytes, row->length, &was) && was == value);                                      \
        }                                                                                                                          \
    }
CHANGES(judysl, 300)
CHANGES(judyhs, 300)

static void edges(void) {
    uint8_t long_one[2000], zero[2] = {'a', 0};
    uint64_t was = 7;
    sellumaq_judysl strings = {0};
    sellumaq_judyhs hashed = {0};
    memset(long_one, 'x', sizeof long_one);
    CHECK(sellumaq_judysl_put(&strings, zero, 2, 1) == SELLUMAQ_BAD_KEY && sellumaq_judysl_insert(&strings, zero, 2, 1, &was) == SELLUMAQ_BAD_KEY);
    CHECK(sellumaq_judyhs_insert(&hashed, long_one, NO_OBJECT, 1, &was) == SELLUMAQ_BAD_KEY && sellumaq_judyhs_put(&hashed, zero, 2, 1) == SELLUMAQ_ADDED);
    CHECK(!sellumaq_judysl_remove(&strings, zero, 1, &was) && strings.array == NULL && was == 7);
    CHECK(sellumaq_judysl_put(&strings, zero, 1, 5) == SELLUMAQ_ADDED && sellumaq_judysl_put(&strings, long_one, sizeof long_one, 6) == SELLUMAQ_ADDED);
    CHECK(sellumaq_judysl_free(&strings) == 2 && sellumaq_judyhs_free(&hashed) == 1);
}

int main(void) {
    sellumaq_judysl strings = {0};
    sellumaq_judyhs hashed = {0};
    edges();
    make_rows('a');
    for (int turn = 0; turn < 60; turn++) change_judysl(&strings);
    sellumaq_judysl_free(&strings);
    make_rows(0);
    for (int turn = 0; turn < 60; turn++) change_judyhs(&hashed);
    sellumaq_judyhs_free(&hashed);
    puts("keys: ok");
    return 0;
}
