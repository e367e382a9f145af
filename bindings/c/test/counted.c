/* A program that defines the functions by which libJudy takes memory, as programs do to count it. */
#include <Judy.h>

#include <stdbool.h>
#include <string.h>

#include "check.h"

static Word_t held, calls;
/* How many calls are answered before one is refused. */
static Word_t answered = -1;

Word_t JudyMalloc(Word_t words) {
    if (!answered--) return 0;
    held += words, calls++;
    return (Word_t)malloc(words * sizeof(Word_t));
}

void JudyFree(Pvoid_t block, Word_t words) {
    held -= words;
    free(block);
}

/* A string of a number, one of 16 a long one. */
enum { LONG = 3000 };

static void spell(Word_t key, char string[LONG + 1]) {
    int length = sprintf(string, "%lu and more letters", key * key);
    if (key % 16 != 15) return;
    memset(string + length, 'l', (size_t)(LONG - length));
    string[LONG] = 0;
}

/* Whether an array has the strings of so many numbers, but for those that were refused. */
static void compare(Pcvoid_t strings, Word_t keys, const bool *held) {
    char string[LONG + 1];
    for (Word_t key = 0; key < keys; key++) {
        spell(key, string);
        PPvoid_t slot = JudySLGet(strings, (uint8_t *)string, PJE0);
        CHECK((slot != NULL) == held[key] && (!slot || *(PWord_t)slot == key));
    }
}

/* An insert that is refused memory leaves an array as it was, and null where it was null. */
static void refused(void) {
    for (Word_t n = 0; n < 400; n += 7) {
        Pvoid_t set = NULL, map = NULL, strings = NULL, bytes = NULL;
        JError_t error;
        Word_t count = 0, key;
        char string[LONG + 1];
        bool held_strings[200];
        answered = n;
        for (key = 0; key < 200; key++) {
            Pvoid_t before = map;
            PPvoid_t slot = JudyLIns(&map, key << (key % 60), &error);
            if (slot == PPJERR) CHECK(JU_ERRNO(&error) == JU_ERRNO_NOMEM && map == before);
            spell(key, string);
            before = strings;
            slot = JudySLIns(&strings, (uint8_t *)string, &error);
            held_strings[key] = slot != PPJERR;
            if (slot == PPJERR) CHECK(JU_ERRNO(&error) == JU_ERRNO_NOMEM && strings == before);
            else *(PWord_t)slot = key;
            before = bytes;
            slot = JudyHSIns(&bytes, string, 18, &error);
            if (slot == PPJERR) CHECK(JU_ERRNO(&error) == JU_ERRNO_NOMEM && bytes == before);
            before = set;
            int done = Judy1Set(&set, key << (key % 60), &error);
            if (done == JERR) CHECK(JU_ERRNO(&error) == JU_ERRNO_NOMEM && set == before);
            else count += done;
            CHECK(Judy1Count(set, 0, -1, PJE0) == count);
        }
        answered = -1;
        compare(strings, key, held_strings);
        CHECK(Judy1FreeArray(&set, PJE0) && JudyLFreeArray(&map, PJE0) && JudySLFreeArray(&strings, PJE0) && JudyHSFreeArray(&bytes, PJE0));
        CHECK(held == 0);
    }
}

int main(void) {
    refused();
    Pvoid_t map = NULL, strings = NULL;
    Word_t *slot, freed;
    char string[8];
    for (Word_t key = 0; key < 5000; key++) {
        JLI(slot, map, key * 77777777); *slot = key;
        sprintf(string, "%d", (int)key);
        JSLI(slot, strings, (const uint8_t *)string); *slot = key;
    }
    CHECK(calls > 1000 && held * sizeof(Word_t) > JudyLMemUsed(map));
    for (Word_t key = 0; key < 5000; key++) {
        JLG(slot, map, key * 77777777); CHECK(*slot == key);
        sprintf(string, "%d", (int)key);
        JSLG(slot, strings, (const uint8_t *)string); CHECK(*slot == key);
    }
    JLFA(freed, map); CHECK(freed > 5000 * sizeof(Word_t));
    JSLFA(freed, strings); CHECK(freed > 0 && held == 0);
    puts("counted: ok");
    return 0;
}
