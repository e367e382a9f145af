/* The arrays by HP's names. Compiled against either header, this project's or libJudy's own, it runs over Sellumaq's
 * libJudy. */
#include <Judy.h>

#include <string.h>

#include "check.h"

static void sets(void) {
    Pvoid_t set = NULL;
    Word_t key, count;
    int found;
    J1T(found, set, 5); CHECK(found == 0);
    J1S(found, set, 5); CHECK(found == 1);
    J1S(found, set, 5); CHECK(found == 0);
    J1S(found, set, 9); CHECK(found == 1);
    J1T(found, set, 9); CHECK(found == 1);
    J1C(count, set, 0, -1); CHECK(count == 2);
    J1C(count, set, 6, 8); CHECK(count == 0);
    J1BC(found, set, 2, key); CHECK(found == 1 && key == 9);
    J1BC(found, set, 3, key); CHECK(found == 0);
    key = 0; J1F(found, set, key); CHECK(found == 1 && key == 5);
    J1N(found, set, key); CHECK(found == 1 && key == 9);
    J1N(found, set, key); CHECK(found == 0); key = 9;
    key = -1; J1L(found, set, key); CHECK(found == 1 && key == 9);
    J1P(found, set, key); CHECK(found == 1 && key == 5);
    J1FE(found, set, key); CHECK(found == 1 && key == 6);
    J1NE(found, set, key); CHECK(found == 1 && key == 7);
    key = 9; J1LE(found, set, key); CHECK(found == 1 && key == 8);
    J1PE(found, set, key); CHECK(found == 1 && key == 7);
    J1U(found, set, 5); CHECK(found == 1);
    J1U(found, set, 5); CHECK(found == 0);
    J1FA(count, set); CHECK(count > 0 && set == NULL);
    Word_t keys[] = {2, 5, 5};
    J1SA(found, set, 2, keys); CHECK(found == 1);
    J1C(count, set, 2, 5); CHECK(count == 2);
    J1U(found, set, 2); CHECK(found == 1 && set != NULL);
    J1U(found, set, 5); CHECK(found == 1 && set == NULL);
    J1U(found, set, 5); CHECK(found == 0 && set == NULL);
    J1SA(found, set, 0, keys); CHECK(found == 1 && set == NULL);
}

static void maps(void) {
    Pvoid_t map = NULL;
    Word_t key, count, *slot;
    int found;
    JLG(slot, map, 5); CHECK(slot == NULL);
    JLI(slot, map, 5); CHECK(*slot == 0); *slot = 50;
    JLI(slot, map, 5); CHECK(*slot == 50);
    JLI(slot, map, 9); *slot = 90;
    JLG(slot, map, 5); CHECK(*slot == 50); *slot = 51;
    JLG(slot, map, 5); CHECK(*slot == 51);
    JLC(count, map, 0, -1); CHECK(count == 2);
    JLBC(slot, map, 2, key); CHECK(key == 9 && *slot == 90);
    JLBC(slot, map, 3, key); CHECK(slot == NULL);
    key = 0; JLF(slot, map, key); CHECK(key == 5 && *slot == 51);
    JLN(slot, map, key); CHECK(key == 9 && *slot == 90);
    JLN(slot, map, key); CHECK(slot == NULL); key = 9;
    key = -1; JLL(slot, map, key); CHECK(key == 9 && *slot == 90);
    JLP(slot, map, key); CHECK(key == 5 && *slot == 51);
    JLFE(found, map, key); CHECK(found == 1 && key == 6);
    JLNE(found, map, key); CHECK(found == 1 && key == 7);
    key = 9; JLLE(found, map, key); CHECK(found == 1 && key == 8);
    JLPE(found, map, key); CHECK(found == 1 && key == 7);
    JLD(found, map, 5); CHECK(found == 1);
    JLD(found, map, 5); CHECK(found == 0);
    JLFA(count, map); CHECK(count > 0 && map == NULL);
    Word_t keys[] = {2, 5, 5}, values[] = {20, 50};
    JLIA(found, map, 2, keys, values); CHECK(found == 1);
    JLG(slot, map, 5); CHECK(*slot == 50);
    JLD(found, map, 2); CHECK(found == 1 && map != NULL);
    JLD(found, map, 5); CHECK(found == 1 && map == NULL);
}

static int reads(const uint8_t *string, const char *wanted) { return strcmp((const char *)string, wanted) == 0; }

static void strings(void) {
    Pvoid_t map = NULL;
    Word_t count, *slot;
    int found;
    uint8_t string[16] = "pear";
    JSLG(slot, map, string); CHECK(slot == NULL);
    JSLI(slot, map, string); CHECK(*slot == 0); *slot = 1;
    JSLI(slot, map, string); CHECK(*slot == 1);
    JSLI(slot, map, (const uint8_t *)"pears of autumn"); *slot = 2;
    JSLI(slot, map, (const uint8_t *)"fig"); *slot = 3;
    JSLI(slot, map, (const uint8_t *)""); *slot = 4;
    JSLG(slot, map, string); CHECK(*slot == 1);
    string[0] = 0; JSLF(slot, map, string); CHECK(*slot == 4 && reads(string, ""));
    JSLN(slot, map, string); CHECK(*slot == 3 && reads(string, "fig"));
    JSLN(slot, map, string); CHECK(*slot == 1 && reads(string, "pear"));
    JSLN(slot, map, string); CHECK(*slot == 2 && reads(string, "pears of autumn"));
    JSLN(slot, map, string); CHECK(slot == NULL);
    strcpy((char *)string, "pears"); JSLL(slot, map, string); CHECK(*slot == 1 && reads(string, "pear"));
    JSLP(slot, map, string); CHECK(*slot == 3 && reads(string, "fig"));
    JSLD(found, map, string); CHECK(found == 1);
    JSLD(found, map, string); CHECK(found == 0);
    JSLFA(count, map); CHECK(count > 0 && map == NULL);
    JSLI(slot, map, string);
    JSLD(found, map, string); CHECK(found == 1 && map == NULL);
}

/* Strings of any length: of each but the first two keys, which share all but the last byte. */
enum { LENGTHS = 9 };
static const size_t string_lengths[LENGTHS] = {0, 5, 1023, 1024, 1025, 3001, 20000, 65537, 4 << 20};

static uint8_t *string_of(size_t length, char last) {
    uint8_t *string = malloc(length + 1);
    memset(string, 'k', length + 1);
    if (length) string[length - 1] = (uint8_t)last;
    string[length] = 0;
    return string;
}

/* Walks over the keys of the first so many lengths, up and down, in a buffer that the longest of them just fits. The
 * order is that of the first byte behind the shared ones: `a` of short keys comes before that of long ones. */
static void walk_long(Pvoid_t map, int count) {
    uint8_t *string = string_of(string_lengths[count - 1], 'k');
    Word_t *slot;
    string[0] = 0;
    JSLF(slot, map, string); CHECK(*slot == 0 && !string[0]);
    for (int n = 1; n < 2 * count - 1; n++) {
        int is_first = n < count, at = is_first ? n : 2 * count - 1 - n;
        size_t length = string_lengths[at];
        JSLN(slot, map, string);
        CHECK(*slot == (Word_t)(2 * at + !is_first) && strlen((char *)string) == length && string[length - 1] == (is_first ? 'a' : 'z'));
    }
    JSLN(slot, map, string); CHECK(slot == NULL);
    for (int n = 2 * count - 2; n > 0; n--) {
        int at = n < count ? n : 2 * count - 1 - n;
        if (n == 2 * count - 2) JSLL(slot, map, string)
        else JSLP(slot, map, string)
        CHECK(*slot == (Word_t)(2 * at + (n >= count)) && strlen((char *)string) == string_lengths[at]);
    }
    JSLP(slot, map, string); CHECK(*slot == 0 && !string[0]);
    JSLP(slot, map, string); CHECK(slot == NULL && !string[0]);
    free(string);
}

static void long_strings(void) {
    Pvoid_t map = NULL;
    Word_t *slot, freed;
    int found;
    for (int n = 0; n < 2 * LENGTHS; n++) {
        uint8_t *string = string_of(string_lengths[n / 2], n % 2 ? 'z' : 'a');
        if (n != 1) {
            JSLG(slot, map, string); CHECK(slot == NULL);
            JSLI(slot, map, string); CHECK(*slot == 0); *slot = (Word_t)n;
            JSLI(slot, map, string); CHECK(*slot == (Word_t)n);
        }
        free(string);
    }
    for (int count = LENGTHS; count > 1; count--) {
        walk_long(map, count);
        for (int end = 0; end < 2; end++) {
            uint8_t *string = string_of(string_lengths[count - 1], end ? 'z' : 'a');
            JSLG(slot, map, string); CHECK(*slot == (Word_t)(2 * (count - 1) + end));
            JSLD(found, map, string); CHECK(found == 1);
            JSLD(found, map, string); CHECK(found == 0);
            JSLN(slot, map, string); CHECK(end || *slot == (Word_t)(2 * (count - 1) + 1));
            free(string);
        }
    }
    JSLFA(freed, map); CHECK(freed > 0 && map == NULL);
    /* a string that is longer than any key, in a map of short ones */
    uint8_t *string = string_of(5000, 'k');
    JSLL(slot, map, string); CHECK(slot == NULL);
    JSLI(slot, map, (const uint8_t *)"fig"); *slot = 3;
    JSLI(slot, map, (const uint8_t *)"pear"); *slot = 4;
    JSLL(slot, map, string); CHECK(*slot == 3 && reads(string, "fig"));
    free(string);
    string = string_of(5000, 'k');
    JSLN(slot, map, string); CHECK(*slot == 4 && reads(string, "pear"));
    free(string);
    JSLFA(freed, map); CHECK(freed > 0 && map == NULL);
}

static void byte_strings(void) {
    Pvoid_t map = NULL;
    Word_t count, *slot;
    int found;
    uint8_t bytes[1025] = "pear";
    JHSG(slot, map, bytes, 4); CHECK(slot == NULL);
    JHSI(slot, map, bytes, 4); CHECK(*slot == 0); *slot = 1;
    JHSI(slot, map, bytes, 4); CHECK(*slot == 1);
    JHSI(slot, map, bytes, 1024); CHECK(*slot == 0); *slot = 2;
    JHSI(slot, map, bytes, 0); *slot = 3;
    JHSI(slot, map, bytes, 1025); CHECK(*slot == 0); *slot = 4;
    JHSG(slot, map, bytes, 1024); CHECK(*slot == 2);
    JHSG(slot, map, NULL, 0); CHECK(*slot == 3);
    JHSG(slot, map, bytes, 1025); CHECK(*slot == 4);
    JHSG(slot, map, NULL, 1); CHECK(slot == NULL);
    JHSD(found, map, bytes, 1025); CHECK(found == 1);
    JHSD(found, map, bytes, 1025); CHECK(found == 0);
    JHSD(found, map, bytes, 4); CHECK(found == 1);
    JHSD(found, map, bytes, 4); CHECK(found == 0);
    JHSFA(count, map); CHECK(count > 0 && map == NULL);
    JHSI(slot, map, bytes, 9);
    JHSD(found, map, bytes, 9); CHECK(found == 1 && map == NULL);
    CHECK(JudyHSIns(&map, bytes, ~(Word_t)0, PJE0) == PPJERR && map == NULL);
}

/* Byte strings of any length: each key's bytes are the array's. What a delete leaves free is the next key's of that
 * length; the last key of a length gives all of it back, and so does the end of the array. */
static void long_byte_strings(void) {
    enum { COUNT = 5, LONGEST = 4 << 20 };
    static const Word_t lengths[COUNT] = {1024, 1025, 3542, 65537, LONGEST};
    static uint8_t bytes[LONGEST];
    Pvoid_t map = NULL;
    Word_t count, *slot;
    int found;
    memset(bytes, 'k', LONGEST);
    for (int n = 0; n < COUNT; n++) {
        JHSG(slot, map, bytes, lengths[n]); CHECK(slot == NULL);
        JHSI(slot, map, bytes, lengths[n]); CHECK(*slot == 0); *slot = lengths[n];
        bytes[lengths[n] - 1] = 'j';
        JHSI(slot, map, bytes, lengths[n]); CHECK(*slot == 0); *slot = 1;
        bytes[lengths[n] - 1] = 'k';
    }
    for (int n = 0; n < COUNT; n++) {
        JHSG(slot, map, bytes, lengths[n]); CHECK(*slot == lengths[n]);
        JHSD(found, map, bytes, lengths[n]); CHECK(found == 1);
        JHSG(slot, map, bytes, lengths[n]); CHECK(slot == NULL);
        bytes[0] = 'i';
        JHSI(slot, map, bytes, lengths[n]); CHECK(*slot == 0);
        bytes[0] = 'k';
    }
    JHSFA(count, map); CHECK(count > 2 * (1024 + 1025 + 3542 + 65537 + LONGEST) && count < 5 * LONGEST / 2 && map == NULL);
    JHSI(slot, map, bytes, 1024);
    JHSI(slot, map, bytes, LONGEST);
    JHSD(found, map, bytes, LONGEST); CHECK(found == 1);
    JHSFA(count, map); CHECK(count > 1024 && count < 3542 && map == NULL);
    JHSI(slot, map, bytes, LONGEST);
    JHSD(found, map, bytes, LONGEST); CHECK(found == 1 && map == NULL);
}

/* The bytes of each array are its own, whatever the others take, and all of them are given back. */
static void memory(void) {
    Pvoid_t set = NULL, map = NULL, strings = NULL;
    Word_t *slot, used, more, freed;
    int found;
    char string[8];
    CHECK(Judy1MemUsed(set) == 0 && JudyLMemUsed(map) == 0);
    J1S(found, set, 1);
    J1MU(used, set); CHECK(used > 0 && used < 200 && Judy1MemActive(set) == used);
    for (Word_t key = 0; key < 10000; key++) {
        J1S(found, set, key * key);
        JLI(slot, map, key * 99999999); *slot = key;
        sprintf(string, "%d", (int)key);
        JSLI(slot, strings, (const uint8_t *)string); *slot = key;
    }
    J1MU(used, set); JLMU(more, map); CHECK(10000 < used && more > 160000 && more < 400000);
    JSLFA(freed, strings); CHECK(freed > 80000);
    for (Word_t key = 10; key < 10000; key++) J1U(found, set, key * key);
    J1MU(more, set); CHECK(found == 1 && more < 1000);
    JLMU(used, map); JLFA(freed, map); CHECK(freed == used);
    J1FA(freed, set); CHECK(freed == more);
}

/* What the manual pages say of null pointers, and of lists of keys. */
static void refused(void) {
    JError_t error;
    Pvoid_t none = NULL;
    CHECK(Judy1Set(NULL, 1, &error) == JERR && JU_ERRNO(&error) == JU_ERRNO_NULLPPARRAY);
    CHECK(Judy1Unset(NULL, 1, &error) == JERR && JU_ERRNO(&error) == JU_ERRNO_NULLPPARRAY);
    CHECK(Judy1FreeArray(NULL, &error) == (Word_t)JERR && JU_ERRNO(&error) == JU_ERRNO_NULLPPARRAY);
    CHECK(JudyLIns(NULL, 1, &error) == PPJERR && JU_ERRNO(&error) == JU_ERRNO_NULLPPARRAY);
    CHECK(JudyLDel(NULL, 1, &error) == JERR && JU_ERRNO(&error) == JU_ERRNO_NULLPPARRAY);
    CHECK(JudyLFreeArray(NULL, PJE0) == (Word_t)JERR);
    CHECK(JudySLIns(NULL, (const uint8_t *)"a", &error) == PPJERR && JU_ERRNO(&error) == JU_ERRNO_NULLPPARRAY);
    CHECK(JudySLDel(NULL, (const uint8_t *)"a", &error) == JERR && JU_ERRNO(&error) == JU_ERRNO_NULLPPARRAY);
    CHECK(JudySLFreeArray(NULL, &error) == (Word_t)JERR && JU_ERRNO(&error) == JU_ERRNO_NULLPPARRAY);
    CHECK(JudySLIns(&none, NULL, &error) == PPJERR && JU_ERRNO(&error) == JU_ERRNO_NULLPINDEX);
    CHECK(JudySLDel(&none, NULL, &error) == JERR && JU_ERRNO(&error) == JU_ERRNO_NULLPINDEX);
    CHECK(JudySLGet(none, NULL, &error) == PPJERR && JU_ERRNO(&error) == JU_ERRNO_NULLPINDEX);
    CHECK(JudySLPrev(none, NULL, &error) == PPJERR && JU_ERRNO(&error) == JU_ERRNO_NULLPINDEX);
    CHECK(JudyHSIns(NULL, "a", 1, &error) == PPJERR && JU_ERRNO(&error) == JU_ERRNO_NULLPPARRAY);
    CHECK(JudyHSDel(NULL, "a", 1, &error) == JERR && JU_ERRNO(&error) == JU_ERRNO_NULLPPARRAY);
    CHECK(JudyHSFreeArray(NULL, &error) == (Word_t)JERR && JU_ERRNO(&error) == JU_ERRNO_NULLPPARRAY);
    CHECK(JudyHSIns(&none, NULL, 1, &error) == PPJERR && JU_ERRNO(&error) == JU_ERRNO_NULLPINDEX);
    CHECK(JudyHSDel(&none, NULL, 1, &error) == JERR && JU_ERRNO(&error) == JU_ERRNO_NULLPINDEX);
    CHECK(Judy1First(none, NULL, &error) == JERR && JU_ERRNO(&error) == JU_ERRNO_NULLPINDEX);
    CHECK(JudyLNext(none, NULL, &error) == PPJERR && JU_ERRNO(&error) == JU_ERRNO_NULLPINDEX);
    CHECK(JudyLPrevEmpty(none, NULL, &error) == JERR && JU_ERRNO(&error) == JU_ERRNO_NULLPINDEX);
    Word_t keys[] = {5, 5};
    CHECK(Judy1SetArray(NULL, 1, keys, &error) == JERR && JU_ERRNO(&error) == JU_ERRNO_NULLPPARRAY);
    CHECK(Judy1SetArray(&none, 1, NULL, &error) == JERR && JU_ERRNO(&error) == JU_ERRNO_NULLPINDEX);
    CHECK(Judy1SetArray(&none, 2, keys, &error) == JERR && JU_ERRNO(&error) == JU_ERRNO_UNSORTED && !none);
    CHECK(JudyLInsArray(NULL, 1, keys, keys, &error) == JERR && JU_ERRNO(&error) == JU_ERRNO_NULLPPARRAY);
    CHECK(JudyLInsArray(&none, 1, NULL, keys, &error) == JERR && JU_ERRNO(&error) == JU_ERRNO_NULLPINDEX);
    CHECK(JudyLInsArray(&none, 1, keys, NULL, &error) == JERR && JU_ERRNO(&error) == JU_ERRNO_NULLPVALUE);
    CHECK(JudyLInsArray(&none, 2, keys, keys, &error) == JERR && JU_ERRNO(&error) == JU_ERRNO_UNSORTED && !none);
    Pvoid_t set = NULL, map = NULL;
    CHECK(Judy1Set(&set, 3, &error) == 1 && JudyLIns(&map, 3, &error) != PPJERR);
    CHECK(Judy1SetArray(&set, 1, keys, &error) == JERR && JU_ERRNO(&error) == JU_ERRNO_NONNULLPARRAY);
    CHECK(JudyLInsArray(&map, 1, keys, keys, &error) == JERR && JU_ERRNO(&error) == JU_ERRNO_NONNULLPARRAY);
    CHECK(Judy1ByCount(set, 1, NULL, &error) == JERR && JU_ERRNO(&error) == JU_ERRNO_NULLPINDEX);
    CHECK(JudyLByCount(map, 1, NULL, &error) == PPJERR && JU_ERRNO(&error) == JU_ERRNO_NULLPINDEX);
    Judy1FreeArray(&set, PJE0);
    JudyLFreeArray(&map, PJE0);
    CHECK(Judy1Count(none, 0, -1, &error) == 0 && JU_ERRNO(&error) == JU_ERRNO_NONE);
    CHECK(JudyLCount(none, 0, -1, &error) == 0 && JU_ERRNO(&error) == JU_ERRNO_NONE);
}

/* The short forms end the program where a call is refused. */
static void stop(void) {
    Pvoid_t map = NULL;
    Word_t *slot;
    JSLI(slot, map, (const uint8_t *)NULL);
    (void)slot;
}

int main(int argc, char **argv) {
    if (argc > 1 && !strcmp(argv[1], "stop")) return stop(), 0;
    sets();
    maps();
    strings();
    long_strings();
    byte_strings();
    long_byte_strings();
    memory();
    refused();
    puts("hp: ok");
    return 0;
}
