/* Steps through the arrays of all kinds by HP's names, a million or three times as many as it is told, each told in a
 * line: linked against HP's libJudy, it tells the same over Sellumaq's. */
#include <Judy.h>

#include <string.h>

#include "check.h"

enum { STEPS = 333334, LONGEST = 20000 };

static Pvoid_t set, map, strings, bytes;

/* A word near others, so that searches meet keys and gaps, and often the first or the last word. */
static Word_t word(void) {
    Word_t kind = any() % 9, low = any() % 600;
    if (kind == 8) return low % 2 ? -(low % 5) : low % 5;
    return kind < 2 ? low : kind < 4 ? -low : kind < 6 ? low << 40 : low * 0x9E3779B97F4A7C15;
}

/* One string in so many is long. */
static Word_t long_in = 32;

/* A string of at most 11 letters, of few that come again; one in eight of up to 40, of which most come once; or now and
 * then of many, most of them the same, so that two part late. */
static Word_t letters(uint8_t *string) {
    Word_t is_long = any() % long_in == 0, is_other = any() % 8 == 0;
    Word_t length = is_long ? 1000 + any() % 20 * 1000 - any() % 10 : any() % (is_other ? 41 : 12);
    Word_t shared = is_long ? length - any() % 20 : is_other ? any() % 4 * 8 : 7;
    for (Word_t at = 0; at < length; at++) string[at] = at < shared ? 'a' : (uint8_t)('a' + any() % 3);
    string[length] = 0;
    if (length) string[length - 1] = (uint8_t)('a' + any() % 5);
    return length;
}

/* Of a search that finds nothing too its word is told: programs go on from there. */
static void tell(const char *name, long answer, Word_t key) { printf("%s %ld %lu\n", name, answer, key); }

static void tell_slot(const char *name, const Word_t *slot, Word_t key) { printf("%s %d %lu %lu\n", name, slot != NULL, key, slot ? *slot : 0); }

static void step_words(Word_t value) {
    Word_t key = word(), to = word(), *slot;
    int found;
    Word_t n = any() % 400;
    switch (any() % 22) {
    case 0: case 1: case 2: J1S(found, set, key); tell("J1S", found, 0); break;
    case 3: case 4: J1U(found, set, key); tell("J1U", found, 0); break;
    case 5: J1F(found, set, key); tell("J1F", found, key); J1N(found, set, to); tell("J1N", found, to); break;
    case 6: J1L(found, set, key); tell("J1L", found, key); J1P(found, set, to); tell("J1P", found, to); break;
    case 7: J1FE(found, set, key); tell("J1FE", found, key); J1PE(found, set, to); tell("J1PE", found, to); break;
    case 8: J1NE(found, set, key); tell("J1NE", found, key); J1LE(found, set, to); tell("J1LE", found, to); break;
    case 9: J1C(n, set, key, to); tell("J1C", 1, n); break;
    case 10: J1BC(found, set, n, key); tell("J1BC", found, key); J1T(found, set, to); tell("J1T", found, to); break;
    case 11: case 12: case 13: JLI(slot, map, key); tell_slot("JLI", slot, key); *slot = value; break;
    case 14: case 15: JLD(found, map, key); tell("JLD", found, 0); break;
    case 16: JLG(slot, map, key); tell_slot("JLG", slot, key); JLBC(slot, map, n, to); tell_slot("JLBC", slot, to); break;
    case 17: JLF(slot, map, key); tell_slot("JLF", slot, key); JLP(slot, map, to); tell_slot("JLP", slot, to); break;
    case 18: JLL(slot, map, key); tell_slot("JLL", slot, key); JLN(slot, map, to); tell_slot("JLN", slot, to); break;
    case 19: JLFE(found, map, key); tell("JLFE", found, key); JLPE(found, map, to); tell("JLPE", found, to); break;
    case 20: JLNE(found, map, key); tell("JLNE", found, key); JLLE(found, map, to); tell("JLLE", found, to); break;
    default: JLC(n, map, key, to); tell("JLC", 1, n);
    }
}

/* A string that a search has found, or from which it found none: by its length and a sum of its letters. */
static void tell_string(const uint8_t *string, const Word_t *slot) {
    Word_t sum = 0, length = strlen((const char *)string);
    for (Word_t at = 0; at < length; at++) sum = sum * 31 + string[at];
    printf("%.12s %lu %lu %lu\n", (const char *)string, length, sum, slot ? *slot : 0);
}

static void step_strings(Word_t value) {
    static uint8_t string[LONGEST + 1];
    Word_t *slot = NULL, length = letters(string);
    int found;
    switch (any() % 11) {
    case 0: case 1: JSLI(slot, strings, string); tell_slot("JSLI", slot, 0); *slot = value; return;
    case 2: JSLD(found, strings, string); tell("JSLD", found, 0); return;
    case 3: JSLG(slot, strings, string); break;
    case 4: JSLF(slot, strings, string); break;
    case 5: JSLN(slot, strings, string); break;
    case 6: JSLL(slot, strings, string); break;
    case 7: JSLP(slot, strings, string); break;
    case 8: JHSI(slot, bytes, string, length); tell_slot("JHSI", slot, 0); *slot = value; return;
    case 9: JHSD(found, bytes, string, length); tell("JHSD", found, 0); return;
    default: JHSG(slot, bytes, string, length); tell_slot("JHSG", slot, 0); return;
    }
    tell_string(string, slot);
}

/* Takes out all keys but those of the byte strings, which can't be walked: each array is null then. */
static void empty(void) {
    Word_t key = 0, *slot, count = 0;
    static uint8_t string[LONGEST + 1];
    int found;
    string[0] = 0;
    J1F(found, set, key);
    while (found) { count++; J1U(found, set, key); J1N(found, set, key); }
    key = 0;
    JLF(slot, map, key);
    while (slot) { count += *slot; JLD(found, map, key); JLN(slot, map, key); }
    JSLF(slot, strings, string);
    while (slot) { count += *slot; JSLD(found, strings, string); JSLN(slot, strings, string); }
    JHSFA(key, bytes);
    printf("emptied %lu: %d %d %d %d\n", count, set == NULL, map == NULL, strings == NULL, bytes == NULL);
}

int main(int count, char **words) {
    Word_t steps = count > 1 ? (Word_t)atol(words[1]) : STEPS;
    for (int turn = 0; turn < 3; turn++, long_in /= 2) {
        for (Word_t at = 0; at < steps; at++) {
            step_words(at);
            step_strings(at);
        }
        empty();
    }
    return 0;
}
