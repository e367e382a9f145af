/* Includes both headers as programs of any C and C++ do, those too that wrap all headers of C, and uses each form of a
 * short form. */
#ifdef OWN
static void told(const char *name, int number);
#define JUDYERROR(file, line, name, number, place) { told(name, (int)(number)); (void)(file); (void)(line); (void)(place); }
#endif

#if defined WRAPPED && defined __cplusplus
extern "C" {
#endif
#include <Judy.h>
#include <sellumaq.h>
#if defined WRAPPED && defined __cplusplus
}
#endif

#ifdef OWN
static void told(const char *name, int number) { fprintf(stderr, "%s: %d\n", name, number); }
#endif

/* Answers that a program doesn't read, and blocks with no semicolon behind them. */
#ifndef JUDYERROR_NOTEST
void ignores(Pvoid_t set, Pvoid_t map, uint8_t *string);
void ignores(Pvoid_t set, Pvoid_t map, uint8_t *string) {
    int found;
    Word_t count, key = 0;
    PWord_t slot;
    J1S(found, set, 5)
    J1C(count, set, 0, 9)
    JLI(slot, map, 5)
    JLC(count, map, 0, 9)
    JLFA(count, map)
    JLN(slot, map, key)
    JSLN(slot, map, string)
}
#endif

/* An array's name may be any, also one that the short forms might use, and a slot any pointer. */
Word_t uses(Pvoid_t je, Pvoid_t error);
Word_t uses(Pvoid_t je, Pvoid_t error) {
    Word_t key = 1, count = 0, *slot = NULL;
    Word_t keys[1] = {3};
    char **text = NULL;
    Pvoid_t any = NULL;
    PPvoid_t array = NULL;
    int found = 0;
    JLI(slot, je, key);
    JLI(text, je, key)
    JLI(any, je, key);
    JLI(array, je, key);
    if (array != NULL) JLI(slot, *array, key);
    JLG(slot, je, key);
    JLF(slot, je, key);
    JLBC(slot, je, key, count);
    JLIA(found, any, 1, keys, keys);
    JLD(found, je, key);
    JLMU(count, je);
    JLFA(count, je);
    J1S(found, error, key);
    J1SA(found, any, 1, keys);
    J1T(found, error, key);
    J1NE(found, error, key);
    J1C(count, error, 0, ~0UL);
    J1MU(count, error);
    J1FA(count, error);
    JSLI(slot, je, (const uint8_t *)"a");
    JSLD(found, je, (const uint8_t *)"a");
    JSLFA(count, je);
    JHSI(slot, je, keys, sizeof keys);
    JHSG(slot, je, keys, sizeof keys);
    JHSD(found, je, keys, sizeof keys);
    JHSFA(count, je);
    return count + (Word_t)found + (Word_t)(slot != NULL && text != NULL && any != NULL);
}
