/* HP's names for Judy arrays, over Sellumaq: what the manual pages Judy1(3), JudyL(3), JudySL(3) and JudyHS(3) say
 * of their functions, so that a program written for libJudy compiles and links unchanged. Its functions are in this
 * project's libJudy.
 *
 * What differs from HP's library:
 *   - Arrays of strings and of byte strings hold at most 4,294,967,295 keys. An insert of one more is refused with
 *     JU_ERRNO_FULL.
 *   - `MemUsed` and `FreeArray` answer the bytes of the array's blocks as malloc gave them (malloc_usable_size(3)),
 *     and `MemActive` the same as `MemUsed`. Where a program has a malloc of its own without malloc_usable_size, or
 *     a JudyMalloc, these are the bytes that were asked for, and each block takes two words more.
 *   - An array is found corrupt or of another kind by no call, so of the error numbers only those below with a
 *     comment come. */
#ifndef SELLUMAQ_HP_JUDY_H
#define SELLUMAQ_HP_JUDY_H
#define _JUDY_INCLUDED

#include <inttypes.h>
#include <limits.h>
#include <stddef.h>
#include <stdio.h>
#include <stdlib.h>

#ifdef __cplusplus
extern "C" {
#endif

#ifndef _WORD_T
#define _WORD_T
typedef unsigned long Word_t, *PWord_t;
#endif
#ifndef _PVOID_T
#define _PVOID_T
typedef void *Pvoid_t, **PPvoid_t;
#endif
#ifndef _PCVOID_T
#define _PCVOID_T
typedef const void *Pcvoid_t;
#endif

/* Why a call answered JERR or PPJERR. */
typedef enum {
    JU_ERRNO_NONE = 0,
    JU_ERRNO_FULL = 1,         /* every word is a key, so their number doesn't fit into the answer 0; or see above */
    JU_ERRNO_NFMAX = JU_ERRNO_FULL,
    JU_ERRNO_NOMEM = 2,        /* no memory for a new key; nothing changed */
    JU_ERRNO_NULLPPARRAY = 3,  /* no pointer to an array where one is to be changed */
    JU_ERRNO_NULLPINDEX = 4,   /* no pointer to a key */
    JU_ERRNO_NOTJUDY1 = 5,
    JU_ERRNO_NOTJUDYL = 6,
    JU_ERRNO_NOTJUDYSL = 7,
    JU_ERRNO_OVERRUN = 8,
    JU_ERRNO_CORRUPT = 9,
    JU_ERRNO_NONNULLPARRAY = 10, /* an array that is to be made from a list isn't empty */
    JU_ERRNO_NULLPVALUE = 11,    /* no pointer to values */
    JU_ERRNO_UNSORTED = 12       /* a list's keys don't ascend */
} JU_Errno_t;

typedef struct J_UDY_ERROR_STRUCT {
    JU_Errno_t je_Errno;
    int je_ErrID; /* 0 here */
    Word_t je_reserved[4];
} JError_t, *PJError_t;

#define JU_ERRNO(error) ((error)->je_Errno)
#define JU_ERRID(error) ((error)->je_ErrID)
#define JERR (-1)
#define PJERR ((Pvoid_t)(~0UL))
#define PPJERR ((PPvoid_t)(~0UL))
#define PJE0 ((PJError_t)NULL)
#define P_JE PJError_t PJError
#define JLAP_INVALID 0x1 /* no array's word has this bit */

int Judy1Test(Pcvoid_t array, Word_t key, PJError_t error);
int Judy1Set(PPvoid_t array, Word_t key, PJError_t error);
int Judy1Unset(PPvoid_t array, Word_t key, PJError_t error);
int Judy1SetArray(PPvoid_t array, Word_t count, const Word_t *keys, PJError_t error);
Word_t Judy1Count(Pcvoid_t array, Word_t from, Word_t to, PJError_t error);
int Judy1ByCount(Pcvoid_t array, Word_t n, Word_t *key, PJError_t error);
Word_t Judy1FreeArray(PPvoid_t array, PJError_t error);
Word_t Judy1MemUsed(Pcvoid_t array);
Word_t Judy1MemActive(Pcvoid_t array);
int Judy1First(Pcvoid_t array, Word_t *key, PJError_t error);
int Judy1Next(Pcvoid_t array, Word_t *key, PJError_t error);
int Judy1Last(Pcvoid_t array, Word_t *key, PJError_t error);
int Judy1Prev(Pcvoid_t array, Word_t *key, PJError_t error);
int Judy1FirstEmpty(Pcvoid_t array, Word_t *word, PJError_t error);
int Judy1NextEmpty(Pcvoid_t array, Word_t *word, PJError_t error);
int Judy1LastEmpty(Pcvoid_t array, Word_t *word, PJError_t error);
int Judy1PrevEmpty(Pcvoid_t array, Word_t *word, PJError_t error);

PPvoid_t JudyLGet(Pcvoid_t array, Word_t key, PJError_t error);
PPvoid_t JudyLIns(PPvoid_t array, Word_t key, PJError_t error);
int JudyLInsArray(PPvoid_t array, Word_t count, const Word_t *keys, const Word_t *values, PJError_t error);
int JudyLDel(PPvoid_t array, Word_t key, PJError_t error);
Word_t JudyLCount(Pcvoid_t array, Word_t from, Word_t to, PJError_t error);
PPvoid_t JudyLByCount(Pcvoid_t array, Word_t n, Word_t *key, PJError_t error);
Word_t JudyLFreeArray(PPvoid_t array, PJError_t error);
Word_t JudyLMemUsed(Pcvoid_t array);
Word_t JudyLMemActive(Pcvoid_t array);
PPvoid_t JudyLFirst(Pcvoid_t array, Word_t *key, PJError_t error);
PPvoid_t JudyLNext(Pcvoid_t array, Word_t *key, PJError_t error);
PPvoid_t JudyLLast(Pcvoid_t array, Word_t *key, PJError_t error);
PPvoid_t JudyLPrev(Pcvoid_t array, Word_t *key, PJError_t error);
int JudyLFirstEmpty(Pcvoid_t array, Word_t *word, PJError_t error);
int JudyLNextEmpty(Pcvoid_t array, Word_t *word, PJError_t error);
int JudyLLastEmpty(Pcvoid_t array, Word_t *word, PJError_t error);
int JudyLPrevEmpty(Pcvoid_t array, Word_t *word, PJError_t error);

PPvoid_t JudySLGet(Pcvoid_t array, const uint8_t *string, PJError_t error);
PPvoid_t JudySLIns(PPvoid_t array, const uint8_t *string, PJError_t error);
int JudySLDel(PPvoid_t array, const uint8_t *string, PJError_t error);
Word_t JudySLFreeArray(PPvoid_t array, PJError_t error);
PPvoid_t JudySLFirst(Pcvoid_t array, uint8_t *string, PJError_t error);
PPvoid_t JudySLNext(Pcvoid_t array, uint8_t *string, PJError_t error);
PPvoid_t JudySLLast(Pcvoid_t array, uint8_t *string, PJError_t error);
PPvoid_t JudySLPrev(Pcvoid_t array, uint8_t *string, PJError_t error);

PPvoid_t JudyHSGet(Pcvoid_t array, void *bytes, Word_t length);
PPvoid_t JudyHSIns(PPvoid_t array, void *bytes, Word_t length, PJError_t error);
int JudyHSDel(PPvoid_t array, void *bytes, Word_t length, PJError_t error);
Word_t JudyHSFreeArray(PPvoid_t array, PJError_t error);

/* All blocks of all arrays are asked for by JudyMalloc, which takes and answers words, 0 where there are none, and
 * given back by JudyFree. A program may define both itself. The other two are here for those that call or define
 * them. */
Word_t JudyMalloc(Word_t words);
Word_t JudyMallocVirtual(Word_t words);
void JudyFree(Pvoid_t block, Word_t words);
void JudyFreeVirtual(Pvoid_t block, Word_t words);

/* For those that link against them: no sizes are told. */
extern const char *Judy1MallocSizes;
extern const char *JudyLMallocSizes;

#ifdef __cplusplus
}
#endif

/* The short forms: the answer goes into the first word named, and the array is named as the variable that holds it.
 * On an error JUDYERROR is called, which a program may define before it includes this header. With JUDYERROR_NOTEST
 * it isn't called, and the answer tells the error. Each is a block or an expression, as HP's is. */
#ifdef JUDYERROR_NOTEST

#define J_SE(name, number) ((void)0)
#define SELLUMAQ_J_ANSWER(type, answer, wrong, name, call) { PJError_t sellumaq_j_told = PJE0; (answer) = (call); (void)sellumaq_j_told; }
#define SELLUMAQ_J_SLOT(slot, name, call) { PJError_t sellumaq_j_told = PJE0; (slot) = SELLUMAQ_J_POINTER(call); (void)sellumaq_j_told; }

#else

#ifndef JUDYERROR
#define JUDYERROR(file, line, name, number, place) \
    { fprintf(stderr, "File '%s', line %d: %s(), JU_ERRNO_* == %d, ID == %d\n", file, line, name, (int)(number), place); exit(1); }
#endif

#define J_E(name, error) JUDYERROR(__FILE__, __LINE__, name, JU_ERRNO(error), JU_ERRID(error))
#define J_SE(name, number) \
    { JError_t sellumaq_j_error; JU_ERRNO(&sellumaq_j_error) = (number); JU_ERRID(&sellumaq_j_error) = __LINE__; J_E(name, &sellumaq_j_error); }
#define SELLUMAQ_J_ANSWER(type, answer, wrong, name, call) \
    { JError_t sellumaq_j_error; PJError_t sellumaq_j_told = &sellumaq_j_error; type sellumaq_j_answer = (call); \
      SELLUMAQ_J_SET(answer, sellumaq_j_answer); if (sellumaq_j_answer == (type)(wrong)) J_E(name, sellumaq_j_told); }
#define SELLUMAQ_J_SLOT(slot, name, call) \
    { JError_t sellumaq_j_error; PJError_t sellumaq_j_told = &sellumaq_j_error; PPvoid_t sellumaq_j_slot = (call); \
      SELLUMAQ_J_SET(slot, SELLUMAQ_J_POINTER(sellumaq_j_slot)); if (sellumaq_j_slot == PPJERR) J_E(name, sellumaq_j_told); }

#endif

/* Sets a variable of the program's that it needn't read: no compiler calls it unused. */
#define SELLUMAQ_J_SET(variable, value) ((void)(((variable) = (value)) ? 1 : 0))

/* A slot is a pointer of any type to the program, which may include this header within its own `extern "C"`. */
#ifdef __cplusplus
extern "C++" {
struct sellumaq_j_pointer {
    void *at;
    template <class Type> operator Type *() const { return static_cast<Type *>(at); }
};
static inline sellumaq_j_pointer sellumaq_j_pointed(PPvoid_t slot) { sellumaq_j_pointer pointer = {slot}; return pointer; }
}
#define SELLUMAQ_J_POINTER(slot) sellumaq_j_pointed(slot)
#else
#define SELLUMAQ_J_POINTER(slot) ((Pvoid_t)(slot))
#endif

#define SELLUMAQ_J_INT(answer, name, call) SELLUMAQ_J_ANSWER(int, answer, JERR, name, call)
#define SELLUMAQ_J_WORD(answer, name, call) SELLUMAQ_J_ANSWER(Word_t, answer, JERR, name, call)

#define J1T(found, array, key) ((found) = Judy1Test((Pcvoid_t)(array), key, PJE0))
#define J1S(found, array, key) SELLUMAQ_J_INT(found, "Judy1Set", Judy1Set(&(array), key, sellumaq_j_told))
#define J1SA(found, array, count, keys) SELLUMAQ_J_INT(found, "Judy1SetArray", Judy1SetArray(&(array), count, keys, sellumaq_j_told))
#define J1U(found, array, key) SELLUMAQ_J_INT(found, "Judy1Unset", Judy1Unset(&(array), key, sellumaq_j_told))
#define J1C(count, array, from, to) { SELLUMAQ_J_SET(count, Judy1Count((Pcvoid_t)(array), from, to, PJE0)); }
#define J1BC(found, array, n, key) SELLUMAQ_J_INT(found, "Judy1ByCount", Judy1ByCount((Pcvoid_t)(array), n, &(key), sellumaq_j_told))
#define J1FA(bytes, array) SELLUMAQ_J_WORD(bytes, "Judy1FreeArray", Judy1FreeArray(&(array), sellumaq_j_told))
#define J1MU(bytes, array) ((bytes) = Judy1MemUsed((Pcvoid_t)(array)))
#define J1F(found, array, key) SELLUMAQ_J_INT(found, "Judy1First", Judy1First((Pcvoid_t)(array), &(key), sellumaq_j_told))
#define J1N(found, array, key) SELLUMAQ_J_INT(found, "Judy1Next", Judy1Next((Pcvoid_t)(array), &(key), sellumaq_j_told))
#define J1L(found, array, key) SELLUMAQ_J_INT(found, "Judy1Last", Judy1Last((Pcvoid_t)(array), &(key), sellumaq_j_told))
#define J1P(found, array, key) SELLUMAQ_J_INT(found, "Judy1Prev", Judy1Prev((Pcvoid_t)(array), &(key), sellumaq_j_told))
#define J1FE(found, array, word) SELLUMAQ_J_INT(found, "Judy1FirstEmpty", Judy1FirstEmpty((Pcvoid_t)(array), &(word), sellumaq_j_told))
#define J1NE(found, array, word) SELLUMAQ_J_INT(found, "Judy1NextEmpty", Judy1NextEmpty((Pcvoid_t)(array), &(word), sellumaq_j_told))
#define J1LE(found, array, word) SELLUMAQ_J_INT(found, "Judy1LastEmpty", Judy1LastEmpty((Pcvoid_t)(array), &(word), sellumaq_j_told))
#define J1PE(found, array, word) SELLUMAQ_J_INT(found, "Judy1PrevEmpty", Judy1PrevEmpty((Pcvoid_t)(array), &(word), sellumaq_j_told))

#define JLG(slot, array, key) ((slot) = SELLUMAQ_J_POINTER(JudyLGet((Pcvoid_t)(array), key, PJE0)))
#define JLI(slot, array, key) SELLUMAQ_J_SLOT(slot, "JudyLIns", JudyLIns(&(array), key, sellumaq_j_told))
#define JLIA(found, array, count, keys, values) SELLUMAQ_J_INT(found, "JudyLInsArray", JudyLInsArray(&(array), count, keys, values, sellumaq_j_told))
#define JLD(found, array, key) SELLUMAQ_J_INT(found, "JudyLDel", JudyLDel(&(array), key, sellumaq_j_told))
#define JLC(count, array, from, to) { SELLUMAQ_J_SET(count, JudyLCount((Pcvoid_t)(array), from, to, PJE0)); }
#define JLBC(slot, array, n, key) SELLUMAQ_J_SLOT(slot, "JudyLByCount", JudyLByCount((Pcvoid_t)(array), n, &(key), sellumaq_j_told))
#define JLFA(bytes, array) SELLUMAQ_J_WORD(bytes, "JudyLFreeArray", JudyLFreeArray(&(array), sellumaq_j_told))
#define JLMU(bytes, array) ((bytes) = JudyLMemUsed((Pcvoid_t)(array)))
#define JLF(slot, array, key) SELLUMAQ_J_SLOT(slot, "JudyLFirst", JudyLFirst((Pcvoid_t)(array), &(key), sellumaq_j_told))
#define JLN(slot, array, key) SELLUMAQ_J_SLOT(slot, "JudyLNext", JudyLNext((Pcvoid_t)(array), &(key), sellumaq_j_told))
#define JLL(slot, array, key) SELLUMAQ_J_SLOT(slot, "JudyLLast", JudyLLast((Pcvoid_t)(array), &(key), sellumaq_j_told))
#define JLP(slot, array, key) SELLUMAQ_J_SLOT(slot, "JudyLPrev", JudyLPrev((Pcvoid_t)(array), &(key), sellumaq_j_told))
#define JLFE(found, array, word) SELLUMAQ_J_INT(found, "JudyLFirstEmpty", JudyLFirstEmpty((Pcvoid_t)(array), &(word), sellumaq_j_told))
#define JLNE(found, array, word) SELLUMAQ_J_INT(found, "JudyLNextEmpty", JudyLNextEmpty((Pcvoid_t)(array), &(word), sellumaq_j_told))
#define JLLE(found, array, word) SELLUMAQ_J_INT(found, "JudyLLastEmpty", JudyLLastEmpty((Pcvoid_t)(array), &(word), sellumaq_j_told))
#define JLPE(found, array, word) SELLUMAQ_J_INT(found, "JudyLPrevEmpty", JudyLPrevEmpty((Pcvoid_t)(array), &(word), sellumaq_j_told))

#define JSLG(slot, array, string) SELLUMAQ_J_SLOT(slot, "JudySLGet", JudySLGet((Pcvoid_t)(array), string, sellumaq_j_told))
#define JSLI(slot, array, string) SELLUMAQ_J_SLOT(slot, "JudySLIns", JudySLIns(&(array), string, sellumaq_j_told))
#define JSLD(found, array, string) SELLUMAQ_J_INT(found, "JudySLDel", JudySLDel(&(array), string, sellumaq_j_told))
#define JSLFA(bytes, array) SELLUMAQ_J_WORD(bytes, "JudySLFreeArray", JudySLFreeArray(&(array), sellumaq_j_told))
#define JSLF(slot, array, string) SELLUMAQ_J_SLOT(slot, "JudySLFirst", JudySLFirst((Pcvoid_t)(array), string, sellumaq_j_told))
#define JSLN(slot, array, string) SELLUMAQ_J_SLOT(slot, "JudySLNext", JudySLNext((Pcvoid_t)(array), string, sellumaq_j_told))
#define JSLL(slot, array, string) SELLUMAQ_J_SLOT(slot, "JudySLLast", JudySLLast((Pcvoid_t)(array), string, sellumaq_j_told))
#define JSLP(slot, array, string) SELLUMAQ_J_SLOT(slot, "JudySLPrev", JudySLPrev((Pcvoid_t)(array), string, sellumaq_j_told))

#define JHSG(slot, array, bytes, length) ((slot) = SELLUMAQ_J_POINTER(JudyHSGet((Pcvoid_t)(array), (Pvoid_t)(bytes), length)))
#define JHSI(slot, array, bytes, length) SELLUMAQ_J_SLOT(slot, "JudyHSIns", JudyHSIns(&(array), (Pvoid_t)(bytes), length, sellumaq_j_told))
#define JHSD(found, array, bytes, length) SELLUMAQ_J_INT(found, "JudyHSDel", JudyHSDel(&(array), (Pvoid_t)(bytes), length, sellumaq_j_told))
#define JHSFA(bytes, array) SELLUMAQ_J_WORD(bytes, "JudyHSFreeArray", JudyHSFreeArray(&(array), sellumaq_j_told))

#endif
