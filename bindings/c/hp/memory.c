/* The three functions by which the proved calls take memory, over JudyMalloc and JudyFree, which a program may
 * replace.
 *
 * The bytes of a block are asked for when it is given back, and the proved calls don't tell them. malloc knows them
 * of its own blocks, and tells them by malloc_usable_size. Where a program has a malloc of its own without that
 * call, or a JudyMalloc, each block begins with a head that says its words. */
#define _GNU_SOURCE
#include "memory.h"

#include <link.h>
#include <malloc.h>
#include <stdatomic.h>
#include <string.h>

/* As the kit's: whether there is a block, and where. */
typedef struct { uint64_t is_made; void *at; } tried;
tried rattle_alloc(size_t size, size_t alignment);
tried rattle_realloc(void *at, size_t kept, size_t size, size_t alignment);
void rattle_dealloc(void *at);

enum { WORD = sizeof(Word_t), HEAD = 16 };

_Thread_local Word_t sellumaq_hp_balance;
_Thread_local bool sellumaq_hp_begins;

static Word_t own_malloc(Word_t words) { return (Word_t)malloc(words * WORD); }
static void own_free(Pvoid_t block, Word_t words) {
    (void)words;
    free(block);
}

/* Weak, so that a program that is linked with the static library may define them itself. */
__attribute__((weak, alias("own_malloc"))) Word_t JudyMalloc(Word_t words);
__attribute__((weak, alias("own_malloc"))) Word_t JudyMallocVirtual(Word_t words);
__attribute__((weak, alias("own_free"))) void JudyFree(Pvoid_t block, Word_t words);
__attribute__((weak, alias("own_free"))) void JudyFreeVirtual(Pvoid_t block, Word_t words);

const char *Judy1MallocSizes = "";
const char *JudyLMallocSizes = "";

/* Weak, so that a static program with a malloc of its own doesn't get the C library's beside it. */
#pragma weak malloc_usable_size

static bool holds(const struct dl_phdr_info *object, uintptr_t function) {
    for (int at = 0; at < object->dlpi_phnum; at++) {
        const ElfW(Phdr) *part = &object->dlpi_phdr[at];
        if (part->p_type == PT_LOAD && function - (object->dlpi_addr + part->p_vaddr) < part->p_memsz) return true;
    }
    return false;
}

/* Of the program or library that has malloc, whether it has malloc_usable_size too. */
static int tell_sizes(struct dl_phdr_info *object, size_t size, void *told) {
    (void)size;
    if (!holds(object, (uintptr_t)malloc)) return 0;
    *(bool *)told = malloc_usable_size && holds(object, (uintptr_t)malloc_usable_size);
    return 1;
}

/* Whether blocks have heads, once that is found out. Threads that do so at once find the same. */
static _Atomic enum { UNKNOWN, WITHOUT_HEADS, WITH_HEADS } blocks;

__attribute__((cold, noinline)) static bool find_heads(void) {
    bool are_told = false;
    if (JudyMalloc == own_malloc && JudyFree == own_free) dl_iterate_phdr(tell_sizes, &are_told);
    atomic_store_explicit(&blocks, are_told ? WITHOUT_HEADS : WITH_HEADS, memory_order_relaxed);
    return !are_told;
}

static inline bool have_heads(void) {
    int known = atomic_load_explicit(&blocks, memory_order_relaxed);
    return known == UNKNOWN ? find_heads() : known == WITH_HEADS;
}

static Word_t *head(const void *block) { return (Word_t *)((uintptr_t)block - HEAD); }

static Word_t bytes_of(const void *block) {
    return have_heads() ? *head(block) * WORD - HEAD : malloc_usable_size((void *)block);
}

/* Counts a block that was made. */
static tried made(void *block) {
    static Word_t none[2];
    if (!block) return (tried){0, none};
    sellumaq_hp_balance += bytes_of(block);
    return (tried){1, block};
}

tried rattle_alloc(size_t size, size_t alignment) {
    Word_t words = ((size ? size : alignment) + WORD - 1) / WORD + sellumaq_hp_begins;
    sellumaq_hp_begins = false;
    if (!have_heads()) return made((void *)JudyMalloc(words));
    Word_t block = JudyMalloc(words + HEAD / WORD);
    if (!block) return made(NULL);
    *(Word_t *)block = words + HEAD / WORD;
    return made((void *)(block + HEAD));
}

tried rattle_realloc(void *at, size_t kept, size_t size, size_t alignment) {
    if (!have_heads()) {
        Word_t before = bytes_of(at);
        void *block = realloc(at, size ? size : alignment);
        if (block) sellumaq_hp_balance -= before;
        return made(block);
    }
    tried other = rattle_alloc(size, alignment);
    if (other.is_made) {
        memcpy(other.at, at, kept < size ? kept : size);
        rattle_dealloc(at);
    }
    return other;
}

void rattle_dealloc(void *at) {
    sellumaq_hp_balance -= bytes_of(at);
    if (have_heads()) JudyFree(head(at), *head(at));
    else free(at);
}

Word_t *sellumaq_hp_bytes(Pcvoid_t array) { return (Word_t *)((uintptr_t)array + bytes_of(array)) - 1; }
