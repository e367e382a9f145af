/* A malloc of a test's own, which counts the blocks that are held and their bytes, and refuses calls where the test
 * says so, and those for which more bytes would be held than it says. */
#include <malloc.h>
#include <stdbool.h>
#include <stddef.h>

extern void *__libc_malloc(size_t size);
extern void *__libc_realloc(void *block, size_t size);
extern void __libc_free(void *block);

/* The blocks that are held, and how many calls are answered before each later one is refused; none is for -1. */
static long held, answered = -1;
static size_t held_bytes, most_bytes = (size_t)-1;

/* Whether a call is refused, for so many bytes in the place of others. */
static bool refused(size_t size, size_t before) {
    if (answered > 0) answered--;
    else if (!answered) return true;
    return size > before && (held_bytes >= most_bytes || size - before > most_bytes - held_bytes);
}

void *malloc(size_t size) {
    void *block = refused(size, 0) ? NULL : __libc_malloc(size);
    held += block != NULL;
    held_bytes += malloc_usable_size(block);
    return block;
}

void *realloc(void *block, size_t size) {
    if (!block) return malloc(size);
    size_t before = malloc_usable_size(block);
    if (refused(size, before)) return NULL;
    void *moved = __libc_realloc(block, size);
    if (moved) held_bytes += malloc_usable_size(moved) - before;
    return moved;
}

void free(void *block) {
    held -= block != NULL;
    held_bytes -= malloc_usable_size(block);
    __libc_free(block);
}
