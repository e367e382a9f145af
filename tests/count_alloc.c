/* Counts a program's calls for memory.

   It stands before the C library's own functions, where it is preloaded. When the program ends it writes three numbers into the file that
   COUNTED names: the calls for memory, the blocks that were not given back, and the bytes that were taken at once at most. It counts for
   one thread. */

#include <errno.h>
#include <malloc.h>
#include <stddef.h>
#include <stdio.h>
#include <stdlib.h>

extern void *__libc_malloc(size_t size);
extern void *__libc_calloc(size_t count, size_t size);
extern void *__libc_realloc(void *block, size_t size);
extern void *__libc_memalign(size_t alignment, size_t size);
extern void __libc_free(void *block);

static long calls;
static long blocks;
static size_t bytes;
static size_t most_bytes;

static void *taken(void *block)
{
    calls++;
    if (!block)
        return NULL;
    blocks++;
    bytes += malloc_usable_size(block);
    if (bytes > most_bytes)
        most_bytes = bytes;
    return block;
}

static void given_back(void *block)
{
    if (!block)
        return;
    blocks--;
    bytes -= malloc_usable_size(block);
}

void *malloc(size_t size)
{
    return taken(__libc_malloc(size));
}

void *calloc(size_t count, size_t size)
{
    return taken(__libc_calloc(count, size));
}

void *memalign(size_t alignment, size_t size)
{
    return taken(__libc_memalign(alignment, size));
}

void *aligned_alloc(size_t alignment, size_t size)
{
    return taken(__libc_memalign(alignment, size));
}

int posix_memalign(void **block, size_t alignment, size_t size)
{
    void *made = taken(__libc_memalign(alignment, size));
    if (!made)
        return ENOMEM;
    *block = made;
    return 0;
}

void free(void *block)
{
    given_back(block);
    __libc_free(block);
}

void *realloc(void *block, size_t size)
{
    size_t before = block ? malloc_usable_size(block) : 0;
    void *made = __libc_realloc(block, size);
    if (made && block) {
        blocks--;
        bytes -= before;
    }
    return taken(made);
}

__attribute__((destructor)) static void tell(void)
{
    const char *name = getenv("COUNTED");
    long counted[] = {calls, blocks};
    size_t most = most_bytes;
    FILE *file = name ? fopen(name, "w") : NULL;
    if (!file)
        return;
    fprintf(file, "%ld %ld %zu\n", counted[0], counted[1], most);
    fclose(file);
}
