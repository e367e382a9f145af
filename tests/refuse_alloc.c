/* Refuses calls for memory, to see what a program does without it.

   It stands before the C library's own functions, where it is preloaded, and counts the calls of them all. REFUSE=N in
   the environment refuses the Nth call, REFUSE=N+ that one and each later one, REFUSE=N,M the Nth and then the Mth. When it has
   refused each call that REFUSE names it creates the file that REFUSED names, so that whoever runs the program can tell. It counts
   for one thread.

   A program that looks the function `refuse_from` up refuses its own thread's calls by it, where it chooses. */

#include <errno.h>
#include <fcntl.h>
#include <stddef.h>
#include <stdlib.h>
#include <string.h>
#include <unistd.h>

extern void *__libc_malloc(size_t size);
extern void *__libc_calloc(size_t count, size_t size);
extern void *__libc_realloc(void *block, size_t size);
extern void *__libc_memalign(size_t alignment, size_t size);

static long first; /* 0: nothing is refused */
static long last;
static long called;
static int onward;

__attribute__((constructor)) static void begin(void)
{
    const char *refuse = getenv("REFUSE");
    if (refuse) {
        const char *second = strchr(refuse, ',');
        onward = strchr(refuse, '+') != NULL;
        called = 0;
        last = atol(second ? second + 1 : refuse);
        first = atol(refuse);
    }
}

/* The thread's own choice; it is kept where no call for memory is made for it. */
#define OF_THREAD static _Thread_local __attribute__((tls_model("initial-exec"))) long
OF_THREAD own_first; /* 0: nothing is refused */
OF_THREAD own_called;
OF_THREAD own_refused;

/* Refuses this thread's calls from now on, the Nth and each later one, or none for 0; answers how many were refused since it was called before. */
long refuse_from(long call)
{
    long told = own_refused;
    own_first = call;
    own_called = own_refused = 0;
    return told;
}

static int refused_by_choice(void)
{
    if (own_first == 0 || ++own_called < own_first)
        return 0;
    own_refused++;
    errno = ENOMEM;
    return 1;
}

static int refused(void)
{
    if (refused_by_choice())
        return 1;
    if (first == 0)
        return 0;
    called++;
    if (called != first && called != last && !(onward && called > first))
        return 0;
    if (called == last) {
        const char *told = getenv("REFUSED");
        int file = told ? open(told, O_CREAT | O_WRONLY, 0600) : -1;
        if (file >= 0)
            close(file);
    }
    errno = ENOMEM;
    return 1;
}

void *malloc(size_t size)
{
    return refused() ? NULL : __libc_malloc(size);
}

void *calloc(size_t count, size_t size)
{
    return refused() ? NULL : __libc_calloc(count, size);
}

void *realloc(void *block, size_t size)
{
    return refused() ? NULL : __libc_realloc(block, size);
}

void *memalign(size_t alignment, size_t size)
{
    return refused() ? NULL : __libc_memalign(alignment, size);
}

void *aligned_alloc(size_t alignment, size_t size)
{
    return refused() ? NULL : __libc_memalign(alignment, size);
}

int posix_memalign(void **block, size_t alignment, size_t size)
{
    void *made = refused() ? NULL : __libc_memalign(alignment, size);
    if (!made)
        return ENOMEM;
    *block = made;
    return 0;
}
