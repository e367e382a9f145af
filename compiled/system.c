/* What the compiled texts ask of the system beside plain calls of the C library: memory, the words of the command line,
 * and the number of the last error.
 *
 * Each function is written from its contract in Rattle's standard library (of its crates `libc`, the file heap, and
 * `os`, the file c). No proof reads this file: it is trusted, as the C library is. What is compiled of it:
 *
 *   always                   a sentence, and an end, on a processor that lacks what the code needs
 *   unless WITHOUT_MEMORY    memory by malloc; libJudy of HP's names has its own, bindings/c/hp/memory.c
 *   where FOR_PROGRAM        what the program alone asks for
 */
#include <errno.h>
#ifdef FOR_PROGRAM
#include <malloc.h>
#endif
#include <stdbool.h>
#include <stddef.h>
#include <stdint.h>
#include <stdlib.h>
#include <unistd.h>

/* The code is of x86-64-v2. A processor without these two would end the process by SIGILL, at whatever call comes
 * first. This runs as the program or library is loaded, so it costs a call nothing. */
__attribute__((constructor(101))) static void refuse_old_processor(void) {
    static const char told[] = "sellumaq: this processor lacks SSE4.2 or popcnt, which the code needs (x86-64-v2)\n";
    __builtin_cpu_init();
    if (__builtin_cpu_supports("sse4.2") && __builtin_cpu_supports("popcnt")) return;
    if (write(STDERR_FILENO, told, sizeof told - 1) < 0) _exit(EXIT_FAILURE);
    _exit(EXIT_FAILURE);
}

#ifndef WITHOUT_MEMORY

/* Whether there is memory, in the first register of an answer, and where, in the second. Where there is none the place
 * is that of a byte that nobody owns, since a place is never null. (libc, types: Tried.) */
typedef struct {
    bool is_made;
    void *at;
} tried;

tried rattle_alloc(size_t size, size_t alignment);
tried rattle_realloc(void *at, size_t kept, size_t size, size_t alignment);
void rattle_dealloc(void *at);

static tried made(void *block) {
    static char nobodys;
    return block ? (tried){true, block} : (tried){false, &nobodys};
}

#ifdef FOR_PROGRAM

/* malloc keeps what is freed. Where half of the bytes went since the last time, and so many at least, the program has
 * it give their pages back to the system: bytes halve so seldom that this costs a free next to nothing. The library
 * leaves it to the program that it is in, whose malloc and whose threads it doesn't know. */
enum { MANY_BYTES = 1 << 20 };

static size_t bytes, most_bytes;

static void count_made(void *block) {
    bytes += malloc_usable_size(block);
    if (bytes > most_bytes) most_bytes = bytes;
}

static void count_freed(void *block) { bytes -= malloc_usable_size(block); }

static void give_back(void) {
    if (bytes > most_bytes / 2 || most_bytes - bytes < MANY_BYTES) return;
    malloc_trim(0);
    most_bytes = bytes;
}

#else
static void count_made(void *block) { (void)block; }
static void count_freed(void *block) { (void)block; }
static void give_back(void) {}
#endif

/* A block of so many bytes, fewer than 2^63, at a multiple of `alignment`, which divides 16, as each of malloc's blocks
 * is. A block of no byte is a block too, which is freed as any other; malloc may answer null where it is asked for
 * none, so it is asked for some. (libc, heap.) */
tried rattle_alloc(size_t size, size_t alignment) {
    void *block = malloc(size ? size : alignment);
    count_made(block);
    return made(block);
}

/* Makes the block at `at` one of so many bytes, which may move. Its first `kept` bytes, which both have, stay as they
 * were. Where there is no memory the block is left as it was. (libc, heap.) */
tried rattle_realloc(void *at, size_t kept, size_t size, size_t alignment) {
    (void)kept;
    count_freed(at);
    void *block = realloc(at, size ? size : alignment);
    count_made(block ? block : at);
    return made(block);
}

/* Frees a block that either of the two made. (libc, heap.) */
void rattle_dealloc(void *at) {
    count_freed(at);
    free(at);
    give_back();
}

#endif
#ifdef FOR_PROGRAM

enum { NO_WORD = -1, TOO_LONG = -2 };

static char **words;
static size_t word_count;

/* glibc hands each constructor what `main` gets. */
__attribute__((constructor(102))) static void keep_words(int count, char **given) {
    words = given;
    word_count = count > 0 ? (size_t)count : 0;
}

size_t rattle_arg_count(void);
ptrdiff_t rattle_arg(size_t at, uint8_t *buffer, size_t length);
int32_t rattle_errno(void);
void rattle_set_errno(int32_t number);

/* How many words the command line has, the program's name among them. (os, c.) */
size_t rattle_arg_count(void) { return word_count; }

/* Puts a word of the command line at the start of a buffer of so many bytes, without the zero behind it, and answers
 * how long it is. It answers -1 where there is no such word, and -2 where the word doesn't fit; the buffer is full
 * then. (os, c.) */
ptrdiff_t rattle_arg(size_t at, uint8_t *buffer, size_t length) {
    if (at >= word_count || !words[at]) return NO_WORD;
    const char *word = words[at];
    size_t taken = 0;
    for (; word[taken]; taken++) {
        if (taken == length) return TOO_LONG;
        buffer[taken] = (uint8_t)word[taken];
    }
    return (ptrdiff_t)taken;
}

/* The number of the last error of a call of the C library, and a write of it. (os, c.) */
int32_t rattle_errno(void) { return errno; }
void rattle_set_errno(int32_t number) { errno = number; }

/* Who asks the disk to keep a file asks again where that was interrupted, and without end. So the linker puts this in
 * the call's place: the 1,000th interruption in a row is an error, as of reads and writes. (libc, fdatasync, which may
 * answer any error.) */
enum { INTERRUPTIONS = 1000 };

int __real_fdatasync(int file);
int __wrap_fdatasync(int file);

int __wrap_fdatasync(int file) {
    for (int n = 0; n < INTERRUPTIONS; n++) {
        int told = __real_fdatasync(file);
        if (told == 0 || errno != EINTR) return told;
    }
    errno = EIO;
    return -1;
}

#endif
