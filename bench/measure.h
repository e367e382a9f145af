/* What the measuring programs share: words that look random, a clock, the loop over arrays and patterns of keys, and the lines that they print,
 *
 *     KIND LIBRARY PATTERN KEYS OPERATION NUMBER
 *
 * the number being nanoseconds of processor time an operation, the least of several turns, or for `bytes` the bytes that malloc gives for a key.
 *
 * Compiled with COUNTED and run by callgrind, no time is told: each array takes one turn, and callgrind writes a file for each operation, whose trigger is
 * such a line, the number being that of operations.
 */
#include <malloc.h>
#include <stdbool.h>
#include <stdint.h>
#include <stdio.h>
#include <stdlib.h>
#include <string.h>
#include <sys/wait.h>
#include <time.h>
#include <unistd.h>
#ifdef COUNTED
#include <valgrind/callgrind.h>
#endif

typedef uint64_t word;

/* A call by HP's names of this project's libJudy, beside HP's own of the same name: tools/bench names it so. */
#define RELINKED(CALL) extern __typeof__(CALL) relinked_##CALL

static word seed;

static word any(void) {
    seed += 0x9e3779b97f4a7c15u;
    word z = seed;
    z = (z ^ (z >> 30)) * 0xbf58476d1ce4e5b9u;
    z = (z ^ (z >> 27)) * 0x94d049bb133111ebu;
    return z ^ (z >> 31);
}

/* The thread's own processor time, so that other work on the machine counts little. */
static word now(void) {
    struct timespec at;
#ifdef COUNTED
    CALLGRIND_ZERO_STATS;
#endif
    clock_gettime(CLOCK_THREAD_CPUTIME_ID, &at);
    return (word)at.tv_sec * 1000000000u + (word)at.tv_nsec;
}

/* Room for so many things, all zeros; the program ends where there is none. */
static void *room(size_t count, size_t bytes) {
    void *made = calloc(count, bytes);
    if (!made) {
        fputs("no memory for the keys\n", stderr);
        exit(1);
    }
    return made;
}

/* ---- what is told ---- */

enum { INSERT, HIT, MISS, WALK, NEXT, RANK, SELECT, DELETE, BULK, COPY, BYTES, OPERATIONS };

static const char *const NAMES[] = {"insert", "hit", "miss", "walk", "next", "rank", "select", "delete", "bulk", "copy", "bytes"};

static void none_yet(double *told) {
    for (size_t operation = 0; operation < OPERATIONS; operation++) told[operation] = -1;
}

#ifdef COUNTED
/* What the process measures, as a line begins that tells of it. */
static char measured[256];

static void count(int operation, size_t n) {
    char line[sizeof measured + 64];
    snprintf(line, sizeof line, "%s %s %zu", measured, NAMES[operation], n);
    CALLGRIND_DUMP_STATS_AT(line);
}
#endif

/* Keeps the least time that an operation took, since a beginning and for so many keys. */
static void took(double *told, int operation, word begin, size_t n) {
#ifdef COUNTED
    count(operation, n);
#endif
    double each = (double)(now() - begin) / n;
    if (told[operation] < 0 || each < told[operation]) told[operation] = each;
}

/* Measures the operation on each key: what is done for the `i`-th. It stands in a measuring function, which has `keys` and `told`. */
#define EACH(OPERATION, ...) \
    do { \
        word begin = now(); \
        for (size_t i = 0; i < keys->n; i++) { __VA_ARGS__; } \
        took(told, OPERATION, begin, keys->n); \
    } while (0)

/* What a measured loop found goes here, so that no loop can be left out. */
static volatile word sink;

/* ---- the loop ---- */

/* The keys of a run, by the program's own definition. */
struct keys;

/* One library's array of a kind, and the function that measures it over keys. */
struct array {
    const char *kind, *library;
    void (*measure)(const struct keys *keys, double *told);
};

/* A measuring program: the arrays that it measures over each pattern of keys, which it names, makes and gives back. */
struct program {
    const struct array *arrays;
    size_t array_count, pattern_count;
    const char *(*name)(size_t pattern);
    struct keys *(*make)(size_t n, size_t pattern);
    void (*drop)(struct keys *keys);
};

static void print(const struct array *array, const char *pattern, size_t n, const double *told) {
    for (size_t operation = 0; operation < OPERATIONS; operation++)
        if (told[operation] >= 0) printf("%s %s %s %zu %s %.2f\n", array->kind, array->library, pattern, n, NAMES[operation], told[operation]);
    fflush(stdout);
}

/* A process that measures one array, so that it alone decides how its memory lies: the arrays of a program use one library each. It is
 * told by bytes: to take a turn, which it answers, or to end and print what it measured. */
struct runner {
    pid_t id;
    int tell, answer;
};

enum { TURN = 't', END = 'e' };

static void fail(const char *what) {
    perror(what);
    exit(1);
}

/* What such a process does. */
static void run(const struct array *array, const struct keys *keys, const char *pattern, size_t n, int told_by, int answer) {
    double told[OPERATIONS];
    char word;
#ifdef COUNTED
    snprintf(measured, sizeof measured, "%s %s %s %zu", array->kind, array->library, pattern, n);
#endif
    none_yet(told);
    while (read(told_by, &word, 1) == 1 && word == TURN) {
        array->measure(keys, told);
        if (write(answer, &word, 1) != 1) fail("a turn");
    }
    print(array, pattern, n, told);
    _exit(0);
}

static struct runner begin(const struct array *array, const struct keys *keys, const char *pattern, size_t n) {
    int tell[2], answer[2];
    if (pipe(tell) || pipe(answer)) fail("pipe");
    pid_t id = fork();
    if (id < 0) fail("fork");
    if (id == 0) run(array, keys, pattern, n, tell[0], answer[1]);
    close(tell[0]);
    close(answer[1]);
    return (struct runner){id, tell[1], answer[0]};
}

static void take_turn(const struct runner *runner) {
    char word = TURN;
    if (write(runner->tell, &word, 1) != 1 || read(runner->answer, &word, 1) != 1) fail("a turn");
}

static void end(const struct runner *runner) {
    char word = END;
    int status;
    if (write(runner->tell, &word, 1) != 1 || waitpid(runner->id, &status, 0) < 0 || status) fail("an end");
    close(runner->tell);
    close(runner->answer);
}

/* The arrays take turns, so that what slows the machine for a while slows them all. The least of many turns is a steady figure. */
static void measure_pattern(const struct program *program, size_t n, size_t pattern) {
    struct runner runners[program->array_count];
    struct keys *keys = program->make(n, pattern);
#ifdef COUNTED
    size_t turns = 1;
#else
    size_t turns = n <= 1000 ? 200 : n < 100000 ? 50 : n < 10000000 ? 5 : 2;
#endif
    for (size_t it = 0; it < program->array_count; it++) runners[it] = begin(&program->arrays[it], keys, program->name(pattern), n);
    for (size_t turn = 0; turn < turns; turn++)
        for (size_t it = 0; it < program->array_count; it++) take_turn(&runners[it]);
    for (size_t it = 0; it < program->array_count; it++) end(&runners[it]);
    program->drop(keys);
}

/* Measures at each number of keys that the command line names, or at the usual ones; the status that the program ends with. */
static int measure_all(const struct program *program, int count, char **words) {
    size_t usual[] = {10000, 1000000};
    size_t sizes = count > 1 ? (size_t)count - 1 : 2;
#ifndef COUNTED /* below callgrind the heap has little room, and large blocks stand elsewhere */
    mallopt(M_MMAP_THRESHOLD, 1 << 30);
#endif
    for (size_t at = 0; at < sizes; at++) {
        size_t n = count > 1 ? strtoull(words[at + 1], NULL, 10) : usual[at];
        if (n == 0) {
            fprintf(stderr, "not a number of keys: %s\n", words[at + 1]);
            return 2;
        }
        for (size_t pattern = 0; pattern < program->pattern_count; pattern++) measure_pattern(program, n, pattern);
    }
    return 0;
}
