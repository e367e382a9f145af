/* Dumps, loads, saves and opens that are refused memory, at each of their calls for it: the array and the file are as
 * they were, and nothing is kept. And texts that say large numbers, for which no memory is asked. */
#define _DEFAULT_SOURCE
#include <errno.h>
#include <unistd.h>

#include "kinds.h"

extern void *__libc_malloc(size_t size);
extern void *__libc_realloc(void *block, size_t size);
extern void __libc_free(void *block);

/* The blocks that are held, the bytes that were asked for, and how many calls are answered before each later one is
 * refused; none is for -1. */
static long held, answered = -1;
static size_t asked;

static bool refused(size_t size) {
    bool none = answered == 0;
    asked += size;
    answered -= answered > 0;
    if (none) errno = ENOMEM;
    return none;
}

void *malloc(size_t size) {
    bool none = refused(size);
    void *block = none ? NULL : __libc_malloc(size);
    held += block != NULL;
    return block;
}

void *realloc(void *block, size_t size) {
    if (!block) return malloc(size);
    return refused(size) ? NULL : __libc_realloc(block, size);
}

void free(void *block) {
    held -= block != NULL;
    __libc_free(block);
}

enum { UNWRITTEN = 77 };

/* A call on an array and a text, or on a file of it. */
typedef uint32_t call(const kind *kind, handle *array, text whole, const char *path);

static uint32_t load(const kind *kind, handle *array, text whole, const char *path) {
    (void)path;
    uint32_t fault = UNWRITTEN, told = kind->load(array, whole.bytes, whole.size, &fault);
    CHECK(fault == UNWRITTEN);
    return told;
}

static uint32_t open_file(const kind *kind, handle *array, text whole, const char *path) {
    (void)whole;
    uint32_t fault = UNWRITTEN, told = kind->open(array, path, &fault);
    CHECK(fault == UNWRITTEN);
    return told;
}

static uint32_t open_pipe(const kind *kind, handle *array, text whole, const char *path) {
    int ends[2];
    char name[32];
    uint32_t fault = UNWRITTEN;
    (void)path;
    CHECK(pipe(ends) == 0 && write(ends[1], whole.bytes, whole.size) == (ssize_t)whole.size && close(ends[1]) == 0);
    snprintf(name, sizeof name, "/dev/fd/%d", ends[0]);
    uint32_t told = kind->open(array, name, &fault);
    CHECK(fault == UNWRITTEN && close(ends[0]) == 0);
    return told;
}

static uint32_t save(const kind *kind, handle *array, text whole, const char *path) {
    (void)whole;
    return kind->save(array, path);
}

static uint32_t measure(const kind *kind, handle *array, text whole, const char *path) {
    size_t size = UNWRITTEN;
    uint32_t told = kind->dump_size(array, 2, NAME, sizeof NAME, &size);
    (void)whole, (void)path;
    CHECK((size == UNWRITTEN) == (told != SELLUMAQ_DONE));
    return told;
}

/* Refuses one call for memory more late each time, until it is done; answers how often it was refused. The array holds
 * `keys` keys before. */
static int refuse(call *made, const kind *kind, unsigned keys, text whole, const char *path) {
    for (int turn = 0;; turn++) {
        handle array = filled(kind, keys);
        text before = dumped(kind, &array, 2);
        void *was = array.array;
        long blocks = held;
        answered = turn;
        uint32_t told = made(kind, &array, whole, path);
        answered = -1;
        CHECK(told == SELLUMAQ_DONE || (told == SELLUMAQ_NO_MEMORY && held == blocks && array.array == was && is_dumped(kind, &array, 2, before)));
        free(before.bytes);
        kind->free(&array);
        if (told == SELLUMAQ_DONE) return turn;
    }
}

static void try_kind(const kind *kind) {
    static const char *path = "file";
    handle array = filled(kind, 200);
    text whole = dumped(kind, &array, 2);
    CHECK(kind->save(&array, path) == SELLUMAQ_DONE);
    for (unsigned keys = 0; keys < 300; keys += 150) {
        CHECK(refuse(load, kind, keys, whole, path) > 3 && refuse(open_file, kind, keys, whole, path) > 3 && refuse(open_pipe, kind, keys, whole, path) > 4);
    }
    CHECK(refuse(save, kind, 0, whole, "new") > 0 && unlink("new") == 0);
    CHECK((refuse(measure, kind, 150, whole, path) > 0) == (kind->number == 4)); /* whose keys are sorted */
    CHECK(refuse(save, kind, 150, whole, "new") > 0 && access("new", F_OK) == 0 && unlink("new") == 0 && unlink(path) == 0);
    free(whole.bytes);
    kind->free(&array);
}

/* A text with one key that says it has 4,294,967,295: no memory is asked for by that number. */
static void large_numbers(const kind *kind) {
    handle one = { NULL }, array = filled(kind, 20);
    kind->put(&one, 5);
    text whole = dumped(kind, &one, 1);
    size_t count = 8 + 1 + sizeof NAME + 1 + 8;
    memset(whole.bytes + count + 4, 255, 4);
    for (size_t size = count + 8; size <= whole.size; size++) {
        uint32_t fault = UNWRITTEN;
        size_t before = asked;
        CHECK(kind->load(&array, whole.bytes, size, &fault) == SELLUMAQ_BAD_DUMP && fault == SELLUMAQ_DUMP_TRUNCATED && asked - before < 1 << 16);
    }
    free(whole.bytes);
    kind->free(&one);
    kind->free(&array);
}

int main(void) {
    char folder[] = "/tmp/loads-XXXXXX";
    puts("loads without memory"); /* so that the stream has its buffer */
    CHECK(mkdtemp(folder) && chdir(folder) == 0);
    for (size_t at = 0; at < KINDS; at++) {
        try_kind(&kinds[at]);
        large_numbers(&kinds[at]);
    }
    CHECK(chdir("/") == 0 && rmdir(folder) == 0);
    puts("loads: ok");
    return 0;
}
