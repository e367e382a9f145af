/* Arrays as bytes and in files: what a dump is, what a load makes of each other text, and what a save leaves. `saved
 * FOLDER` leaves dumps there, KIND-COUNT.FORMAT, for judystore to read. */
#define _DEFAULT_SOURCE
#include <errno.h>
#include <signal.h>
#include <sys/resource.h>
#include <sys/stat.h>
#include <sys/wait.h>
#include <unistd.h>

#include "kinds.h"

enum { MOST_BYTES = 1 << 16, UNWRITTEN = 77 };

/* Reads hexadecimal digits, spaces apart; how many bytes they are. */
static size_t of_hex(const char *digits, uint8_t *bytes) {
    size_t count = 0;
    int read = 0;
    for (unsigned byte; sscanf(digits, " %2x%n", &byte, &read) == 1; digits += read) bytes[count++] = (uint8_t)byte;
    return count;
}

/* ---- what is written ---- */

/* The texts that docs/use/formats.md shows, with the limit of C's arrays. */
static const struct {
    uint8_t kind;
    uint32_t format;
    const char *name, *digits;
} shown[] = {
    { 1, 1, "a", "4a445931 00000001 01 61 01 00000000ffffffff 0000000000000001 0000000000000001" },
    { 1, 2, "a", "4a445932 00000001 01 61 01 00000000ffffffff 0000000000000001 0000000000000001" },
    { 2, 1, "b-_9", "4a445931 00000001 04 622d5f39 02 00000000ffffffff 0000000000000001 0000000000000001 fffffffffffffffe" },
    { 3, 1, "s", "4a445931 00000001 01 73 03 00000000ffffffff 0000000000000003 0000 0000000000000001 0002 6162 0000000000000002 0003 616263 0000000000000003" },
    { 3, 2, "s", "4a445932 00000001 01 73 03 00000000ffffffff 0000000000000003 0000 0000 0000000000000001 0000 0002 6162 0000000000000002 0002 0001 63 0000000000000003" },
    { 4, 2, "s", "4a445932 00000001 01 73 04 00000000ffffffff 0000000000000003 0000 0000000000000001 0002 6162 0000000000000002 0003 616263 0000000000000003" },
};

static handle shown_array(uint8_t kind) {
    handle array = { NULL };
    uint64_t value = 1;
    if (kind < 3) kinds[kind - 1].put(&array, 1);
    for (size_t length = 0; kind >= 3 && length < 4; length += length ? 1 : 2, value++) {
        if (kind == 3) sellumaq_judysl_put((sellumaq_judysl *)&array, (const uint8_t *)"abc", length, value);
        if (kind == 4) sellumaq_judyhs_put((sellumaq_judyhs *)&array, (const uint8_t *)"abc", length, value);
    }
    return array;
}

static void texts_shown(void) {
    for (size_t at = 0; at < sizeof shown / sizeof *shown; at++) {
        const kind *kind = &kinds[shown[at].kind - 1];
        uint8_t wanted[256], bytes[256];
        size_t count = of_hex(shown[at].digits, wanted), size = 0;
        handle array = shown_array(shown[at].kind);
        memset(bytes, UNWRITTEN, sizeof bytes);
        CHECK(kind->dump(&array, shown[at].format, (const uint8_t *)shown[at].name, strlen(shown[at].name), bytes, sizeof bytes, &size) == SELLUMAQ_DONE);
        CHECK(size == count && memcmp(bytes, wanted, count) == 0 && bytes[count] == UNWRITTEN);
        kind->free(&array);
    }
}

/* What a dump refuses, in its order: then nothing is written. */
static void refusals(const kind *kind) {
    handle array = filled(kind, 5);
    const uint8_t *long_name = (const uint8_t *)"123456789012345678901234567890123";
    uint8_t bytes[1024];
    size_t size = UNWRITTEN, needed = 0;
    memset(bytes, UNWRITTEN, sizeof bytes);
    for (uint32_t format = 0; format < 4; format += 3) CHECK(kind->dump(&array, format, long_name, 0, bytes, 0, &size) == SELLUMAQ_BAD_FORMAT);
    CHECK(kind->dump(&array, 1, long_name, 0, bytes, 0, &size) == SELLUMAQ_BAD_NAME && kind->dump(&array, 1, long_name, 33, bytes, 0, &size) == SELLUMAQ_BAD_NAME);
    CHECK(kind->dump_size(&array, 2, (const uint8_t *)"a.", 2, &size) == SELLUMAQ_BAD_NAME && kind->dump_size(&array, 3, NAME, 1, &size) == SELLUMAQ_BAD_FORMAT);
    CHECK(size == UNWRITTEN);
    for (uint32_t format = 1; format < 3; format++) {
        CHECK(kind->dump_size(&array, format, long_name, 32, &needed) == SELLUMAQ_DONE && needed < sizeof bytes);
        for (size_t room = 0; room < needed; room++) {
            size = UNWRITTEN;
            CHECK(kind->dump(&array, format, long_name, 32, bytes, room, &size) == SELLUMAQ_TOO_SMALL && size == needed);
        }
    }
    for (size_t at = 0; at < sizeof bytes; at++) CHECK(bytes[at] == UNWRITTEN);
    kind->free(&array);
}

/* A key that a dump can't say: nothing is written, and a file stays, until it has gone. */
#define LONG_KEYS(kind)                                                                                              \
    static void long_##kind##_keys(const char *path) {                                                               \
        static uint8_t key[SELLUMAQ_SAVED_KEY_BYTES + 1], bytes[2 * sizeof key];                                     \
        sellumaq_##kind map = { 0 };                                                                                 \
        size_t size = UNWRITTEN;                                                                                     \
        memset(key, 'k', sizeof key);                                                                                \
        sellumaq_##kind##_put(&map, key, SELLUMAQ_SAVED_KEY_BYTES, 5);                                               \
        CHECK(sellumaq_##kind##_dump_size(&map, 1, NAME, 1, &size) == SELLUMAQ_DONE);                                \
        CHECK(size == 27 + 2 + SELLUMAQ_SAVED_KEY_BYTES + 8 && sellumaq_##kind##_save(&map, path) == SELLUMAQ_DONE); \
        sellumaq_##kind##_put(&map, key, sizeof key, 6);                                                             \
        memset(bytes, UNWRITTEN, sizeof bytes);                                                                      \
        size = UNWRITTEN;                                                                                            \
        for (uint32_t format = 1; format < 3; format++) {                                                            \
            CHECK(sellumaq_##kind##_dump(&map, format, NAME, 1, bytes, sizeof bytes, &size) == SELLUMAQ_BAD_KEY);    \
            CHECK(sellumaq_##kind##_dump_size(&map, format, NAME, 1, &size) == SELLUMAQ_BAD_KEY);                    \
            CHECK(sellumaq_##kind##_dump(&map, format, NAME, 0, bytes, sizeof bytes, &size) == SELLUMAQ_BAD_NAME);   \
        }                                                                                                            \
        CHECK(sellumaq_##kind##_save(&map, path) == SELLUMAQ_BAD_KEY && size == UNWRITTEN);                          \
        for (size_t at = 0; at < sizeof bytes; at++) CHECK(bytes[at] == UNWRITTEN);                                  \
        CHECK(sellumaq_##kind##_del(&map, key, sizeof key));                                                         \
        CHECK(sellumaq_##kind##_dump_size(&map, 2, NAME, 1, &size) == SELLUMAQ_DONE);                                \
        CHECK(sellumaq_##kind##_free(&map) == 1);                                                                    \
        uint32_t fault = UNWRITTEN;                                                                                  \
        CHECK(sellumaq_##kind##_open(&map, path, &fault) == SELLUMAQ_DONE && fault == UNWRITTEN);                    \
        CHECK(sellumaq_##kind##_free(&map) == 1 && unlink(path) == 0);                                               \
    }

LONG_KEYS(judysl)
LONG_KEYS(judyhs)

/* ---- what is read ---- */

/* Loads a text into an array that holds other keys: made of it, or as it was, with the fault; 0 where it was made. */
static uint32_t fault_of(const kind *kind, const uint8_t *bytes, size_t count, handle *array) {
    text before = dumped(kind, array, 1);
    void *was = array->array;
    uint32_t fault = UNWRITTEN, told = kind->load(array, bytes, count, &fault);
    CHECK(told == SELLUMAQ_DONE ? fault == UNWRITTEN : told == SELLUMAQ_BAD_DUMP && fault >= SELLUMAQ_DUMP_TRUNCATED && fault <= SELLUMAQ_DUMP_OTHER_KIND);
    CHECK(told == SELLUMAQ_DONE || (array->array == was && is_dumped(kind, array, 1, before)));
    free(before.bytes);
    return told == SELLUMAQ_DONE ? 0 : fault;
}

static void round_trips(const kind *kind, unsigned count) {
    handle array = filled(kind, count), other = filled(kind, 40);
    text first = dumped(kind, &array, 1);
    for (uint32_t format = 1; format < 3; format++) {
        text made = dumped(kind, &array, format);
        CHECK(fault_of(kind, made.bytes, made.size, &other) == 0 && kind->len(&other) == kind->len(&array));
        CHECK(is_dumped(kind, &other, 1, first) && is_dumped(kind, &other, format, made));
        free(made.bytes);
    }
    free(first.bytes);
    kind->free(&array);
    kind->free(&other);
}

/* A text with a changed byte is another whole array, which is dumped to these very bytes, but for the limit; or it has
 * a fault. */
static void try_changed(const kind *kind, const uint8_t *bytes, size_t count, handle *other) {
    uint8_t again[1024];
    size_t name = bytes[8], limit = 8 + 1 + name + 1, size = 0;
    if (fault_of(kind, bytes, count, other) != 0) return;
    CHECK(kind->dump(other, bytes[3] - '0', bytes + 9, name, again, sizeof again, &size) == SELLUMAQ_DONE && size == count);
    CHECK(memcmp(again, bytes, limit) == 0 && memcmp(again + limit + 8, bytes + limit + 8, count - limit - 8) == 0);
}

static void changed_texts(const kind *kind, uint32_t format) {
    static const uint8_t flips[] = { 1, 2, 3, 16, 32, 128, 255 };
    handle array = filled(kind, 4), other = filled(kind, 3);
    text made = dumped(kind, &array, format);
    uint8_t bytes[1024];
    CHECK(made.size < sizeof bytes);
    memcpy(bytes, made.bytes, made.size);
    for (size_t at = 0; at < made.size; at++) {
        CHECK(fault_of(kind, bytes, at, &other) == SELLUMAQ_DUMP_TRUNCATED);
        for (size_t flip = 0; flip < sizeof flips; flip++) {
            bytes[at] ^= flips[flip];
            try_changed(kind, bytes, made.size, &other);
            bytes[at] ^= flips[flip];
        }
    }
    bytes[made.size] = 0;
    CHECK(fault_of(kind, bytes, made.size + 1, &other) == SELLUMAQ_DUMP_TRAILING);
    free(made.bytes);
    kind->free(&array);
    kind->free(&other);
}

#define JDY1 "4a445931 "
#define JDY2 "4a445932 "
#define ONE "00000001 01 61 "
#define LIMIT "00000000ffffffff "

/* Texts with each fault, and the first in the order of their fields. What stands behind the kind is read of an array of
 * that kind alone: `kind` is its number, or 0 where the fault comes before. */
static const struct {
    uint32_t fault;
    uint32_t kind;
    const char *digits;
} faults[] = {
    { SELLUMAQ_DUMP_TRUNCATED, 0, "" },
    { SELLUMAQ_DUMP_BAD_MAGIC, 0, "4a445933 00000041" },
    { SELLUMAQ_DUMP_TOO_MANY, 0, JDY2 "00000041" },
    { SELLUMAQ_DUMP_BAD_NAME, 0, JDY1 "00000001 00" },
    { SELLUMAQ_DUMP_BAD_NAME, 0, JDY1 "00000001 21" },
    { SELLUMAQ_DUMP_BAD_NAME, 0, JDY1 "00000001 02 6120" },
    { SELLUMAQ_DUMP_NOT_ONE, 0, JDY1 "00000002 01 61 01" LIMIT "0000000000000000 01 61 09" },
    { SELLUMAQ_DUMP_BAD_KIND, 0, JDY1 ONE "00" },
    { SELLUMAQ_DUMP_BAD_KIND, 0, JDY1 ONE "05" },
    { SELLUMAQ_DUMP_BAD_LIMIT, 1, JDY1 ONE "01 0000000000000000 0000000000000001" },
    { SELLUMAQ_DUMP_BAD_LIMIT, 1, JDY1 ONE "01 0000000100000000" },
    { SELLUMAQ_DUMP_BAD_COUNT, 1, JDY1 ONE "01 0000000000000001 0000000000000002" },
    { SELLUMAQ_DUMP_BAD_COUNT, 1, JDY1 ONE "01" LIMIT "ffffffffffffffff" },
    { SELLUMAQ_DUMP_BAD_KEY, 3, JDY1 ONE "03" LIMIT "0000000000000001 0001 00" },
    { SELLUMAQ_DUMP_BAD_KEY, 4, JDY1 ONE "04" LIMIT "0000000000000001 0401" },
    { SELLUMAQ_DUMP_BAD_ORDER, 1, JDY1 ONE "01" LIMIT "0000000000000002 0000000000000001 0000000000000001" },
    { SELLUMAQ_DUMP_BAD_ORDER, 4, JDY1 ONE "04" LIMIT "0000000000000002 0001 62 0000000000000001 0001 61" },
    { SELLUMAQ_DUMP_TRAILING, 1, JDY1 ONE "01" LIMIT "0000000000000000 00" },
    { SELLUMAQ_DUMP_NOT_ONE, 0, JDY1 "00000000 00" },
    { SELLUMAQ_DUMP_BAD_PREFIX, 3, JDY2 ONE "03" LIMIT "0000000000000001 0001" },
    { SELLUMAQ_DUMP_BAD_PREFIX, 3, JDY2 ONE "03" LIMIT "0000000000000002 0000 0001 61 0000000000000001 0000 0002 6162" },
    { SELLUMAQ_DUMP_NOT_ONE, 0, JDY1 "00000000" },
    { SELLUMAQ_DUMP_NOT_ONE, 0, JDY1 "00000002 01 61 01" LIMIT "0000000000000000 01 62 02" LIMIT "0000000000000000" },
    { SELLUMAQ_DUMP_TRUNCATED, 1, JDY1 ONE "01" LIMIT "00000000ffffffff 0000000000000001" },
};

static void faults_told(const kind *kind) {
    uint8_t bytes[256];
    handle array = filled(kind, 9);
    for (size_t at = 0; at < sizeof faults / sizeof *faults; at++) {
        bool read = faults[at].kind == 0 || faults[at].kind == kind->number;
        CHECK(fault_of(kind, bytes, of_hex(faults[at].digits, bytes), &array) == (read ? faults[at].fault : SELLUMAQ_DUMP_OTHER_KIND));
    }
    for (size_t at = 0; at < sizeof shown / sizeof *shown; at++) {
        uint32_t wanted = shown[at].kind == kind->number ? 0 : SELLUMAQ_DUMP_OTHER_KIND;
        CHECK(fault_of(kind, bytes, of_hex(shown[at].digits, bytes), &array) == wanted);
    }
    kind->free(&array);
}

static void fault_texts(void) {
    const char *none = sellumaq_fault_text(0);
    CHECK(sellumaq_fault_text(SELLUMAQ_DUMP_OTHER_KIND + 1) == none);
    for (uint32_t fault = SELLUMAQ_DUMP_TRUNCATED; fault <= SELLUMAQ_DUMP_OTHER_KIND; fault++) {
        const char *told = sellumaq_fault_text(fault);
        CHECK(strchr(told, ':') && strlen(told) < 80 && !strchr(told, '\n'));
        for (uint32_t other = 0; other < fault; other++) CHECK(strcmp(told, sellumaq_fault_text(other)) != 0);
    }
}

/* ---- files ---- */

static void write_file(const char *path, const void *bytes, size_t count) {
    FILE *file = fopen(path, "wb");
    CHECK(file && fwrite(bytes, 1, count, file) == count && fclose(file) == 0);
}

static bool is_file(const char *path, text wanted) {
    static uint8_t bytes[MOST_BYTES];
    FILE *file = fopen(path, "rb");
    size_t count = file ? fread(bytes, 1, sizeof bytes, file) : 0;
    return file && fclose(file) == 0 && count == wanted.size && memcmp(bytes, wanted.bytes, count) == 0;
}

static mode_t mode_of(const char *path) {
    struct stat told;
    CHECK(stat(path, &told) == 0);
    return told.st_mode & 07777;
}

/* A save that fails tells why, and leaves a file as it was. */
static bool fails(const kind *kind, const handle *array, const char *path, int error) {
    errno = 0;
    return kind->save(array, path) == SELLUMAQ_SYSTEM && errno == error;
}

static void saved_files(const kind *kind) {
    handle array = filled(kind, 300), other = filled(kind, 3), small = { NULL };
    text whole = dumped(kind, &array, 2), empty = dumped(kind, &small, 2);
    uint32_t fault = UNWRITTEN;
    CHECK(kind->save(&array, "file") == SELLUMAQ_DONE && is_file("file", whole) && mode_of("file") == 0640);
    CHECK(kind->open(&other, "file", &fault) == SELLUMAQ_DONE && is_dumped(kind, &other, 2, whole));
    CHECK(kind->save(&small, "file") == SELLUMAQ_DONE && is_file("file", empty) && kind->open(&other, "file", &fault) == SELLUMAQ_DONE && kind->len(&other) == 0);
    /* a file that can't be written to, and one behind a link */
    CHECK(chmod("file", 0404) == 0 && kind->save(&array, "./file") == SELLUMAQ_DONE && is_file("file", whole) && mode_of("file") == 0404);
    CHECK(symlink("file", "link") == 0 && kind->save(&small, "link") == SELLUMAQ_DONE && is_file("file", empty) && unlink("link") == 0);
    CHECK(access("file", F_OK) == 0);
    /* a folder, one that isn't there, no name, and what is no file */
    CHECK(mkdir("folder", 0700) == 0 && fails(kind, &array, "folder", EISDIR) && rmdir("folder") == 0);
    CHECK(fails(kind, &array, "none/file", ENOENT) && fails(kind, &array, "", ENOENT) && fails(kind, &array, "file/file", ENOTDIR));
    CHECK(mkfifo("pipe", 0600) == 0 && fails(kind, &array, "pipe", EINVAL) && unlink("pipe") == 0);
    CHECK(is_file("file", empty) && unlink("file") == 0 && fault == UNWRITTEN);
    free(whole.bytes);
    free(empty.bytes);
    kind->free(&array);
    kind->free(&other);
    kind->free(&small);
}

/* A disk with no room but for the front of a file: the old one is as it was, and nothing stands beside it. */
static void full_disk(const kind *kind) {
    handle array = filled(kind, 300), small = filled(kind, 2);
    text whole = dumped(kind, &array, 2), old = dumped(kind, &small, 2);
    struct rlimit before, few;
    CHECK(kind->save(&small, "file") == SELLUMAQ_DONE && getrlimit(RLIMIT_FSIZE, &before) == 0);
    few = before;
    for (few.rlim_cur = 0; few.rlim_cur < whole.size; few.rlim_cur += whole.size / 7) {
        CHECK(setrlimit(RLIMIT_FSIZE, &few) == 0);
        CHECK(fails(kind, &array, "file", EFBIG) && fails(kind, &array, "new", EFBIG));
        CHECK(setrlimit(RLIMIT_FSIZE, &before) == 0 && is_file("file", old) && access("new", F_OK) != 0);
    }
    CHECK(unlink("file") == 0);
    free(whole.bytes);
    free(old.bytes);
    kind->free(&array);
    kind->free(&small);
}

/* What can't be opened, and files that are none; a pipe is read up to its end. */
static void opened_files(const kind *kind) {
    handle array = filled(kind, 50), other = filled(kind, 3);
    text whole = dumped(kind, &array, 1), before = dumped(kind, &other, 1);
    uint32_t fault = UNWRITTEN;
    CHECK(kind->open(&other, "none", &fault) == SELLUMAQ_SYSTEM && errno == ENOENT);
    CHECK(kind->open(&other, ".", &fault) == SELLUMAQ_SYSTEM && errno == EISDIR && fault == UNWRITTEN);
    write_file("file", "", 0);
    CHECK(kind->open(&other, "file", &fault) == SELLUMAQ_BAD_DUMP && fault == SELLUMAQ_DUMP_TRUNCATED);
    write_file("file", whole.bytes, whole.size - 1);
    CHECK(kind->open(&other, "file", &fault) == SELLUMAQ_BAD_DUMP && fault == SELLUMAQ_DUMP_TRUNCATED);
    write_file("file", "JDY3", 4);
    CHECK(kind->open(&other, "file", &fault) == SELLUMAQ_BAD_DUMP && fault == SELLUMAQ_DUMP_BAD_MAGIC);
    CHECK(is_dumped(kind, &other, 1, before));
    int ends[2];
    char path[32];
    CHECK(pipe(ends) == 0 && write(ends[1], whole.bytes, whole.size) == (ssize_t)whole.size && close(ends[1]) == 0);
    snprintf(path, sizeof path, "/dev/fd/%d", ends[0]);
    fault = UNWRITTEN;
    CHECK(kind->open(&other, path, &fault) == SELLUMAQ_DONE && fault == UNWRITTEN && is_dumped(kind, &other, 1, whole) && close(ends[0]) == 0);
    CHECK(unlink("file") == 0);
    free(whole.bytes);
    free(before.bytes);
    kind->free(&array);
    kind->free(&other);
}

/* A file that another process cuts and writes while it is loaded spoils the load at most: it is refused, or what was
 * read is an array. */
static void cut_files(const kind *kind) {
    handle array = filled(kind, 20000), other = { NULL };
    text whole = dumped(kind, &array, 2);
    write_file("file", whole.bytes, whole.size);
    pid_t reader = getpid(), writer = fork();
    while (writer == 0 && getppid() == reader) {
        write_file("file", whole.bytes, whole.size / 2);
        write_file("file", whole.bytes, whole.size);
    }
    if (writer == 0) _exit(0);
    for (int turn = 0; writer > 0 && turn < 200; turn++) {
        uint32_t fault = UNWRITTEN, told = kind->open(&other, "file", &fault);
        CHECK(told == SELLUMAQ_DONE ? fault == UNWRITTEN : told == SELLUMAQ_BAD_DUMP && fault != UNWRITTEN);
    }
    int status = 0;
    CHECK(writer > 0 && kill(writer, SIGKILL) == 0 && waitpid(writer, &status, 0) == writer && WIFSIGNALED(status) && WTERMSIG(status) == SIGKILL);
    CHECK(unlink("file") == 0);
    free(whole.bytes);
    kind->free(&array);
    kind->free(&other);
}

/* ---- for judystore ---- */

static void leave(const char *folder) {
    CHECK(chdir(folder) == 0);
    for (size_t at = 0; at < KINDS; at++)
        for (unsigned count = 0; count < 3000; count = 3 * count + 1)
            for (uint32_t format = 1; format < 3; format++) {
                handle array = filled(&kinds[at], count);
                text made = dumped(&kinds[at], &array, format);
                char path[64];
                snprintf(path, sizeof path, "%s-%u.%u", kinds[at].name, count, (unsigned)format);
                write_file(path, made.bytes, made.size);
                free(made.bytes);
                kinds[at].free(&array);
            }
}

int main(int count, char **words) {
    if (count > 1) {
        leave(words[1]);
        return 0;
    }
    char folder[] = "/tmp/saved-XXXXXX";
    umask(027);
    signal(SIGXFSZ, SIG_IGN);
    CHECK(mkdtemp(folder) && chdir(folder) == 0);
    texts_shown();
    fault_texts();
    long_judysl_keys("long");
    long_judyhs_keys("long");
    for (size_t at = 0; at < KINDS; at++) {
        refusals(&kinds[at]);
        for (unsigned keys = 0; keys < 3000; keys = 4 * keys + 1) round_trips(&kinds[at], keys);
        for (uint32_t format = 1; format < 3; format++) changed_texts(&kinds[at], format);
        faults_told(&kinds[at]);
        saved_files(&kinds[at]);
        full_disk(&kinds[at]);
        cut_files(&kinds[at]);
        opened_files(&kinds[at]);
    }
    CHECK(chdir("/") == 0 && rmdir(folder) == 0); /* nothing was left beside */
    puts("saved: ok");
    return 0;
}
