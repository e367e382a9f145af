/* Files that are saved and opened while the system interrupts each call so many times before it is done: 999 times in a
 * row change nothing, and the 1,000th ends as an error, also where there is no end to them. The calls are this test's
 * own, which stand before the C library's. */
#define _GNU_SOURCE
#include <dirent.h>
#include <errno.h>
#include <fcntl.h>
#include <limits.h>
#include <stdarg.h>
#include <sys/syscall.h>
#include <unistd.h>

#include "kinds.h"

/* The most interruptions in a row that change nothing, and how many bytes are written or read at a time. */
enum { MOST = 999, PIECE = 7, UNWRITTEN = 77 };

enum call { OPEN, OPENAT, WRITE, FSYNC, READ, NO_CALL };

static enum call which = NO_CALL;          /* is interrupted */
static long before_each, in_row, most_row; /* so many times, so many since it was done, and so many at most */

static bool interrupted(enum call call) {
    if (call != which) return false;
    if (in_row == before_each) return in_row = 0, false;
    in_row++;
    if (in_row > most_row) most_row = in_row;
    errno = EINTR;
    return true;
}

static mode_t mode_behind(int flags, va_list rest) { return flags & O_CREAT ? va_arg(rest, mode_t) : 0; }

int open(const char *path, int flags, ...) {
    va_list rest;
    va_start(rest, flags);
    mode_t mode = mode_behind(flags, rest);
    va_end(rest);
    return interrupted(OPEN) ? -1 : (int)syscall(SYS_openat, AT_FDCWD, path, flags, mode);
}

int openat(int folder, const char *path, int flags, ...) {
    va_list rest;
    va_start(rest, flags);
    mode_t mode = mode_behind(flags, rest);
    va_end(rest);
    return interrupted(OPENAT) ? -1 : (int)syscall(SYS_openat, folder, path, flags, mode);
}

ssize_t write(int file, const void *bytes, size_t count) {
    return interrupted(WRITE) ? -1 : syscall(SYS_write, file, bytes, count < PIECE ? count : PIECE);
}

ssize_t read(int file, void *bytes, size_t count) {
    return interrupted(READ) ? -1 : syscall(SYS_read, file, bytes, count < PIECE ? count : PIECE);
}

int fsync(int file) { return interrupted(FSYNC) ? -1 : (int)syscall(SYS_fsync, file); }

static void interrupt(enum call call, long times) {
    which = call;
    before_each = times;
    in_row = most_row = 0;
}

/* How many interruptions in a row there were at most; none comes from here on. */
static long most_seen(void) {
    which = NO_CALL;
    return most_row;
}

/* Whether a file is the only one in the folder. */
static bool is_alone(const char *name) {
    DIR *folder = opendir(".");
    bool is = folder != NULL;
    for (struct dirent *each; folder && (each = readdir(folder));) is &= each->d_name[0] == '.' ? strlen(each->d_name) < 3 : !strcmp(each->d_name, name);
    return folder && closedir(folder) == 0 && is;
}

static bool is_file(const kind *kind, const char *path, text wanted) {
    handle array = { NULL };
    uint32_t fault;
    bool is = kind->open(&array, path, &fault) == SELLUMAQ_DONE && is_dumped(kind, &array, 2, wanted);
    kind->free(&array);
    return is;
}

/* A call that may be interrupted is done all the same, by a save, or, where a save doesn't make it, by an opening. */
static void done(const kind *kind, enum call call, long times) {
    handle array = filled(kind, 20), other = { NULL };
    text wanted = dumped(kind, &array, 2);
    uint32_t fault = UNWRITTEN;
    interrupt(call, times);
    CHECK(kind->save(&array, "file") == SELLUMAQ_DONE);
    CHECK(kind->open(&other, "file", &fault) == SELLUMAQ_DONE && fault == UNWRITTEN);
    CHECK(most_seen() == times && is_dumped(kind, &other, 2, wanted) && is_alone("file"));
    CHECK(is_file(kind, "file", wanted) && unlink("file") == 0);
    free(wanted.bytes);
    kind->free(&array);
    kind->free(&other);
}

/* A save that is interrupted too often tells so: the old file is as it was, and nothing stands beside it. */
static void save_ends(const kind *kind, enum call call, long times) {
    handle array = filled(kind, 20), small = filled(kind, 2);
    text old = dumped(kind, &small, 2);
    CHECK(kind->save(&small, "file") == SELLUMAQ_DONE);
    interrupt(call, times);
    errno = 0;
    CHECK(kind->save(&array, "file") == SELLUMAQ_SYSTEM && errno == EINTR);
    CHECK(most_seen() == MOST + 1 && is_file(kind, "file", old) && is_alone("file") && unlink("file") == 0);
    free(old.bytes);
    kind->free(&array);
    kind->free(&small);
}

/* So does an opening: the array is as it was. */
static void open_ends(const kind *kind, enum call call, long times) {
    handle array = filled(kind, 20), other = filled(kind, 3);
    text before = dumped(kind, &other, 2);
    uint32_t fault = UNWRITTEN;
    CHECK(kind->save(&array, "file") == SELLUMAQ_DONE);
    interrupt(call, times);
    errno = 0;
    CHECK(kind->open(&other, "file", &fault) == SELLUMAQ_SYSTEM && errno == EINTR && fault == UNWRITTEN);
    CHECK(most_seen() == MOST + 1 && is_dumped(kind, &other, 2, before) && unlink("file") == 0);
    free(before.bytes);
    kind->free(&array);
    kind->free(&other);
}

int main(void) {
    char folder[] = "/tmp/interrupted-XXXXXX";
    CHECK(mkdtemp(folder) && chdir(folder) == 0);
    for (const kind *kind = kinds; kind < kinds + KINDS; kind++)
        for (enum call call = 0; call < NO_CALL; call++) {
            done(kind, call, 1);
            done(kind, call, MOST);
            for (int endless = 0; endless < 2; endless++) {
                long times = endless ? LONG_MAX : MOST + 1;
                if (call != READ) save_ends(kind, call, times);
                if (call == OPEN || call == READ) open_ends(kind, call, times);
            }
        }
    CHECK(chdir("/") == 0 && rmdir(folder) == 0);
    puts("interrupted: ok");
    return 0;
}
