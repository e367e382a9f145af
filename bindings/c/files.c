/* One array in a file of its own: saved, opened again, and why a file is none as text. No proof reads this; the
 * bytes of a file are what the proved `dump` writes and `load` reads. Rust's crate and Python's extension take it in
 * too. */
#ifndef _DEFAULT_SOURCE
#define _DEFAULT_SOURCE
#endif
#include <errno.h>
#include <fcntl.h>
#include <stdio.h>
#include <stdlib.h>
#include <string.h>
#include <sys/stat.h>
#include <unistd.h>

#include "sellumaq.h"

typedef uint32_t Dump(const void *array, uint8_t *bytes, size_t room, size_t *size);
typedef uint32_t Load(void *array, const uint8_t *bytes, size_t count, uint32_t *fault);

/* The format of files, and the array's name in them. */
enum { FORMAT = 2 };
static const uint8_t NAME[] = {'a', 'r', 'r', 'a', 'y'};

/* What is answered where a call of the system failed. */
static uint32_t why(void) { return errno == ENOMEM ? SELLUMAQ_NO_MEMORY : SELLUMAQ_SYSTEM; }

/* A call that was interrupted is made again. The 1,000th interruption in a row is an error, as of judystore's files;
 * errno is EINTR then. */
enum { INTERRUPTIONS = 1000 };

/* Whether a call is to be made again that has failed or not, after so many interruptions in a row. */
static bool again(bool has_failed, int *interruptions) {
    if (has_failed && errno == EINTR) return ++*interruptions < INTERRUPTIONS;
    *interruptions = 0;
    return false;
}

/* ---- out ---- */

/* A file beside has one of so many names. One that is taken is another thread's, or was left by a process that
 * ended. */
enum { TURNS = 1000, NAME_ROOM = 48 };

/* Where a file is to stand. */
typedef struct {
    char *path; /* what is to be freed: the folder's, and behind its end the name */
    const char *name;
    int folder;
    bool is_there;
    mode_t mode; /* of the file that is there; else what the process's umask cuts */
} Place;

/* The path of the file that a link leads to; where there is no file, a copy of the path. NULL with errno set. */
static char *follow(const char *path) {
    char *found = realpath(path, NULL);
    return found || errno != ENOENT ? found : strdup(path);
}

/* Opens the folder of a path, and cuts the path behind it. */
static int open_folder(Place *place) {
    char *slash = strrchr(place->path, '/');
    const char *folder = !slash ? "." : slash == place->path ? "/" : place->path;
    place->name = slash ? slash + 1 : place->path;
    if (slash) *slash = '\0';
    int interruptions = 0;
    do place->folder = open(folder, O_RDONLY | O_DIRECTORY | O_CLOEXEC);
    while (again(place->folder < 0, &interruptions));
    return place->folder;
}

/* Reads what stands at a place: a file, or nothing. */
static bool read_old(Place *place) {
    struct stat old;
    place->is_there = fstatat(place->folder, place->name, &old, 0) == 0;
    place->mode = place->is_there ? old.st_mode & 0777 : 0666;
    if (!place->is_there) return errno == ENOENT && *place->name;
    if (!S_ISREG(old.st_mode)) errno = S_ISDIR(old.st_mode) ? EISDIR : EINVAL;
    return S_ISREG(old.st_mode);
}

static int make_beside(const Place *place, char name[NAME_ROOM]) {
    for (int turn = 0, interruptions = 0; turn < TURNS; turn++) {
        int file;
        snprintf(name, NAME_ROOM, ".sellumaq-%ld-%d", (long)getpid(), turn);
        do file = openat(place->folder, name, O_WRONLY | O_CREAT | O_EXCL | O_CLOEXEC, place->mode);
        while (again(file < 0, &interruptions));
        if (file >= 0 || errno != EEXIST) return file;
    }
    return -1;
}

static bool write_all(int file, const uint8_t *bytes, size_t count) {
    int interruptions = 0;
    while (count > 0) {
        ssize_t written = write(file, bytes, count);
        if (again(written < 0, &interruptions)) continue;
        if (written == 0) errno = EIO;
        if (written <= 0) return false;
        bytes += written;
        count -= (size_t)written;
    }
    return true;
}

/* Has the disk keep a file or a folder. */
static bool keep(int file) {
    int told, interruptions = 0;
    do told = fsync(file);
    while (again(told != 0, &interruptions));
    return told == 0;
}

/* Writes a file beside, and gives it the place's name. Where that fails it is taken away. */
static bool replace(const Place *place, const uint8_t *bytes, size_t count) {
    char beside[NAME_ROOM];
    int file = make_beside(place, beside), error;
    if (file < 0) return false;
    bool done = (!place->is_there || fchmod(file, place->mode) == 0) && write_all(file, bytes, count) && keep(file);
    error = errno;
    if (close(file) != 0 && errno != EINTR && done) {
        done = false;
        error = errno;
    }
    if (done && renameat(place->folder, beside, place->folder, place->name) == 0) return true;
    if (done) error = errno;
    unlinkat(place->folder, beside, 0);
    errno = error;
    return false;
}

/* Puts bytes at a path; false with errno set. A file system that has no such call for folders keeps them in its own
 * way. */
static bool put(const char *path, const uint8_t *bytes, size_t count) {
    Place place = {.path = follow(path), .folder = -1};
    bool done = place.path && open_folder(&place) >= 0 && read_old(&place) && replace(&place, bytes, count) &&
                (keep(place.folder) || errno == EINVAL || errno == EROFS);
    int error = errno;
    if (place.folder >= 0) close(place.folder);
    free(place.path);
    errno = error;
    return done;
}

static uint32_t save(Dump *dump, const void *array, const char *path) {
    size_t size = 0;
    uint8_t none;
    uint32_t told = dump(array, &none, 0, &size);
    if (told != SELLUMAQ_TOO_SMALL) return told;
    uint8_t *bytes = malloc(size);
    if (!bytes) return SELLUMAQ_NO_MEMORY;
    told = dump(array, bytes, size, &size);
    if (told == SELLUMAQ_DONE && !put(path, bytes, size)) told = why();
    int error = errno;
    free(bytes);
    errno = error;
    return told;
}

/* ---- in ---- */

/* The bytes of a file, and for how many there is room. */
typedef struct {
    uint8_t *at;
    size_t count, room;
} Bytes;

/* How many bytes are looked for first: all of a file, and one behind its end; of what tells no size, such as a pipe,
 * a piece. */
static size_t first_room(int file) {
    struct stat told;
    bool is_sized = fstat(file, &told) == 0 && S_ISREG(told.st_mode) && told.st_size > 0;
    return is_sized ? (size_t)told.st_size + 1 : 65536;
}

static bool make_room(Bytes *bytes, size_t room) {
    uint8_t *more = realloc(bytes->at, room);
    if (!more) return false;
    bytes->at = more;
    bytes->room = room;
    return true;
}

/* Reads up to the end. The bytes are a copy, so that nobody who writes to the file, or cuts it, changes them under a
 * load. */
static bool read_all(int file, Bytes *bytes) {
    int interruptions = 0;
    if (!make_room(bytes, first_room(file))) return false;
    for (;;) {
        if (bytes->count == bytes->room && !make_room(bytes, 2 * bytes->room)) return false;
        ssize_t got = read(file, bytes->at + bytes->count, bytes->room - bytes->count);
        if (again(got < 0, &interruptions)) continue;
        if (got <= 0) return got == 0;
        bytes->count += (size_t)got;
    }
}

static uint32_t open_array(Load *load, void *array, const char *path, uint32_t *fault) {
    Bytes bytes = {0};
    int file, error, interruptions = 0;
    do file = open(path, O_RDONLY | O_CLOEXEC);
    while (again(file < 0, &interruptions));
    if (file < 0) return why();
    bool is_read = read_all(file, &bytes);
    error = errno;
    close(file);
    errno = error;
    uint32_t told = is_read ? load(array, bytes.at, bytes.count, fault) : why();
    error = errno;
    free(bytes.at);
    errno = error;
    return told;
}

#define FILES(kind)                                                                                                        \
    static uint32_t dump_##kind(const void *array, uint8_t *bytes, size_t room, size_t *size) {                            \
        return sellumaq_##kind##_dump(array, FORMAT, NAME, sizeof NAME, bytes, room, size);                                \
    }                                                                                                                      \
    static uint32_t load_##kind(void *array, const uint8_t *bytes, size_t count, uint32_t *fault) {                        \
        return sellumaq_##kind##_load(array, bytes, count, fault);                                                         \
    }                                                                                                                      \
    uint32_t sellumaq_##kind##_dump_size(const sellumaq_##kind *array, uint32_t format, const uint8_t *name, size_t length, \
                                         size_t *size) {                                                                   \
        uint8_t none;                                                                                                      \
        uint32_t told = sellumaq_##kind##_dump(array, format, name, length, &none, 0, size);                               \
        return told == SELLUMAQ_TOO_SMALL ? SELLUMAQ_DONE : told;                                                          \
    }                                                                                                                      \
    uint32_t sellumaq_##kind##_save(const sellumaq_##kind *array, const char *path) { return save(dump_##kind, array, path); } \
    uint32_t sellumaq_##kind##_open(sellumaq_##kind *array, const char *path, uint32_t *fault) {                           \
        return open_array(load_##kind, array, path, fault);                                                                \
    }

FILES(judy1)
FILES(judyl)
FILES(judysl)
FILES(judyhs)

/* The word before a colon is the fault's name in docs/use/formats.md, where it has one. */
const char *sellumaq_fault_text(uint32_t fault) {
    switch (fault) {
    case SELLUMAQ_DUMP_TRUNCATED: return "truncated: the bytes end within the dump";
    case SELLUMAQ_DUMP_BAD_MAGIC: return "bad-magic: the bytes don't begin with JDY1 or JDY2";
    case SELLUMAQ_DUMP_TOO_MANY: return "too-many: there are more than 64 arrays";
    case SELLUMAQ_DUMP_BAD_NAME: return "bad-name: the name of an array isn't one";
    case SELLUMAQ_DUMP_SAME_NAME: return "same-name: two arrays have one name";
    case SELLUMAQ_DUMP_BAD_KIND: return "bad-kind: the kind of an array is unknown";
    case SELLUMAQ_DUMP_BAD_LIMIT: return "bad-limit: the limit of an array is 0, or above 4,294,967,295";
    case SELLUMAQ_DUMP_BAD_COUNT: return "bad-count: an array has more keys than its limit";
    case SELLUMAQ_DUMP_BAD_KEY: return "bad-key: the bytes of a string are no key";
    case SELLUMAQ_DUMP_BAD_ORDER: return "bad-order: a key isn't above the one before it";
    case SELLUMAQ_DUMP_TRAILING: return "trailing: bytes follow the last array";
    case SELLUMAQ_DUMP_BAD_PREFIX: return "bad-prefix: a string shares another front with the one before it";
    case SELLUMAQ_DUMP_NOT_ONE: return "not-one: the dump is of no array, or of several";
    case SELLUMAQ_DUMP_OTHER_KIND: return "other-kind: the dump is of an array of another kind";
    default: return "no load of Sellumaq's answers this fault";
    }
}
