/* A program that has a malloc of its own, of the four functions that the C library asks for and no more, as programs
 * with an arena have. What stands before a block is none of the C library's, so a call that reads a size there goes
 * astray. */
#include <Judy.h>

#include <string.h>

#include "check.h"

enum { KEYS = 20000, HEAD = 16 };

/* Before a block stands how many bytes were asked for, upside down. No block is given out twice. */
static _Alignas(16) unsigned char arena[192 << 20];
static size_t taken, blocks, bytes;

static size_t *size_of(void *block) { return (size_t *)block - 1; }

void *malloc(size_t size) {
    size_t room = (size + 2 * HEAD - 1) / HEAD * HEAD;
    if (size > sizeof arena || room > sizeof arena - taken) return NULL;
    void *block = arena + taken + HEAD;
    taken += room;
    *size_of(block) = ~size;
    blocks++, bytes += size;
    return block;
}

void free(void *block) {
    if (!block) return;
    size_t size = ~*size_of(block);
    blocks--, bytes -= size;
    for (size_t at = 0; at < size; at++) ((volatile unsigned char *)block)[at] = 0xA5;
}

/* The arena's bytes are zeros when they are given out. */
void *calloc(size_t count, size_t size) { return size && count > sizeof arena / size ? NULL : malloc(count * size); }

void *realloc(void *block, size_t size) {
    void *other = malloc(size);
    if (!block || !other) return other;
    size_t kept = ~*size_of(block) < size ? ~*size_of(block) : size;
    memcpy(other, block, kept);
    free(block);
    return other;
}

static size_t bytes_before, blocks_before;

/* The bytes that were asked for since, but for the head of two words that stands before each block then. */
static Word_t asked(void) { return bytes - bytes_before - 2 * sizeof(Word_t) * (blocks - blocks_before); }

static Word_t place(Word_t n) { return n * 0x9E3779B97F4A7C15; }

static void words(void) {
    Pvoid_t set = NULL, map = NULL;
    bytes_before = bytes, blocks_before = blocks;
    Word_t key, count, freed, *slot;
    int found;
    for (key = 0; key < KEYS; key++) J1S(found, set, key * key * 7919);
    CHECK(Judy1MemUsed(set) == asked());
    for (key = 0; key < KEYS; key++) { JLI(slot, map, place(key)); *slot = key; }
    CHECK(Judy1MemUsed(set) + JudyLMemUsed(map) == asked());
    for (key = 0; key < KEYS; key += 2) {
        J1U(found, set, key * key * 7919); CHECK(found == 1);
        JLD(found, map, place(key)); CHECK(found == 1);
    }
    CHECK(Judy1MemUsed(set) + JudyLMemUsed(map) == asked());
    for (key = 1; key < KEYS; key += 2) {
        J1T(found, set, key * key * 7919); CHECK(found == 1);
        JLG(slot, map, place(key)); CHECK(*slot == key);
    }
    J1C(count, set, 0, -1); CHECK(count == KEYS / 2);
    freed = Judy1MemUsed(set); CHECK(Judy1FreeArray(&set, PJE0) == freed);
    freed = JudyLMemUsed(map); CHECK(JudyLFreeArray(&map, PJE0) == freed);
    CHECK(bytes == bytes_before && blocks == blocks_before);
}

static void strings(void) {
    Pvoid_t map = NULL, hashed = NULL;
    bytes_before = bytes, blocks_before = blocks;
    Word_t *slot, freed;
    char string[32];
    int found;
    for (int n = 0; n < KEYS; n++) {
        int length = snprintf(string, sizeof string, "%d, a key", n * 7919 % KEYS);
        JSLI(slot, map, (const uint8_t *)string); *slot += (Word_t)n;
        JHSI(slot, hashed, string, (Word_t)length); *slot += (Word_t)n;
    }
    for (int n = 0; n < KEYS; n++) {
        int length = snprintf(string, sizeof string, "%d, a key", n * 7919 % KEYS);
        JSLG(slot, map, (const uint8_t *)string); CHECK(*slot == (Word_t)n);
        JHSG(slot, hashed, string, (Word_t)length); CHECK(*slot == (Word_t)n);
        if (n % 3) continue;
        JSLD(found, map, (const uint8_t *)string); CHECK(found == 1);
        JHSD(found, hashed, string, (Word_t)length); CHECK(found == 1);
    }
    freed = JudySLFreeArray(&map, PJE0) + JudyHSFreeArray(&hashed, PJE0);
    CHECK(freed > 0 && bytes == bytes_before && blocks == blocks_before);
}

int main(void) {
    puts("a program with a malloc of its own"); /* so that the stream has its buffer */
    words();
    strings();
    puts("own_malloc: ok");
    return 0;
}
