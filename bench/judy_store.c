/* The program's arrays over HP's libJudy, to be measured beside it: a script of `make NAME KIND`, `ins` and `get`, of a judy1 `set` and `test`,
 * from standard input gets the same bytes for answers. Other lines are refused as unknown. */
#include <Judy.h>
#include <stdbool.h>
#include <stdint.h>
#include <stdlib.h>
#include <string.h>
#include <unistd.h>

/* As many bytes as the program reads and writes at once; the longest line, key and name; and how many arrays there may be. */
enum { PIECE = 65536, LONGEST_LINE = 4096, LONGEST_KEY = 1024, LONGEST_NAME = 32, MOST_ARRAYS = 64, MOST_TOKENS = 4 };

typedef enum { JUDY1, JUDYL, JUDYSL, JUDYHS, KINDS } kind;

static const char *const KIND_NAMES[] = {"judy1", "judyl", "judysl", "judyhs"};

typedef struct {
    char name[LONGEST_NAME + 1];
    kind kind;
    Pvoid_t held;
} named_array;

static named_array arrays[MOST_ARRAYS];
static size_t array_count;

/* A part of a line. */
typedef struct {
    const char *at;
    size_t length;
} token;

static bool is(token token, const char *word) { return token.length == strlen(word) && !memcmp(token.at, word, token.length); }

/* ---- answers ---- */

static char answers[PIECE];
static size_t answered;

static void hand_on(void) {
    for (size_t at = 0; at < answered;) {
        ssize_t taken = write(STDOUT_FILENO, answers + at, answered - at);
        if (taken < 0) exit(1);
        at += (size_t)taken;
    }
    answered = 0;
}

static void say(const char *text, size_t length) {
    memcpy(answers + answered, text, length);
    answered += length;
}

static void say_number(uint64_t number) {
    char digits[20];
    size_t at = sizeof digits;
    do digits[--at] = (char)('0' + number % 10);
    while (number /= 10);
    say(digits + at, sizeof digits - at);
    say("\n", 1);
}

static void say_line(const char *line) {
    say(line, strlen(line));
    say("\n", 1);
}

static void say_was(uint64_t value) {
    say("was ", 4);
    say_number(value);
}

static void say_error(const char *word) {
    say("error ", 6);
    say_line(word);
}

/* ---- arguments ---- */

static bool read_word(token token, uint64_t *word) {
    *word = 0;
    for (size_t at = 0; at < token.length; at++) {
        unsigned digit = (unsigned)token.at[at] - '0';
        if (digit > 9 || __builtin_mul_overflow(*word, 10, word) || __builtin_add_overflow(*word, digit, word)) return false;
    }
    return token.length > 0;
}

/* A string with a zero byte behind it; of the two forms only `=`, which all scripts that are measured use. */
static bool read_string(token token, uint8_t key[LONGEST_KEY + 1], size_t *length) {
    if (token.length == 0 || token.at[0] != '=' || token.length - 1 > LONGEST_KEY) return false;
    *length = token.length - 1;
    memcpy(key, token.at + 1, *length);
    key[*length] = 0;
    return true;
}

static named_array *find(token name) {
    for (size_t at = 0; at < array_count; at++)
        if (is(name, arrays[at].name)) return &arrays[at];
    return NULL;
}

/* ---- commands ---- */

static void make(token name, token of) {
    for (kind kind = 0; kind < KINDS; kind++)
        if (is(of, KIND_NAMES[kind]) && array_count < MOST_ARRAYS && name.length <= LONGEST_NAME) {
            named_array *made = &arrays[array_count++];
            memcpy(made->name, name.at, name.length);
            made->kind = kind;
            say_line("ok");
            return;
        }
    say_error("wrong-kind");
}

/* Where the value of a key is kept: it is put in, or null where it isn't there. PPJERR where it can't be one. */
static PPvoid_t slot(named_array *array, token key, bool puts) {
    uint8_t string[LONGEST_KEY + 1];
    uint64_t word;
    size_t length;
    if (array->kind == JUDYL) {
        if (!read_word(key, &word)) return PPJERR;
        return puts ? JudyLIns(&array->held, word, PJE0) : JudyLGet(array->held, word, PJE0);
    }
    if (!read_string(key, string, &length)) return PPJERR;
    if (array->kind == JUDYSL) return puts ? JudySLIns(&array->held, string, PJE0) : JudySLGet(array->held, string, PJE0);
    return puts ? JudyHSIns(&array->held, string, length, PJE0) : JudyHSGet(array->held, string, length);
}

static void insert(named_array *array, token key, token value) {
    uint64_t word;
    PPvoid_t at = array->kind == JUDY1 || !read_word(value, &word) ? PPJERR : slot(array, key, true);
    if (at == PPJERR) {
        say_error("bad-word");
        return;
    }
    say_was(*(Word_t *)at);
    *(Word_t *)at = word;
}

static void get(named_array *array, token key) {
    PPvoid_t at = array->kind == JUDY1 ? PPJERR : slot(array, key, false);
    if (at == PPJERR) say_error("bad-word");
    else if (at) say_number(*(Word_t *)at);
    else say_line("none");
}

static void set_or_test(named_array *array, token key, bool sets) {
    uint64_t word;
    if (array->kind != JUDY1 || !read_word(key, &word)) say_error("bad-word");
    else say_number((uint64_t)(sets ? Judy1Set(&array->held, word, PJE0) : Judy1Test(array->held, word, PJE0)));
}

static void execute_on(named_array *array, const token *tokens, size_t count) {
    if (!array) say_error("no-such-array");
    else if (count == 4 && is(tokens[0], "ins")) insert(array, tokens[2], tokens[3]);
    else if (count == 3 && is(tokens[0], "get")) get(array, tokens[2]);
    else if (count == 3 && is(tokens[0], "set")) set_or_test(array, tokens[2], true);
    else if (count == 3 && is(tokens[0], "test")) set_or_test(array, tokens[2], false);
    else say_error("unknown-command");
}

static void execute(const char *line, const char *end) {
    token tokens[MOST_TOKENS];
    size_t count = 0;
    while (line < end && count < MOST_TOKENS) {
        const char *space = memchr(line, ' ', (size_t)(end - line));
        const char *behind = space ? space : end;
        if (behind > line) tokens[count++] = (token){line, (size_t)(behind - line)};
        line = behind + 1;
    }
    if (count < 3) say_error("unknown-command");
    else if (is(tokens[0], "make")) make(tokens[1], tokens[2]);
    else execute_on(find(tokens[1]), tokens, count);
    if (answered > PIECE - LONGEST_LINE) hand_on();
}

int main(void) {
    static char script[PIECE + LONGEST_LINE];
    size_t left = 0;
    ssize_t got;
    while ((got = read(STDIN_FILENO, script + left, PIECE)) > 0) {
        const char *line = script, *end = script + left + got, *feed;
        while ((feed = memchr(line, '\n', (size_t)(end - line)))) {
            execute(line, feed);
            line = feed + 1;
        }
        left = (size_t)(end - line);
        if (left > LONGEST_LINE) return 1;
        memmove(script, line, left);
    }
    hand_on();
    return 0;
}
