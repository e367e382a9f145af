/* Strings that are put into maps and looked for, by patterns, for the programs that measure maps of strings. It stands on measure.h. */

/* A string of at most so many bytes, with a zero byte behind it that its length doesn't count. */
enum { LONGEST = 100 };
typedef struct { uint8_t bytes[LONGEST + 1]; size_t length; } text;

static void letter(text *it) { it->bytes[it->length++] = 'a' + any() % 26; }

/* Five syllables, a consonant and a vowel each: words that share their beginnings as those of a language do. */
static void word_of_10(text *it) {
    while (it->length < 10) {
        it->bytes[it->length++] = "bcdfghjklmnprstvwxyz"[any() % 20];
        it->bytes[it->length++] = "aeiou"[any() % 5];
    }
}

static void add(text *it, const char *part) {
    while (*part) it->bytes[it->length++] = (uint8_t)*part++;
}

#define ONE_OF(PARTS) PARTS[any() % (sizeof PARTS / sizeof *PARTS)]

/* A word of a dictionary: two or three syllables, and an ending that many words have. */
static void word_of_dictionary(text *it) {
    static const char *const begins[] = {"b", "c", "d", "f", "g", "h", "l", "m", "n", "p", "r", "s", "t", "v", "w", "br", "ch", "cr", "fl", "gr", "pr", "sh", "st", "th", "tr", ""};
    static const char *const middles[] = {"a", "e", "i", "o", "u", "ea", "ou", "ai"};
    static const char *const ends[] = {"", "", "", "l", "m", "n", "r", "s", "t", "ck", "nd", "nt", "st"};
    static const char *const endings[] = {"", "", "", "s", "ed", "er", "ing", "ly", "ness", "able", "ment", "ation"};
    for (size_t left = 2 + any() % 2; left > 0; left--) {
        add(it, ONE_OF(begins));
        add(it, ONE_OF(middles));
        add(it, ONE_OF(ends));
    }
    add(it, ONE_OF(endings));
}

static void url_of_100(text *it) {
    int length = sprintf((char *)it->bytes, "https://www.site-%03u.example/section-%04u/page-", (unsigned)(any() % 200), (unsigned)(any() % 1000));
    for (it->length = (size_t)length; it->length < 100;) letter(it);
}

/* A number below another, small ones far more often: half of them are in the first sixteenth. */
static size_t skewed(size_t below) {
    double at = (double)(any() >> 11) / (double)(1ull << 53);
    return (size_t)(at * at * at * at * (double)below);
}

/* The beginning of a URL, on a host of which a few have most. */
static void url_on_host(text *it) {
    it->length = (size_t)sprintf((char *)it->bytes, "https://www.site-%05u.example/section-%02u/", (unsigned)skewed(20000), (unsigned)skewed(50));
}

static void url_by_number(text *it) {
    url_on_host(it);
    it->length += (size_t)sprintf((char *)it->bytes + it->length, "item-%u.html", (unsigned)(any() % 10000000));
}

static void url_by_letters(text *it) {
    url_on_host(it);
    for (size_t left = 8 + any() % 17; left > 0; left--) letter(it);
}

/* ---- a list of words that is installed ---- */

static struct { size_t count, told; text *words; } listed;

/* Reads the list where it wasn't read, and answers how many words it has, in no order; 0 where there is none. A word that is too long is left out. */
static size_t read_list(const char *path) {
    char line[256];
    FILE *file = listed.words ? NULL : fopen(path, "r");
    while (file && fgets(line, sizeof line, file)) {
        size_t length = strcspn(line, "\n");
        if (length == 0 || length > LONGEST) continue;
        if (listed.count % 4096 == 0) listed.words = realloc(listed.words, (listed.count + 4096) * sizeof(text));
        if (!listed.words) return 0;
        text *word = &listed.words[listed.count++];
        memcpy(word->bytes, line, length);
        word->bytes[word->length = length] = 0;
    }
    if (file) fclose(file);
    for (size_t i = listed.count; i > 1; i--) {
        size_t j = any() % i;
        text word = listed.words[i - 1];
        listed.words[i - 1] = listed.words[j];
        listed.words[j] = word;
    }
    return listed.count;
}

/* The words in turn; and after each one that is none, or hardly any: it with another letter in it. */
static void word_of_list(text *it) {
    *it = listed.words[listed.told / 2 % listed.count];
    if (listed.told++ % 2) it->bytes[any() % it->length] = 'q';
}

static void random_bytes(text *it) {
    for (size_t length = 8 + any() % 33; it->length < length;) it->bytes[it->length++] = 1 + any() % 255;
}

static const struct {
    const char *name;
    void (*make)(text *);
} PATTERNS[] = {
    {"words-of-10", word_of_10},       {"urls-of-100", url_of_100},       {"random-8-to-40", random_bytes},  {"made-up-words", word_of_dictionary},
    {"listed-words", word_of_list},    {"urls-by-number", url_by_number}, {"urls-by-letters", url_by_letters},
};

/* Those behind the usual ones are measured by themselves. */
enum { USUAL_PATTERNS = 3, MADE_UP_WORDS = 3, LISTED_WORDS = 4, SKEWED_URLS = 5, SKEWED_PATTERNS = 2 };

/* The keys as they are put in, the order in which they are looked for, and as many strings that are none, or hardly any of them. */
struct keys {
    size_t n;
    text *in, *out;
    size_t *order;
};

static const char *name(size_t pattern) { return PATTERNS[pattern].name; }

static struct keys *make(size_t n, size_t pattern) {
    struct keys *keys = room(1, sizeof *keys);
    *keys = (struct keys){n, room(n, sizeof(text)), room(n, sizeof(text)), room(n, sizeof(size_t))};
    seed = pattern + 1;
    for (size_t i = 0; i < n; i++) {
        PATTERNS[pattern].make(&keys->in[i]);
        PATTERNS[pattern].make(&keys->out[i]);
        size_t j = any() % (i + 1);
        keys->order[i] = keys->order[j];
        keys->order[j] = i;
    }
    return keys;
}

static void drop(struct keys *keys) {
    free(keys->in);
    free(keys->out);
    free(keys->order);
    free(keys);
}
