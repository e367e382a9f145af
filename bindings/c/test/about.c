/* What the library tells of itself. VERSION is what the project's file of that name says, between quotes. */
#include <string.h>

#include "../sellumaq.h"
#include "check.h"

/* Each answer has a text of its own, which fits a line, and numbers that are no answers share one. */
static void texts(void) {
    const char *none = sellumaq_error_text(SELLUMAQ_SYSTEM + 1);
    CHECK(sellumaq_error_text(-1) == none && sellumaq_error_text(1 << 30) == none);
    for (int number = SELLUMAQ_PRESENT; number <= SELLUMAQ_SYSTEM; number++) {
        const char *text = sellumaq_error_text(number);
        CHECK(*text && strlen(text) < 80 && !strchr(text, '\n') && strcmp(text, none) != 0);
        CHECK((strncmp(text, "no error", 8) == 0) == (number < SELLUMAQ_NO_MEMORY));
        for (int other = SELLUMAQ_PRESENT; other < number; other++) CHECK(strcmp(text, sellumaq_error_text(other)) != 0);
    }
    CHECK(strstr(sellumaq_error_text(SELLUMAQ_NO_MEMORY), "memory") && strstr(sellumaq_error_text(SELLUMAQ_TOO_SMALL), "buffer"));
    CHECK(strstr(sellumaq_error_text(SELLUMAQ_FULL), "4,294,967,295") && strstr(sellumaq_error_text(SELLUMAQ_BAD_KEY), "no key"));
}

int main(void) {
    char numbers[64];
    snprintf(numbers, sizeof numbers, "%d.%d.%d", SELLUMAQ_VERSION_MAJOR, SELLUMAQ_VERSION_MINOR, SELLUMAQ_VERSION_PATCH);
    CHECK(strcmp(SELLUMAQ_VERSION, VERSION) == 0);
    CHECK(strcmp(sellumaq_version(), VERSION) == 0);
    CHECK(strncmp(VERSION, numbers, strlen(numbers)) == 0 && strchr("-", VERSION[strlen(numbers)]));
    texts();
    puts("about: ok");
    return 0;
}
