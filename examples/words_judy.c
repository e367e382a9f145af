#include <Judy.h>
#include <stdio.h>

int main(int count, char **words) {
    Pvoid_t times = NULL;
    uint8_t key[1 << 17] = "b"; /* no word of a command line is longer */
    PWord_t value;
    Word_t bytes;
    for (int n = 1; n < count; n++) {
        JSLI(value, times, (uint8_t *)words[n]);
        ++*value;
    }
    JSLF(value, times, key);
    while (value) {
        printf("%s %lu\n", (char *)key, *value);
        JSLN(value, times, key);
    }
    JSLFA(bytes, times);
}
