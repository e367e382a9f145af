#include <inttypes.h>
#include <sellumaq.h>
#include <stdio.h>
#include <stdlib.h>
#include <string.h>

int main(int count, char **words) {
    sellumaq_judysl times = {0};
    uint64_t *slot, value;
    for (int n = 1; n < count; n++)
        if (sellumaq_judysl_ins(&times, (uint8_t *)words[n], strlen(words[n]), &slot) == SELLUMAQ_FOUND) ++*slot;
    size_t room = sellumaq_judysl_longest(&times) + 1, length = 1;
    uint8_t *key = malloc(room);
    if (!key) return 1;
    *key = 'b';
    for (uint32_t told = sellumaq_judysl_first(&times, key, room, &length, &value); told == SELLUMAQ_FOUND;
         told = sellumaq_judysl_next(&times, key, room, &length, &value))
        printf("%.*s %" PRIu64 "\n", (int)length, (char *)key, value);
    free(key);
    sellumaq_judysl_free(&times);
}
