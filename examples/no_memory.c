#include <sellumaq.h>
#include <stdio.h>
#include <sys/resource.h>

int main(void) {
    struct rlimit most = {32 << 20, 32 << 20};
    sellumaq_judyl map = {0};
    uint64_t key = 0, value;
    setrlimit(RLIMIT_AS, &most);
    while (sellumaq_judyl_put(&map, key * 16, key) == SELLUMAQ_ADDED) key++;
    puts(sellumaq_judyl_len(&map) == key ? "refused, and every key so far is there" : "a key is lost");
    puts(sellumaq_judyl_put(&map, 0, 7) == SELLUMAQ_PRESENT ? "a key that is there is put all the same" : "refused");
    puts(sellumaq_judyl_del(&map, 16) && !sellumaq_judyl_get(&map, 16, &value) ? "a delete needs no memory" : "refused");
    sellumaq_judyl_free(&map);
    puts(sellumaq_judyl_put(&map, key * 16, key) == SELLUMAQ_ADDED ? "and now there is room again" : "refused");
    sellumaq_judyl_free(&map);
}
