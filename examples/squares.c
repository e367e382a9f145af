#include <sellumaq.h>
#include <stdio.h>

int main(void) {
    sellumaq_judyl roots = {0};
    for (uint64_t n = 1; n <= 5; n++) sellumaq_judyl_put(&roots, n * n, n);
    printf("%d squares\n", (int)sellumaq_judyl_count(&roots, 4, 16));
    sellumaq_judyl_free(&roots);
}
