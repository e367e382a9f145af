// CRoaring's map of bitmaps of 64-bit words behind calls of C, to be measured beside the sets.
#include <stdint.h>
#include <roaring/roaring.hh>
#include <roaring/roaring64map.hh>

// Newer ones have a namespace.
namespace roaring {}
using namespace roaring;

extern "C" {
void *roaring_set_of(const uint64_t *keys, size_t count) {
    auto *made = new Roaring64Map(count, keys);
    made->runOptimize();
    return made;
}

void roaring_set_free(void *set) { delete static_cast<Roaring64Map *>(set); }

void *roaring_set_copy(const void *set) { return new Roaring64Map(*static_cast<const Roaring64Map *>(set)); }

// What two have together: it has no count of it alone.
uint64_t roaring_set_common(const void *one, const void *other) {
    return (*static_cast<const Roaring64Map *>(one) & *static_cast<const Roaring64Map *>(other)).cardinality();
}

void *roaring_set_union(const void *one, const void *other) {
    return new Roaring64Map(*static_cast<const Roaring64Map *>(one) | *static_cast<const Roaring64Map *>(other));
}

void *roaring_set_intersection(const void *one, const void *other) {
    return new Roaring64Map(*static_cast<const Roaring64Map *>(one) & *static_cast<const Roaring64Map *>(other));
}

void *roaring_set_difference(const void *one, const void *other) {
    return new Roaring64Map(*static_cast<const Roaring64Map *>(one) - *static_cast<const Roaring64Map *>(other));
}

void *roaring_set_symmetric_difference(const void *one, const void *other) {
    return new Roaring64Map(*static_cast<const Roaring64Map *>(one) ^ *static_cast<const Roaring64Map *>(other));
}

// A range goes as what a set of all its words has.
void roaring_set_remove_range(void *set, uint64_t from, uint64_t to) {
    Roaring64Map range;
    range.flip(from, to + 1);
    *static_cast<Roaring64Map *>(set) -= range;
}

uint64_t roaring_set_len(const void *set) { return static_cast<const Roaring64Map *>(set)->cardinality(); }
}
