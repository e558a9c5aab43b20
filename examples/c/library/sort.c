// Order by a heap: no more than 2 n log n compares, no memory besides, and no function that calls itself.
#include <stdint.h>
#include <stdlib.h>

static void exchange(uint8_t *left, uint8_t *right, size_t size) {
    for (size_t i = 0; i < size; i++) {
        uint8_t byte = left[i];
        left[i] = right[i];
        right[i] = byte;
    }
}

// Lets the item at `at` sink until none below it is greater.
static void sink(uint8_t *items, size_t at, size_t count, size_t size, int (*compare)(const void *, const void *)) {
    for (size_t below; (below = 2 * at + 1) < count; at = below) {
        if (below + 1 < count && compare(items + below * size, items + (below + 1) * size) < 0) below++;
        if (compare(items + at * size, items + below * size) >= 0) return;
        exchange(items + at * size, items + below * size, size);
    }
}

void qsort(void *items, size_t count, size_t size, int (*compare)(const void *, const void *)) {
    for (size_t at = count / 2; at-- > 0;) sink(items, at, count, size, compare);
    while (count > 1) {
        exchange(items, (uint8_t *)items + --count * size, size);
        sink(items, 0, count, size, compare);
    }
}

void *bsearch(const void *key, const void *items, size_t count, size_t size,
              int (*compare)(const void *, const void *)) {
    const uint8_t *low = items;
    while (count) {
        const uint8_t *middle = low + count / 2 * size;
        int order = compare(key, middle);
        if (!order) return (void *)middle;
        if (order > 0) low = middle + size, count -= count / 2 + 1;
        else count /= 2;
    }
    return 0;
}
