// malloc and its kin, qsort and bsearch of examples/c/library. Blocks have bytes of their own, which are looked at before each is freed;
// at last one block of nearly the whole array is to be had again. Orders are those of a plain sort. It exits with the line at fault.
#include <stdint.h>
#include <stdio.h>
#include <stdlib.h>
#include <string.h>

#define CHECK(what) if (!(what)) return __LINE__
#define BLOCKS 40
static uint64_t seed = 88172645463325252;
static struct {
    uint8_t *at;
    uint64_t size;
} blocks[BLOCKS];

static uint64_t random_below(uint64_t bound) {
    seed ^= seed << 13, seed ^= seed >> 7, seed ^= seed << 17;
    return (seed >> 20) % bound;
}

static int holds(uint64_t number, uint64_t size) {
    for (uint64_t i = 0; i < size; i++)
        if (blocks[number].at[i] != number + 1) return 0;
    return 1;
}

static int try_heap(void) {
    int none = 0;
    for (int round = 0; round < 600; round++) {
        uint64_t number = random_below(BLOCKS), size = random_below(random_below(8) ? 200 : 30000);
        uint64_t before = blocks[number].size;
        CHECK(holds(number, before));
        if (blocks[number].at && random_below(2)) {
            uint8_t *grown = realloc(blocks[number].at, size);
            if (!grown) continue;
            blocks[number].at = grown;
            CHECK(holds(number, before < size ? before : size));
        } else {
            free(blocks[number].at);
            blocks[number].at = random_below(2) ? malloc(size) : calloc(size, 1);
            none += !blocks[number].at;
            if (!blocks[number].at) size = 0;
        }
        blocks[number].size = size;
        CHECK(((uintptr_t)blocks[number].at & 15) == 0);
        memset(blocks[number].at, number + 1, size);
    }
    for (uint64_t number = 0; number < BLOCKS; number++) {
        CHECK(holds(number, blocks[number].size));
        free(blocks[number].at);
    }
    CHECK(none);
    CHECK(malloc(HEAP - 15) == 0);
    CHECK(calloc(SIZE_MAX / 2, 4) == 0);
    uint8_t *all = malloc(HEAP - 16);
    CHECK(all);
    memset(all, 1, HEAP - 16);
    CHECK(malloc(1) == 0);
    free(all);
    uint8_t *zeros = calloc(100, 7);
    for (int i = 0; i < 700; i++) CHECK(zeros[i] == 0);
    return 0;
}

static int compare(const void *left, const void *right) {
    uint16_t a = *(const uint8_t *)left, b = *(const uint8_t *)right;
    return a < b ? -1 : a > b;
}

static int try_sort(void) {
    static uint8_t items[100 * 9], plain[100 * 9];
    for (int round = 0; round < 100; round++) {
        uint64_t count = random_below(100), size = 1 + random_below(9), values = round % 2 ? 256 : 5;
        unsigned tally[256] = {0};
        for (uint64_t i = 0; i < count; i++) {
            uint8_t key = random_below(values);
            memset(items + i * size, key, size);
            tally[key]++;
        }
        uint64_t at = 0;
        for (int key = 0; key < 256; key++)
            for (unsigned i = 0; i < tally[key]; i++, at++) memset(plain + at * size, key, size);
        qsort(items, count, size, compare);
        for (uint64_t i = 0; i < count * size; i++) CHECK(items[i] == plain[i]);
        for (int key = 0; key < 256; key++) {
            uint8_t wanted = key, *found = bsearch(&wanted, items, count, size, compare);
            CHECK(found ? *found == key && (found - items) % size == 0 : !tally[key]);
        }
    }
    return 0;
}

int main(void) {
    int heap = try_heap(), sort = try_sort();
    return heap ? heap : sort;
}
