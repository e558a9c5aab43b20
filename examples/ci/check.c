// A test: the sum of products by vectors of SVE2, of examples/c/vectors.c, is that of a loop, for each count up to 99. It exits with 0 where that is so.
#include "../c/parts.h"

int main(void) {
    static int16_t left[99], right[99];
    for (int i = 0; i < 99; i++) left[i] = 300 * i - 9999, right[i] = 7 * i + 1;
    for (uint64_t count = 0; count <= 99; count++) {
        int64_t sum = 0;
        for (uint64_t i = 0; i < count; i++) sum += (int64_t)left[i] * right[i];
#ifdef WRONG
        sum += count == 50;
#endif
        if (dot(left, right, count) != sum) return 1;
    }
    return 0;
}
