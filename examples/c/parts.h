// What the parts of the program call of one another.
#include <stdint.h>

// vectors.c
int64_t dot(const int16_t *left, const int16_t *right, uint64_t count);
void brighten(uint8_t *pixels, uint8_t amount, uint64_t count);

// matrix.c: c, of rows by columns, is a, of rows by depth, times b, of depth by columns. The depth is a multiple of 4 and at most 64.
struct sizes {
    uint64_t rows, depth, columns;
};
