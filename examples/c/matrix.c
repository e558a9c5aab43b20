// The streaming part: products of matrices of bytes in ZA. Rows of b are packed by way of ZA too, in a function of its own that begins
// with a ZA of its own, so the compiler has ZA saved lazily over the call: see za.s.
#include "parts.h"
#include <arm_sme.h>

// Puts four rows of a matrix side by side: of each column its four bytes.
__arm_new("za") __attribute__((noinline)) static void pack(int8_t *to, const int8_t *rows, uint64_t columns) __arm_streaming {
    svbool_t four = svwhilelt_b8_u64(0, 4);
    for (uint64_t first = 0; first < columns; first += svcntb()) {
        svbool_t some = svwhilelt_b8_u64(first, columns);
        for (uint32_t row = 0; row < 4; row++) svld1_hor_za8(0, row, some, rows + row * columns + first);
        for (uint32_t column = 0; column < svcntb() && first + column < columns; column++)
            svst1_ver_za8(0, column, four, to + 4 * (first + column));
    }
}

void multiply(int32_t *c, const int8_t *a, const int8_t *b, const struct sizes *sizes) __arm_streaming __arm_inout("za") {
    int8_t left[4 * 64], right[4 * 64];
    uint64_t rows = sizes->rows, depth = sizes->depth, columns = sizes->columns, words = svcntw();
    for (uint64_t row = 0; row < rows; row += words)
        for (uint64_t column = 0; column < columns; column += words) {
            svzero_za();
            for (uint64_t k = 0; k < depth; k += 4) {
                svbool_t high = svwhilelt_b8_u64(4 * row, 4 * rows), wide = svwhilelt_b8_u64(4 * column, 4 * columns);
                for (uint64_t i = 0; i < 4 * rows; i++) left[i] = a[i / 4 * depth + k + i % 4];
                pack(right, b + k * columns, columns);
                svmopa_za32_s8_m(0, high, wide, svld1(high, left + 4 * row), svld1(wide, right + 4 * column));
            }
            for (uint64_t r = 0; r < words && row + r < rows; r++)
                svst1_hor_za32(0, r, svwhilelt_b32_u64(column, columns), c + (row + r) * columns + column);
        }
}
