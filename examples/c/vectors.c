// The part with intrinsics of SVE and SVE2. It is compiled so that the compiler makes no vector code of its own.
#include "parts.h"
#include <arm_sve.h>

// A sum over a vector, in a general register: what svaddv becomes ends with fmov, which is not listed; lasta with no active element
// takes element 0.
static inline int64_t sum_of(svbool_t active, svint32_t addends) {
    int64_t sum;
    svint64_t vector;
    __asm__("saddv %d1, %2, %3.s\n\tlasta %x0, %4, %1.d" : "=r"(sum), "=&w"(vector) : "Upl"(active), "w"(addends), "Upl"(svpfalse_b()));
    return sum;
}

int64_t dot(const int16_t *left, const int16_t *right, uint64_t count) {
    int64_t sum = 0;
    for (uint64_t i = 0; i < count; i += svcnth()) {
        svbool_t some = svwhilelt_b16_u64(i, count);
        svint16_t a = svld1(some, left + i), b = svld1(some, right + i);
        sum += sum_of(svptrue_b32(), svmlalt(svmullb(a, b), a, b));
    }
    return sum;
}

void brighten(uint8_t *pixels, uint8_t amount, uint64_t count) {
    svuint8_t more = svdup_u8(amount);
    for (uint64_t i = 0; i < count; i += svcntb()) {
        svbool_t some = svwhilelt_b8_u64(i, count);
        svst1(some, pixels + i, svqadd(svld1(some, pixels + i), more));
    }
}
