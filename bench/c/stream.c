// Small streaming routines, one program each: ROUTINE is its number. CALLED is 1 where main calls by an asm statement, 0 where the compiler
// changes the mode. With INSTEAD what becomes words that are not listed is written so that it does not: the sums are the same.
#include <arm_sme.h>
#include <stdint.h>

static uint8_t bytes[512] __attribute__((aligned(8)));
static int32_t sums[64 * 64];

#define ZA __arm_streaming __arm_inout("za")
__attribute__((used, noinline)) void work(void) ZA;

static uint64_t digest(const void *what, uint64_t count) {
    const uint8_t *at = what;
    uint64_t sum = 14695981039346656037u;
    for (uint64_t i = 0; i < count; i++) sum = (sum ^ at[i]) * 1099511628211u;
    return sum;
}

#ifdef INSTEAD
// A bound that the compiler does not see: GCC makes the numbers of slices constants else, and keeps them in vector registers.
#define BOUND(number) ({ uint32_t hidden = number; __asm__("" : "+r"(hidden)); hidden; })
#else
#define BOUND(number) number
#endif
#define ROWS(row) for (uint32_t row = 0, rows = BOUND(4); row < rows; row++)

#if CALLED
static void call(void) {
    __asm__ volatile("smstart\n\tbl work\n\tsmstop" ::: "x0", "x1", "x2", "x3", "x4", "x5", "x6", "x7", "x8", "x9", "x10", "x11", "x12", "x13", "x14",
                     "x15", "x16", "x17", "x18", "x30", "cc", "memory");
}
#else
__arm_new("za") static void call(void) { work(); }
#endif

int main(void) {
    for (int i = 0; i < 512; i++) bytes[i] = 37 * i + i / 7;
    call();
    uint64_t sum = digest(sums, 64);
    register uint64_t x0 __asm__("x0") = 1, x2 __asm__("x2") = 8, x8 __asm__("x8") = 64;
    register const uint64_t *x1 __asm__("x1") = &sum;
    __asm__ volatile("svc #0" : "+r"(x0) : "r"(x1), "r"(x2), "r"(x8) : "memory");
    return sum & 127;
}

// the first four columns of four rows, whatever the length is
static void put(uint32_t row) ZA { svst1_hor_za32(0, row, svptrue_pat_b32(SV_VL4), sums + 4 * row); }

#if ROUTINE == 1 // outer products of signed bytes
void work(void) ZA {
    svzero_za();
    svint8_t a = svld1(svptrue_pat_b8(SV_VL16), (int8_t *)bytes), b = svld1(svptrue_pat_b8(SV_VL16), (int8_t *)bytes + 99);
    svmopa_za32_m(0, svptrue_b8(), svptrue_b8(), a, b);
    ROWS(row) put(row);
}
#elif ROUTINE == 2 // unsigned by signed
void work(void) ZA {
    svzero_za();
    for (int i = 0; i < 64; i += 16) {
        svuint8_t a = svld1(svptrue_pat_b8(SV_VL16), bytes + i);
        svint8_t b = svld1(svptrue_pat_b8(SV_VL16), (int8_t *)bytes + 99 + i);
        svusmopa_za32_m(0, svptrue_b8(), svptrue_b8(), a, b);
    }
    ROWS(row) put(row);
}
#elif ROUTINE == 3 // a transpose
void work(void) ZA {
    ROWS(row) svld1_hor_za32(0, row, svptrue_pat_b32(SV_VL4), (uint32_t *)bytes + 4 * row);
    ROWS(row) svst1_ver_za32(0, row, svptrue_pat_b32(SV_VL4), sums + 4 * row);
}
#elif ROUTINE == 4 // slices to vectors and back
void work(void) ZA {
    svzero_za();
    ROWS(row) svwrite_hor_za32_m(0, row, svptrue_b32(), svindex_s32(row, 3));
    ROWS(row) {
        svint32_t column = svread_ver_za32_m(svdup_s32(0), svptrue_b32(), 0, row);
        svst1(svptrue_pat_b32(SV_VL4), sums + 4 * row, column);
    }
}
#elif ROUTINE == 5 // sums of rows
void work(void) ZA {
    svzero_za();
    for (int i = 0, rows = BOUND(8); i < rows; i++) svaddha_za32_m(0, svptrue_b32(), svptrue_b32(), svindex_s32(i, 5));
    ROWS(row) put(row);
}
#elif ROUTINE == 6 // vectors of ZA, to memory and back
void work(void) ZA {
    static uint8_t kept[256 * 256];
    ROWS(row) svld1_hor_za32(0, row, svptrue_pat_b32(SV_VL4), (uint32_t *)bytes + 4 * row);
    for (uint32_t v = 0; v < svcntb(); v++) svstr_vnum_za(v, kept + v * svcntb(), 0);
    svzero_za();
    for (uint32_t v = 0; v < svcntb(); v++) svldr_vnum_za(v, kept + v * svcntb(), 0);
    ROWS(row) put(row);
}
#elif ROUTINE == 7 // a reduction in streaming mode
void work(void) ZA {
    svbool_t some = svptrue_pat_b8(SV_VL16);
    svuint8_t from = svld1(some, bytes);
#ifdef INSTEAD
    uint64_t sum;
    svuint64_t vector;
    __asm__("uaddv %d1, %2, %3.b\n\tlasta %x0, %4, %1.d" : "=r"(sum), "=&w"(vector) : "Upl"(some), "w"(from), "Upl"(svpfalse_b()));
#else
    uint64_t sum = svaddv(some, from);
#endif
    sums[0] = sum;
}
#elif ROUTINE == 8 // ZA kept over a call that has one of its own
__arm_new("za") __attribute__((noinline)) static void other(void) __arm_streaming {
    svld1_hor_za32(0, 0, svptrue_pat_b32(SV_VL4), (uint32_t *)bytes);
    svst1_ver_za32(0, 0, svptrue_pat_b32(SV_VL4), sums + 8);
}
void work(void) ZA {
    svzero_za();
    svld1_hor_za32(0, 0, svptrue_pat_b32(SV_VL4), (uint32_t *)bytes + 8);
    other();
    put(0);
}
#elif ROUTINE == 9 // outer products of halfwords
void work(void) ZA {
    svzero_za();
    svint16_t a = svld1(svptrue_pat_b16(SV_VL8), (int16_t *)bytes), b = svld1(svptrue_pat_b16(SV_VL8), (int16_t *)bytes + 99);
    svmopa_za64_m(0, svptrue_b16(), svptrue_b16(), a, b);
    for (uint32_t row = 0; row < 2; row++) svst1_hor_za64(0, row, svptrue_pat_b64(SV_VL2), sums + 4 * row);
}
#elif ROUTINE == 10 // an atomic load before the product
void work(void) ZA {
    svzero_za();
    uint64_t from = __atomic_load_n((uint64_t *)bytes, __ATOMIC_ACQUIRE) & 127;
    svint8_t a = svld1(svptrue_pat_b8(SV_VL16), (int8_t *)bytes), b = svld1(svptrue_pat_b8(SV_VL16), (int8_t *)bytes + from);
    svmopa_za32_m(0, svptrue_b8(), svptrue_b8(), a, b);
    ROWS(row) put(row);
}
#endif
