// Small routines with intrinsics of SVE2, one program each: ROUTINE is its number. Each makes a sum that no length changes.
// With INSTEAD those that become words that are not listed are written so that they do not: the sums are the same.
#include <arm_sve.h>
#include <stdint.h>

static uint64_t run(void);
static uint8_t bytes[512], other[512];
static int16_t halves[256];
static uint32_t words[256], more[256];

static uint64_t digest(const void *what, uint64_t count) {
    const uint8_t *at = what;
    uint64_t sum = 14695981039346656037u;
    for (uint64_t i = 0; i < count; i++) sum = (sum ^ at[i]) * 1099511628211u;
    return sum;
}

int main(void) {
    uint64_t seed = 88172645463325252;
    for (int i = 0; i < 512; i++) {
        seed ^= seed << 13, seed ^= seed >> 7, seed ^= seed << 17;
        bytes[i] = seed;
        if (i < 256) halves[i] = seed >> 16, words[i] = seed >> 24, more[i] = seed >> 8;
    }
    uint64_t sum = run();
    register uint64_t x0 __asm__("x0") = 1, x2 __asm__("x2") = 8, x8 __asm__("x8") = 64;
    register const uint64_t *x1 __asm__("x1") = &sum;
    __asm__ volatile("svc #0" : "+r"(x0) : "r"(x1), "r"(x2), "r"(x8) : "memory");
    return sum & 127;
}

#define BYTES(i, n) for (uint64_t i = 0; i < n; i += svcntb())
#define HALVES(i, n) for (uint64_t i = 0; i < n; i += svcnth())
#define WORDS(i, n) for (uint64_t i = 0; i < n; i += svcntw())

#ifdef INSTEAD
// A number of a general register, so that it becomes no immediate of a vector instruction, and no load of one element to all.
#define OF_REGISTER(type, number) ({ type hidden = number; __asm__("" : "+r"(hidden)); hidden; })

// A reduction to a general register: lasta with no active element takes element 0.
static inline uint64_t sum_of(svbool_t p, svuint8_t from) {
    uint64_t sum;
    svuint64_t vector;
    __asm__("uaddv %d1, %2, %3.b\n\tlasta %x0, %4, %1.d" : "=r"(sum), "=&w"(vector) : "Upl"(p), "w"(from), "Upl"(svpfalse_b()));
    return sum;
}
static inline uint32_t most_of(svbool_t p, svuint32_t from) {
    uint32_t most;
    svuint32_t vector;
    __asm__("umaxv %s1, %2, %3.s\n\tlasta %w0, %4, %1.s" : "=r"(most), "=&w"(vector) : "Upl"(p), "w"(from), "Upl"(svpfalse_b()));
    return most;
}
static inline uint32_t least_of(svbool_t p, svuint8_t from) {
    uint32_t least;
    svuint8_t vector;
    __asm__("uminv %b1, %2, %3.b\n\tlasta %w0, %4, %1.b" : "=r"(least), "=&w"(vector) : "Upl"(p), "w"(from), "Upl"(svpfalse_b()));
    return least;
}
#else
#define OF_REGISTER(type, number) (type)(number)
#define sum_of svaddv
#define most_of svmaxv
#endif

static uint64_t run(void) {
#if ROUTINE == 1 // copy
    BYTES(i, 501) svst1(svwhilelt_b8_u64(i, 501), other + i, svld1(svwhilelt_b8_u64(i, 501), bytes + i));
    return digest(other, 512);
#elif ROUTINE == 2 // saturating sums
    BYTES(i, 301) {
        svbool_t p = svwhilelt_b8_u64(i, 301);
        svst1(p, other + i, svqadd(svld1(p, bytes + i), svld1(p, bytes + 200 + i)));
    }
    return digest(other, 512);
#elif ROUTINE == 3 // a sum, by svaddv
    uint64_t sum = 0;
    BYTES(i, 500) sum += sum_of(svwhilelt_b8_u64(i, 500), svld1(svwhilelt_b8_u64(i, 500), bytes + i));
    return sum;
#elif ROUTINE == 4 // the greatest, by svmaxv
    uint32_t most = 0;
    WORDS(i, 256) {
        svbool_t p = svwhilelt_b32_u64(i, 256);
        uint32_t here = most_of(p, svld1(p, words + i));
        most = here > most ? here : most;
    }
    return most;
#elif ROUTINE == 5 // how many are equal
    uint64_t count = 0;
    BYTES(i, 511) {
        svbool_t p = svwhilelt_b8_u64(i, 511);
        count += svcntp_b8(p, svcmpeq(p, svld1(p, bytes + i), svld1(p, bytes + i + 1)));
    }
    return count;
#elif ROUTINE == 6 // absolute differences
    BYTES(i, 256) {
        svbool_t p = svwhilelt_b8_u64(i, 256);
        svst1(p, other + i, svabd_x(p, svld1(p, bytes + i), svld1(p, bytes + 256 + i)));
    }
    return digest(other, 512);
#elif ROUTINE == 7 // long products, even and odd
    svint32_t sums = svdup_s32(0);
    HALVES(i, 256) {
        svbool_t p = svwhilelt_b16_u64(i, 256);
        svint16_t a = svld1(p, halves + i), b = svrev(svdup_s16(3));
        sums = svmlalt(svmlalb(sums, a, b), a, b);
    }
    int32_t part[64];
    svst1(svptrue_b32(), part, sums);
    uint64_t sum = 0;
    for (uint64_t i = 0; i < svcntw(); i++) sum += part[i];
    return sum;
#elif ROUTINE == 8 // by four: a dot product
    svint32_t sums = svdup_s32(0);
    BYTES(i, 512) {
        svbool_t p = svwhilelt_b8_u64(i, 512);
        svint8_t a = svld1(p, (int8_t *)bytes + i), b = svdup_s8(2);
#ifdef INSTEAD
        svint16_t even = svmullb(a, b), odd = svmullt(a, b);
        sums = svadd_x(svptrue_b32(), sums, svadd_x(svptrue_b32(), svaddlb(even, odd), svaddlt(even, odd)));
#else
        sums = svdot(sums, a, b);
#endif
    }
    int32_t part[64];
    svst1(svptrue_b32(), part, sums);
    uint64_t sum = 0;
    for (uint64_t i = 0; i < svcntw(); i++) sum += part[i];
    return sum;
#elif ROUTINE == 9 // selection
    WORDS(i, 256) {
        svbool_t p = svwhilelt_b32_u64(i, 256);
        svuint32_t a = svld1(p, words + i), b = svld1(p, more + i);
        svst1(p, more + i, svsel(svcmpgt(p, a, b), a, b));
    }
    return digest(more, sizeof more);
#elif ROUTINE == 10 // products and sums
    WORDS(i, 256) {
        svbool_t p = svwhilelt_b32_u64(i, 256);
        svuint32_t sum = svld1(p, more + i), a = svld1(p, words + i), b = svdup_u32(77);
#ifdef INSTEAD
        __asm__("mla %0.s, %1/m, %2.s, %3.s" : "+w"(sum) : "Upl"(p), "w"(a), "w"(b));
#else
        sum = svmla_x(p, sum, a, b);
#endif
        svst1(p, more + i, sum);
    }
    return digest(more, sizeof more);
#elif ROUTINE == 11 // shifts and masks
    WORDS(i, 256) {
        svbool_t p = svwhilelt_b32_u64(i, 256);
        svuint32_t a = svld1(p, words + i);
        svst1(p, more + i, svand_x(p, svlsr_x(p, a, 7), OF_REGISTER(uint32_t, 0xFF00FF)));
    }
    return digest(more, sizeof more);
#elif ROUTINE == 12 // bytes of words the other way round
    WORDS(i, 256) {
        svbool_t p = svwhilelt_b32_u64(i, 256);
        svuint32_t a = svld1(p, words + i);
#ifdef INSTEAD
        svuint8_t places = sveor_x(svptrue_b8(), svindex_u8(0, 1), OF_REGISTER(uint8_t, 3));
        svst1(p, more + i, svreinterpret_u32(svtbl(svreinterpret_u8(a), places)));
#else
        svst1(p, more + i, svrevb_x(p, a));
#endif
    }
    return digest(more, sizeof more);
#elif ROUTINE == 13 // bytes made words
    WORDS(i, 256) {
        svbool_t p = svwhilelt_b32_u64(i, 256);
        svst1(p, more + i, svadd_x(p, svld1ub_u32(p, bytes + i), svld1(p, words + i)));
    }
    return digest(more, sizeof more);
#elif ROUTINE == 14 // a table of 16
    svuint8_t table = svld1(svptrue_pat_b8(SV_VL16), bytes);
    BYTES(i, 512) {
        svbool_t p = svwhilelt_b8_u64(i, 512);
        svst1(p, other + i, svtbl(table, svand_x(p, svld1(p, bytes + i), OF_REGISTER(uint8_t, 15))));
    }
    return digest(other, 512);
#elif ROUTINE == 15 // the first zero, by FFR
    bytes[333] = 0;
    uint64_t at = 0;
#ifdef INSTEAD
    for (;; at += svcntb()) {
        svbool_t read = svwhilelt_b8_u64(at, 512), zero = svcmpeq(read, svld1(read, bytes + at), 0);
        if (svptest_any(read, zero)) return at + least_of(zero, svindex_u8(0, 1));
    }
#else
    for (;;) {
        svsetffr();
        svuint8_t some = svldff1(svptrue_b8(), bytes + at);
        svbool_t read = svrdffr(), zero = svcmpeq(read, some, 0);
        if (svptest_any(read, zero)) return at + svcntp_b8(read, svbrkb_z(read, zero));
        at += svcntp_b8(svptrue_b8(), read);
    }
#endif
#elif ROUTINE == 16 // from places
#ifdef INSTEAD
    for (int i = 0; i < 256; i++) more[i] = words[words[i] & 255];
#else
    WORDS(i, 256) {
        svbool_t p = svwhilelt_b32_u64(i, 256);
        svuint32_t places = svand_x(p, svld1(p, words + i), 255);
        svst1(p, more + i, svld1_gather_index(p, words, places));
    }
#endif
    return digest(more, sizeof more);
#elif ROUTINE == 17 // pairs taken apart
    BYTES(i, 256) {
        svbool_t p = svwhilelt_b8_u64(i, 256);
#ifdef INSTEAD
        uint64_t next = 2 * i + svcntb();
        svuint8_t low = svld1(svwhilelt_b8_u64(2 * i, 512), bytes + 2 * i), high = svld1(svwhilelt_b8_u64(next, 512), bytes + next);
        svst1(p, other + i, svuzp1(low, high)), svst1(p, other + 256 + i, svuzp2(low, high));
#else
        svuint8x2_t two = svld2(p, bytes + 2 * i);
        svst1(p, other + i, svget2(two, 0)), svst1(p, other + 256 + i, svget2(two, 1));
#endif
    }
    return digest(other, 512);
#elif ROUTINE == 18 // logic of three
    WORDS(i, 256) {
        svbool_t p = svwhilelt_b32_u64(i, 256);
        svuint32_t a = svld1(p, words + i), b = svld1(p, more + i);
        svst1(p, more + i, sveor3(a, b, svdup_u32(OF_REGISTER(uint32_t, 0x12345678))));
    }
    return digest(more, sizeof more);
#elif ROUTINE == 19 // narrowing
    HALVES(i, 256) {
        svbool_t p = svwhilelt_b16_u64(i, 256);
        svst1b(p, other + i, svqadd(svreinterpret_u16(svld1(p, halves + i)), svdup_u16(OF_REGISTER(uint16_t, 3))));
    }
    return digest(other, 512);
#elif ROUTINE == 20 // one value to all
    uint32_t scale = OF_REGISTER(uint32_t, words[3]);
    WORDS(i, 256) {
        svbool_t p = svwhilelt_b32_u64(i, 256);
        svst1(p, more + i, svmul_x(p, svld1(p, words + i), scale));
    }
    return digest(more, sizeof more);
#endif
}
