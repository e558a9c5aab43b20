// What to write for instructions that handwritten SVE2 uses much and that are not listed: one function for each row of FROM_C.md, by the
// intrinsic, or with INSTEAD by what is to be written, beside a plain loop. It exits with how many differ. No length changes a result.
#include <arm_sve.h>
#include <stdint.h>

#define COUNT 301
static uint8_t bytes[2 * COUNT + 16], more[2 * COUNT + 16];
static int16_t halves[COUNT], others[COUNT];
static uint16_t made[2 * COUNT];

#define BYTES(i) for (uint64_t i = 0; i < COUNT; i += svcntb())
#define HALVES(i) for (uint64_t i = 0; i < COUNT; i += svcnth())
#define ALL svptrue_b16()
// keeps a compiler from making one instruction of two
#define HIDDEN(vector) ({ __typeof__(vector) hidden = vector; __asm__("" : "+w"(hidden)); hidden; })
#define OF_REGISTER(type, number) ({ type hidden = number; __asm__("" : "+r"(hidden)); hidden; })

static int clamp(int value, int least, int most) { return value < least ? least : value > most ? most : value; }

// Compares what was made with a value of each element, of its low bits.
#define PLAIN(i, value, mask) \
    for (int i = 0; i < COUNT; i++) \
        if ((made[i] & mask) != ((value) & mask)) return 1; \
    return 0

static svuint16_t even(svuint8_t from) {
#ifdef INSTEAD
    return svand_x(ALL, svreinterpret_u16(from), HIDDEN(svdup_u16(OF_REGISTER(uint16_t, 255))));
#else
    return svmovlb_u16(from);
#endif
}

static int try_incp(void) {
    uint64_t sum = 0, wanted = 0;
    BYTES(i) {
        svbool_t p = svwhilelt_b8_u64(i, COUNT);
        uint64_t here = svcntp_b8(p, svcmpgt(p, svld1(p, bytes + i), svld1(p, more + i)));
#ifdef INSTEAD
        __asm__("" : "+r"(here));
#endif
        sum += here;
    }
    for (int i = 0; i < COUNT; i++) wanted += bytes[i] > more[i];
    return sum != wanted;
}

static int try_match(void) {
    uint64_t sum = 0, wanted = 0;
    svuint8_t a = svdup_u8(OF_REGISTER(uint8_t, 7)), b = svdup_u8(OF_REGISTER(uint8_t, 9));
    BYTES(i) {
        svbool_t p = svwhilelt_b8_u64(i, COUNT);
        svuint8_t from = svld1(p, bytes + i);
#ifdef INSTEAD
        svbool_t found = svorr_z(p, svcmpeq(p, from, a), svcmpeq(p, from, b));
#else
        svbool_t found = svmatch(p, from, svzip1(a, b));
#endif
        uint64_t here = svcntp_b8(svptrue_b8(), found);
        __asm__("" : "+r"(here));
        sum += here;
    }
    for (int i = 0; i < COUNT; i++) wanted += bytes[i] == 7 || bytes[i] == 9;
    return sum != wanted;
}

static int try_ld1rq(void) {
    static uint8_t out[COUNT];
#ifdef INSTEAD
    svuint8_t places = svand_x(svptrue_b8(), svindex_u8(0, 1), HIDDEN(svdup_u8(OF_REGISTER(uint8_t, 15))));
    svuint8_t table = svtbl(svld1(svptrue_pat_b8(SV_VL16), bytes + 5), places);
#else
    svuint8_t table = svld1rq(svptrue_b8(), bytes + 5);
#endif
    BYTES(i) svst1(svwhilelt_b8_u64(i, COUNT), out + i, table);
    for (int i = 0; i < COUNT; i++)
        if (out[i] != bytes[5 + i % 16]) return 1;
    return 0;
}

static int try_rdffr(void) {
    svbool_t p = svwhilelt_b8(0, 7), kept = svwhilelt_b8(0, 11);
#ifdef INSTEAD
    svbool_t read;
    __asm__ volatile("wrffr %0.b" : : "Upa"(kept));
    __asm__ volatile("rdffr %0.b" : "=Upa"(read));
    read = svand_z(svptrue_b8(), read, p);
#else
    svwrffr(kept);
    svbool_t read = svrdffr_z(p);
#endif
    return svcntp_b8(svptrue_b8(), read) != 7;
}

static int try_uhadd(void) {
    BYTES(i) {
        svbool_t p = svwhilelt_b8_u64(i, COUNT);
        svuint8_t a = svld1(p, bytes + i), b = svld1(p, more + i);
#ifdef INSTEAD
        a = svadd_x(p, svand_x(p, a, b), HIDDEN(svlsr_x(p, HIDDEN(sveor_x(p, a, b)), 1)));
#else
        a = svhadd_x(p, a, b);
#endif
        svst1(p, (uint8_t *)made + i, a);
    }
    for (int i = 0; i < COUNT; i++)
        if (((uint8_t *)made)[i] != (bytes[i] + more[i]) / 2) return 1;
    return 0;
}

static int try_urhadd(void) {
    BYTES(i) {
        svbool_t p = svwhilelt_b8_u64(i, COUNT);
        svuint8_t a = svld1(p, bytes + i), b = svld1(p, more + i);
#ifdef INSTEAD
        a = svsub_x(p, svorr_x(p, a, b), HIDDEN(svlsr_x(p, HIDDEN(sveor_x(p, a, b)), 1)));
#else
        a = svrhadd_x(p, a, b);
#endif
        svst1(p, (uint8_t *)made + i, a);
    }
    for (int i = 0; i < COUNT; i++)
        if (((uint8_t *)made)[i] != (bytes[i] + more[i] + 1) / 2) return 1;
    return 0;
}

static int try_zeroing(void) {
    HALVES(i) {
        svbool_t p = svwhilelt_b16_u64(i, COUNT);
        svint16_t a = svld1(p, halves + i), b = svld1(p, others + i);
        svbool_t less = svcmplt(p, a, b);
#ifdef INSTEAD
        svst1(p, (int16_t *)made + i, svsel(less, HIDDEN(svadd_x(p, a, b)), HIDDEN(svdup_s16(0))));
#else
        svst1(p, (int16_t *)made + i, svadd_z(less, a, b));
#endif
    }
    PLAIN(i, halves[i] < others[i] ? halves[i] + others[i] : 0, 65535);
}

static int try_sqxtunb(void) {
    svint16_t most = HIDDEN(svdup_s16(OF_REGISTER(int16_t, 255))), none = HIDDEN(svdup_s16(0));
    HALVES(i) {
        svbool_t p = svwhilelt_b16_u64(i, COUNT);
        svint16_t a = svld1(p, halves + i);
#ifdef INSTEAD
        svst1(p, made + i, svreinterpret_u16(svmin_x(p, svmax_x(p, a, none), most)));
#else
        (void)most, (void)none;
        svst1(p, made + i, svreinterpret_u16(svqxtunb(a)));
#endif
    }
    PLAIN(i, clamp(halves[i], 0, 255), 65535);
}

static int try_uadalp(void) {
    for (int i = 0; i < COUNT; i++) made[i] = others[i];
    HALVES(i) {
        svbool_t p = svwhilelt_b16_u64(i, COUNT);
        svuint16_t sum = svld1(p, made + i);
        svuint8_t from = svld1(svwhilelt_b8_u64(2 * i, 2 * COUNT), bytes + 2 * i);
#ifdef INSTEAD
        sum = svadd_x(p, sum, svaddlb(from, HIDDEN(svtrn2(from, from))));
#else
        sum = svadalp_x(p, sum, from);
#endif
        svst1(p, made + i, sum);
    }
    PLAIN(i, others[i] + bytes[2 * i] + bytes[2 * i + 1], 65535);
}

static int try_uaddwb(void) {
    HALVES(i) {
        svbool_t p = svwhilelt_b16_u64(i, COUNT);
        svuint16_t a = svreinterpret_u16(svld1(p, halves + i));
        svuint8_t b = svld1(svwhilelt_b8_u64(2 * i, 2 * COUNT), bytes + 2 * i);
#ifdef INSTEAD
        svst1(p, made + i, svadd_x(p, a, HIDDEN(even(b))));
#else
        svst1(p, made + i, svaddwb(a, b));
#endif
    }
    PLAIN(i, halves[i] + bytes[2 * i], 65535);
}

static int try_sqrshrnb(void) {
    svint16_t most = HIDDEN(svdup_s16(OF_REGISTER(int16_t, 127))), least = HIDDEN(svdup_s16(OF_REGISTER(int16_t, -128)));
    svint16_t one = HIDDEN(svdup_s16(OF_REGISTER(int16_t, 1)));
    HALVES(i) {
        svbool_t p = svwhilelt_b16_u64(i, COUNT);
        svint16_t a = svld1(p, halves + i);
#ifdef INSTEAD
        svint16_t up = svand_x(p, HIDDEN(svasr_x(p, a, 3)), one);
        a = svadd_x(p, HIDDEN(svasr_x(p, a, 4)), HIDDEN(up));
        svst1(p, made + i, svreinterpret_u16(svmax_x(p, svmin_x(p, a, most), least)));
#else
        (void)most, (void)least, (void)one;
        svst1(p, made + i, svreinterpret_u16(svqrshrnb(a, 4)));
#endif
    }
    PLAIN(i, clamp((halves[i] + 8) >> 4, -128, 127), 255);
}

static int try_uxtl(void) {
    HALVES(i) {
        svbool_t p = svwhilelt_b16_u64(i, COUNT);
        svst1(p, made + i, even(svld1(svwhilelt_b8_u64(2 * i, 2 * COUNT), bytes + 2 * i)));
    }
    PLAIN(i, bytes[2 * i], 65535);
}

static int try_usubl(void) {
    HALVES(i) {
        svbool_t p = svwhilelt_b16_u64(i, COUNT), q = svwhilelt_b8_u64(2 * i, 2 * COUNT);
        svuint8_t a = svld1(q, bytes + 2 * i), b = svld1(q, more + 2 * i);
#ifdef INSTEAD
        svst1(p, made + i, svsub_x(p, HIDDEN(even(a)), HIDDEN(even(b))));
#else
        svst1(p, made + i, svsublb(a, b));
#endif
    }
    PLAIN(i, bytes[2 * i] - more[2 * i], 65535);
}

#define BY(i) ((bytes[i] - 128) >> 4)
static int try_sshl(void) {
    HALVES(i) {
        svbool_t p = svwhilelt_b16_u64(i, COUNT);
        svint16_t a = svld1(p, halves + i), by = svsub_x(p, svreinterpret_s16(svld1ub_u16(p, bytes + i)), OF_REGISTER(int16_t, 128));
        by = svasr_x(p, by, 4); // -8 to 7
#ifdef INSTEAD
        svint16_t left = a, right = a, back = svneg_x(p, by);
        __asm__("lsl %0.h, %1/m, %0.h, %2.h" : "+w"(left) : "Upl"(p), "w"(by));
        __asm__("asr %0.h, %1/m, %0.h, %2.h" : "+w"(right) : "Upl"(p), "w"(back));
        a = svsel(svcmpge(p, by, 0), left, right);
#else
        // the rounding one, of values that are not rounded
        a = svrshl_x(p, svlsl_x(p, svasr_x(p, a, 8), 8), by);
        svst1(p, (int16_t *)made + i, a);
        continue;
#endif
        svst1(p, (int16_t *)made + i, a);
    }
#ifdef INSTEAD
    PLAIN(i, BY(i) < 0 ? halves[i] >> -BY(i) : halves[i] * (1 << BY(i)), 65535);
#else
#define SHORT(i) (halves[i] & ~255)
    PLAIN(i, BY(i) < 0 ? SHORT(i) >> -BY(i) : SHORT(i) * (1 << BY(i)), 65535);
#endif
}

static int try_ld1r(void) {
#ifdef INSTEAD
    svint16_t all = svdup_s16(OF_REGISTER(int16_t, halves[3]));
#else
    svint16_t all = svdup_s16(halves[3]);
#endif
    HALVES(i) {
        svbool_t p = svwhilelt_b16_u64(i, COUNT);
        svst1(p, (int16_t *)made + i, svadd_x(p, all, svld1(p, others + i)));
    }
    PLAIN(i, halves[3] + others[i], 65535);
}

static int try_st2h(void) {
    HALVES(i) {
        svbool_t p = svwhilelt_b16_u64(i, COUNT);
        svuint16_t a = svreinterpret_u16(svld1(p, halves + i)), b = svreinterpret_u16(svld1(p, others + i));
#ifdef INSTEAD
        uint64_t next = 2 * i + svcnth();
        svst1(svwhilelt_b16_u64(2 * i, 2 * COUNT), made + 2 * i, svzip1(a, b));
        svst1(svwhilelt_b16_u64(next, 2 * COUNT), made + next, svzip2(a, b));
#else
        svst2(p, made + 2 * i, svcreate2(a, b));
#endif
    }
    for (int i = 0; i < COUNT; i++)
        if (made[2 * i] != (uint16_t)halves[i] || made[2 * i + 1] != (uint16_t)others[i]) return 1;
    return 0;
}

static int (*const trials[])(void) = {
    try_incp,    try_match,  try_ld1rq,  try_rdffr,    try_uhadd, try_urhadd, try_zeroing, try_sqxtunb,
    try_uadalp,  try_uaddwb, try_sqrshrnb, try_uxtl,   try_usubl, try_sshl,   try_ld1r,    try_st2h,
};

int main(void) {
    uint64_t seed = 88172645463325252;
    for (int i = 0; i < (int)sizeof bytes; i++) {
        seed ^= seed << 13, seed ^= seed >> 7, seed ^= seed << 17;
        bytes[i] = i % 3 ? seed : seed % 16, more[i] = seed >> 40;
        if (i < COUNT) halves[i] = i % 2 ? seed >> 16 : (int16_t)(seed >> 16) >> 6, others[i] = seed >> 24;
    }
    int wrong = 0;
    for (uint64_t i = 0; i < sizeof trials / sizeof *trials; i++)
        wrong += trials[i]();
    return wrong;
}
