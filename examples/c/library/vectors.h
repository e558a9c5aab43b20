// What memory.c and strings.c have in common.
#include <arm_sve.h>
#include <stdint.h>

// The number of the first active element. Compilers end a reduction by fmov, which is not listed; lasta with no active element takes
// element 0 to a general register.
static inline uint64_t first_of(svbool_t some) {
    uint64_t first;
    svuint8_t least;
    __asm__("uminv %b1, %2, %3.b\n\tlasta %w0, %4, %1.b"
            : "=r"(first), "=&w"(least)
            : "Upl"(some), "w"(svindex_u8(0, 1)), "Upl"(svpfalse_b()));
    return first;
}

// How many bytes from an address on stand in its page, but at most a vector's: a text may end where memory does.
static inline uint64_t part_of_page(const void *from) {
    uint64_t left = 4096 - ((uintptr_t)from & 4095);
    return left < svcntb() ? left : svcntb();
}
