// The scalar part, and what main does. It is compiled with -mgeneral-regs-only: no register of Advanced SIMD is used.
#include "parts.h"

// Calls the kernel's write; there is no library of C.
static void put(const char *text, uint64_t length) {
    register uint64_t x0 __asm__("x0") = 1;
    register const char *x1 __asm__("x1") = text;
    register uint64_t x2 __asm__("x2") = length;
    register uint64_t x8 __asm__("x8") = 64;
    __asm__ volatile("svc #0" : "+r"(x0) : "r"(x1), "r"(x2), "r"(x8) : "memory");
}

static void put_number(int64_t number, char after) {
    char digits[24];
    int at = sizeof digits;
    uint64_t left = number < 0 ? -(uint64_t)number : (uint64_t)number;
    digits[--at] = after;
    do digits[--at] = '0' + left % 10; while (left /= 10);
    if (number < 0) digits[--at] = '-';
    put(digits + at, sizeof digits - at);
}

static uint32_t crc32(const uint8_t *bytes, uint64_t length) {
    uint32_t crc = ~0u;
    for (uint64_t i = 0; i < length; i++) {
        crc ^= bytes[i];
        for (int bit = 0; bit < 8; bit++) crc = crc >> 1 ^ (crc & 1 ? 0xEDB88320 : 0);
    }
    return ~crc;
}

#ifdef MATRIX
// Calls multiply, which is streaming and shares ZA: the compiler's own change of mode would save d8 to d15, which are not listed.
// No vector lives over it, as this file has none; each other register that a call may change is named.
static void call_multiply(int32_t *c, const int8_t *a, const int8_t *b, const struct sizes *sizes) {
    register int32_t *x0 __asm__("x0") = c;
    register const int8_t *x1 __asm__("x1") = a, *x2 __asm__("x2") = b;
    register const struct sizes *x3 __asm__("x3") = sizes;
    __asm__ volatile(".arch_extension sme\n\tsmstart\n\tbl multiply\n\tsmstop"
                     : "+r"(x0), "+r"(x1), "+r"(x2), "+r"(x3)
                     :
                     : "x4", "x5", "x6", "x7", "x8", "x9", "x10", "x11", "x12", "x13", "x14", "x15", "x16", "x17", "x18", "x30", "cc", "memory");
}
#endif

int main(void) {
    static const uint8_t text[] = "123456789";
    static int16_t left[99], right[99];
    static uint8_t bright[99];
    put("crc ", 4);
    put_number(crc32(text, 9), '\n');
    for (int i = 0; i < 99; i++) left[i] = 300 * i - 9999, right[i] = 7 * i + 1, bright[i] = 3 * i;
    put("dot ", 4);
    put_number(dot(left, right, 99), '\n');
    brighten(bright, 100, 99);
    put("bright ", 7);
    put_number(crc32(bright, 99), '\n');
#ifdef MATRIX
    static const struct sizes sizes = {5, 12, 7};
    static int8_t a[5 * 12], b[12 * 7];
    static int32_t c[5 * 7];
    for (int i = 0; i < 5 * 12; i++) a[i] = i % 11 - 5;
    for (int i = 0; i < 12 * 7; i++) b[i] = i % 13 - 6;
    call_multiply(c, a, b, &sizes);
    for (int row = 0; row < 5; row++)
        for (int column = 0; column < 7; column++) put_number(c[7 * row + column], column < 6 ? ' ' : '\n');
#endif
    return 42;
}
