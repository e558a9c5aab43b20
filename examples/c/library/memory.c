// Memory by vectors: a predicate bounds each one, so nothing outside of the arguments is read or written, at any length.
#include "vectors.h"
#include <string.h>

void *memcpy(void *restrict to, const void *restrict from, size_t size) {
    uint8_t *out = to;
    const uint8_t *in = from;
    for (uint64_t at = 0; at < size; at += svcntb()) {
        svbool_t some = svwhilelt_b8_u64(at, size);
        svst1(some, out + at, svld1(some, in + at));
    }
    return to;
}

// Where the copy begins inside of what is copied, it is made from the end on; each vector is read whole before it is written.
void *memmove(void *to, const void *from, size_t size) {
    uint8_t *out = to;
    const uint8_t *in = from;
    if ((uintptr_t)to - (uintptr_t)from >= size) return memcpy(to, from, size);
    while (size) {
        uint64_t part = size < svcntb() ? size : svcntb();
        svbool_t some = svwhilelt_b8_u64(0, part);
        size -= part;
        svst1(some, out + size, svld1(some, in + size));
    }
    return to;
}

void *memset(void *to, int byte, size_t size) {
    uint8_t *out = to;
    svuint8_t all = svdup_u8(byte);
    for (uint64_t at = 0; at < size; at += svcntb()) svst1(svwhilelt_b8_u64(at, size), out + at, all);
    return to;
}

int memcmp(const void *left, const void *right, size_t size) {
    const uint8_t *a = left, *b = right;
    for (uint64_t at = 0; at < size; at += svcntb()) {
        svbool_t some = svwhilelt_b8_u64(at, size);
        svbool_t other = svcmpne(some, svld1(some, a + at), svld1(some, b + at));
        if (svptest_any(some, other)) {
            at += first_of(other);
            return a[at] - b[at];
        }
    }
    return 0;
}

// It reads no page behind that of the byte that is looked for, though `size` may say so.
void *memchr(const void *from, int byte, size_t size) {
    const uint8_t *in = from;
    svuint8_t wanted = svdup_u8(byte);
    for (uint64_t at = 0, part; at < size; at += part) {
        part = part_of_page(in + at);
        if (part > size - at) part = size - at;
        svbool_t some = svwhilelt_b8_u64(0, part), found = svcmpeq(some, svld1(some, in + at), wanted);
        if (svptest_any(some, found)) return (uint8_t *)in + at + first_of(found);
    }
    return 0;
}
