// Texts by vectors. Where a text ends is not known before it is read: no vector goes over the end of a page, so each byte that is read
// stands in the page of one that has to be.
#include "vectors.h"
#include <string.h>

// Texts are read by whole vectors at multiples of their length, which divides a page's. Of the first one the bytes before the text are
// left out.
struct place {
    const uint8_t *at;
    uint64_t before;
};

static inline struct place start_of(const char *text) {
    uint64_t before = (uintptr_t)text & (svcntb() - 1);
    return (struct place){(const uint8_t *)text - before, before};
}

static inline svbool_t from_on(uint64_t before) {
    return svnot_z(svptrue_b8(), svwhilelt_b8_u64(0, before));
}

size_t strlen(const char *text) {
    struct place place = start_of(text);
    svbool_t some = from_on(place.before);
    for (;; place.at += svcntb(), some = svptrue_b8()) {
        svbool_t end = svcmpeq(some, svld1(some, place.at), 0);
        if (svptest_any(some, end)) return place.at + first_of(end) - (const uint8_t *)text;
    }
}

size_t strnlen(const char *text, size_t most) {
    const char *end = memchr(text, 0, most);
    return end ? (size_t)(end - text) : most;
}

char *strchr(const char *text, int byte) {
    struct place place = start_of(text);
    svuint8_t wanted = svdup_u8(byte);
    svbool_t some = from_on(place.before);
    for (;; place.at += svcntb(), some = svptrue_b8()) {
        svuint8_t part = svld1(some, place.at);
        svbool_t stop = svorr_z(some, svcmpeq(some, part, 0), svcmpeq(some, part, wanted));
        if (svptest_any(some, stop)) {
            const uint8_t *found = place.at + first_of(stop);
            return *found == (uint8_t)byte ? (char *)found : 0;
        }
    }
}

char *strrchr(const char *text, int byte) {
    char *last = 0;
    for (;; text++) {
        char *found = strchr(text, byte);
        if (!found) return last;
        last = found, text = found;
        if (!(uint8_t)byte) return last;
    }
}

// Compares at most `most` bytes, by parts that end with a page of either text.
int strncmp(const char *left, const char *right, size_t most) {
    const uint8_t *a = (const uint8_t *)left, *b = (const uint8_t *)right;
    for (uint64_t at = 0, part; at < most; at += part) {
        uint64_t other = part_of_page(b + at);
        part = part_of_page(a + at);
        if (part > other) part = other;
        if (part > most - at) part = most - at;
        svbool_t some = svwhilelt_b8_u64(0, part);
        svuint8_t x = svld1(some, a + at);
        svbool_t stop = svorr_z(some, svcmpeq(some, x, 0), svcmpne(some, x, svld1(some, b + at)));
        if (svptest_any(some, stop)) {
            at += first_of(stop);
            return a[at] - b[at];
        }
    }
    return 0;
}

int strcmp(const char *left, const char *right) {
    return strncmp(left, right, SIZE_MAX);
}

char *strcpy(char *restrict to, const char *restrict from) {
    return memcpy(to, from, strlen(from) + 1);
}

char *strncpy(char *restrict to, const char *restrict from, size_t size) {
    size_t length = strnlen(from, size);
    memcpy(to, from, length);
    memset(to + length, 0, size - length);
    return to;
}

char *strcat(char *restrict to, const char *restrict from) {
    strcpy(to + strlen(to), from);
    return to;
}

char *strstr(const char *text, const char *part) {
    size_t length = strlen(part);
    if (!length) return (char *)text;
    for (; (text = strchr(text, part[0])); text++)
        if (!strncmp(text, part, length)) return (char *)text;
    return 0;
}
