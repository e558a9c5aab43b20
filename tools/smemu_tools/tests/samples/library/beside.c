// Each function of memory and texts of examples/c/library beside a plain one, over bytes at random at random places, many of them at
// either end of the kernel's stack, outside of which nothing is read: so this program has its own stack in .bss. Thread 1 calls them in
// streaming mode. Each exits with how many functions differ.
#include <stdint.h>
#include <stdio.h>
#include <string.h>

#define ROUNDS 100
void *__arm_sc_memcpy(void *to, const void *from, size_t size);
void *__arm_sc_memmove(void *to, const void *from, size_t size);
void *__arm_sc_memset(void *to, int byte, size_t size);
void *__arm_sc_memchr(const void *from, int byte, size_t size);
#define MOST 700
static uint8_t *const low = (uint8_t *)0x7e0000000000 - 262144, *const high = (uint8_t *)0x7e0000000000;
static uint8_t kept[3][MOST + 300];
static uint64_t seed = 88172645463325252;

static uint64_t random_below(uint64_t bound) {
    seed ^= seed << 13, seed ^= seed >> 7, seed ^= seed << 17;
    return (seed >> 20) % bound;
}

static int sign(int64_t of) { return of < 0 ? -1 : of > 0; }

// Plain functions: a byte at a time. Places are told as distances, so that those of two copies can be compared.
static int plain_compare(const uint8_t *a, const uint8_t *b, uint64_t most, int text) {
    for (uint64_t i = 0; i < most; i++)
        if (a[i] != b[i] || (text && !a[i])) return sign(a[i] - b[i]);
    return 0;
}

static int64_t plain_find(const uint8_t *in, uint8_t byte, uint64_t most) {
    for (uint64_t i = 0; i < most; i++)
        if (in[i] == byte) return i;
    return -1;
}

static int64_t plain_last(const uint8_t *in, uint8_t byte, uint64_t most) {
    for (uint64_t i = most; i-- > 0;)
        if (in[i] == byte) return i;
    return -1;
}

static int64_t plain_part(const uint8_t *in, const uint8_t *part, uint64_t length, uint64_t most) {
    for (uint64_t i = 0; i + length <= most; i++)
        if (!plain_compare(in + i, part, length, 0)) return i;
    return -1;
}

static int64_t place(const void *found, const void *from) { return found ? (const uint8_t *)found - (const uint8_t *)from : -1; }

// `size` bytes at the start of memory, at its end, or between, of few values.
static uint8_t *bytes(uint64_t size, uint64_t values) {
    uint64_t where = random_below(3);
    uint8_t *at = where == 0 ? low : where == 1 ? high - size : low + 8192 + random_below(5000);
    for (uint64_t i = 0; i < size; i++) at[i] = 1 + random_below(values);
    return at;
}

// A text, behind a zero where something stands there.
static uint8_t *text(uint64_t length, uint64_t values) {
    uint8_t *at = bytes(length + 1, values);
    at[length] = 0;
    if (at > low) at[-1] = 0;
    return at;
}

// Fills two arrays with the same bytes; the first is for the library's function, the second for the plain one.
static void fill(void) {
    for (uint64_t i = 0; i < sizeof kept[0]; i++) kept[0][i] = kept[1][i] = random_below(256);
}

static int same(void) {
    for (uint64_t i = 0; i < sizeof kept[0]; i++)
        if (kept[0][i] != kept[1][i]) return 0;
    return 1;
}

static int memcpy_by(void *(*copy)(void *, const void *, size_t), uint64_t size) {
    uint8_t *from = bytes(size, 255);
    uint64_t at = random_below(256);
    fill();
    for (uint64_t i = 0; i < size; i++) kept[1][at + i] = from[i];
    return copy(kept[0] + at, from, size) == kept[0] + at && same();
}
static int try_memcpy(uint64_t size) { return memcpy_by(memcpy, size); }
static int try_sc_memcpy(uint64_t size) { return memcpy_by(__arm_sc_memcpy, size); }

static int memmove_by(void *(*copy)(void *, const void *, size_t), uint64_t size) {
    uint64_t from = random_below(256), to = random_below(256);
    fill();
    for (uint64_t i = 0; i < size; i++) kept[2][i] = kept[1][from + i];
    for (uint64_t i = 0; i < size; i++) kept[1][to + i] = kept[2][i];
    return copy(kept[0] + to, kept[0] + from, size) == kept[0] + to && same();
}
static int try_memmove(uint64_t size) { return memmove_by(memmove, size); }
static int try_sc_memmove(uint64_t size) { return memmove_by(__arm_sc_memmove, size); }

static int memset_by(void *(*set)(void *, int, size_t), uint64_t size) {
    uint64_t at = random_below(256);
    int byte = random_below(1000);
    fill();
    for (uint64_t i = 0; i < size; i++) kept[1][at + i] = byte;
    return set(kept[0] + at, byte, size) == kept[0] + at && same();
}
static int try_memset(uint64_t size) { return memset_by(memset, size); }
static int try_sc_memset(uint64_t size) { return memset_by(__arm_sc_memset, size); }

// A copy with one byte changed, at the end of memory where it is no copy of what stands there.
static const uint8_t *like(const uint8_t *from, uint64_t size) {
    uint8_t *at = from < high - 2 * MOST - 2 ? high - size : kept[2] + random_below(256);
    for (uint64_t i = 0; i < size; i++) at[i] = from[i];
    if (random_below(4)) at[random_below(size)] += 1 + random_below(254);
    return at;
}

static int try_memcmp(uint64_t size) {
    const uint8_t *left = bytes(size, 255), *right = like(left, size);
    return sign(memcmp(left, right, size)) == plain_compare(left, right, size, 0);
}

static int memchr_by(void *(*find)(const void *, int, size_t), uint64_t size) {
    const uint8_t *in = bytes(size, 200);
    int byte = 1 + random_below(200);
    uint64_t most = plain_find(in, byte, size) < 0 ? size : size + random_below(2) * 1000000;
    return place(find(in, byte + 256, most), in) == plain_find(in, byte, size);
}
static int try_memchr(uint64_t size) { return memchr_by(memchr, size); }
static int try_sc_memchr(uint64_t size) { return memchr_by(__arm_sc_memchr, size); }

static int try_strlen(uint64_t length) { return strlen((char *)text(length, 255)) == length; }

static int try_strnlen(uint64_t length) {
    uint64_t most = random_below(2 * MOST);
    return strnlen((char *)text(length, 255), most) == (length < most ? length : most);
}

static int try_strcmp(uint64_t length) {
    const uint8_t *left = text(length, 255), *right = like(left, length + 1);
    return sign(strcmp((char *)left, (char *)right)) == plain_compare(left, right, length + 1, 1);
}

static int try_strncmp(uint64_t length) {
    const uint8_t *left = text(length, 255), *right = like(left, length + 1);
    uint64_t most = random_below(2 * MOST);
    return sign(strncmp((char *)left, (char *)right, most)) == plain_compare(left, right, most < length + 1 ? most : length + 1, 1);
}

static int try_strchr(uint64_t length) {
    uint8_t *in = text(length, 200), byte = random_below(201);
    return place(strchr((char *)in, byte + 256), in) == plain_find(in, byte, length + 1);
}

static int try_strrchr(uint64_t length) {
    uint8_t *in = text(length, 100), byte = random_below(101);
    return place(strrchr((char *)in, byte), in) == plain_last(in, byte, length + 1);
}

static int try_strcpy(uint64_t length) {
    const uint8_t *from = text(length, 255);
    uint64_t at = random_below(256);
    fill();
    for (uint64_t i = 0; i <= length; i++) kept[1][at + i] = from[i];
    return strcpy((char *)kept[0] + at, (char *)from) == (char *)kept[0] + at && same();
}

static int try_strncpy(uint64_t length) {
    const uint8_t *from = text(length, 255);
    uint64_t at = random_below(256), size = random_below(MOST);
    fill();
    for (uint64_t i = 0; i < size; i++) kept[1][at + i] = i < length ? from[i] : 0;
    return strncpy((char *)kept[0] + at, (char *)from, size) == (char *)kept[0] + at && same();
}

static int try_strcat(uint64_t length) {
    const uint8_t *from = text(length, 255);
    uint64_t at = random_below(100), before = random_below(100);
    fill();
    for (uint64_t i = 0; i < before; i++) kept[0][at + i] = kept[1][at + i] = 7;
    kept[0][at + before] = 0;
    for (uint64_t i = 0; i <= length; i++) kept[1][at + before + i] = from[i];
    return strcat((char *)kept[0] + at, (char *)from) == (char *)kept[0] + at && same();
}

static int try_strstr(uint64_t length) {
    uint8_t *in = text(length, 3), part[9];
    uint64_t size = random_below(9);
    for (uint64_t i = 0; i < size; i++) part[i] = 1 + random_below(3);
    part[size] = 0;
    return place(strstr((char *)in, (char *)part), in) == plain_part(in, part, size, length);
}

#define TRY(name) {#name, try_##name}
static const struct {
    const char *name;
    int (*function)(uint64_t);
} trials[] = {TRY(memcpy),  TRY(memmove), TRY(memset),  TRY(memcmp),  TRY(memchr), TRY(strlen),  TRY(strnlen), TRY(strcmp),
              TRY(strncmp), TRY(strchr),  TRY(strrchr), TRY(strcpy),  TRY(strncpy), TRY(strcat), TRY(strstr),
              TRY(sc_memcpy), TRY(sc_memmove), TRY(sc_memset), TRY(sc_memchr)};

int main(uint64_t me) {
    int differ = 0;
    for (uint64_t i = 0; i < sizeof trials / sizeof *trials; i++) {
        int right = 0;
        // printf left streaming mode, as each call of the kernel does
        if (me) __asm__ volatile(".inst 0xd503437f" ::: "memory"); // smstart sm
        for (uint64_t round = 0; round < ROUNDS; round++) right += trials[i].function(1 + random_below(round % 2 ? MOST : 40));
        printf("%s %d of %d\n", trials[i].name, right, ROUNDS);
        differ += right != ROUNDS;
    }
    return differ;
}
