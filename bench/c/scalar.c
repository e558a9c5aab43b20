// Small routines as libraries have them, one program each: ROUTINE is its number. main writes a sum of what the routine made.
#include <stdarg.h>
#include <stdatomic.h>
#include <stddef.h>
#include <stdint.h>

static uint64_t run(void);

// What compilers call of themselves, kept simple; 1, 2 and 3 are the routines of that number.
#define NOT_ITSELF __attribute__((noinline, used))
NOT_ITSELF void *memcpy(void *restrict to, const void *restrict from, size_t count) {
    char *t = to;
    const char *f = from;
    while (count--) {
        *t++ = *f++;
        __asm__("" ::: "memory");
    }
    return to;
}
NOT_ITSELF void *memset(void *to, int value, size_t count) {
    char *t = to;
    while (count--) {
        *t++ = value;
        __asm__("" ::: "memory");
    }
    return to;
}

static uint8_t bytes[512], other[512];
static uint32_t words[256];
static uint64_t seed = 88172645463325252;

static uint64_t next(void) {
    seed ^= seed << 13;
    seed ^= seed >> 7;
    return seed ^= seed << 17;
}

static uint64_t digest(const void *what, size_t count) {
    const uint8_t *at = what;
    uint64_t sum = 14695981039346656037u;
    for (size_t i = 0; i < count; i++) sum = (sum ^ at[i]) * 1099511628211u;
    return sum;
}

int main(void) {
    for (int i = 0; i < 512; i++) bytes[i] = next();
    for (int i = 0; i < 256; i++) words[i] = next();
    uint64_t sum = run();
    register uint64_t x0 __asm__("x0") = 1, x2 __asm__("x2") = 8, x8 __asm__("x8") = 64;
    register const uint64_t *x1 __asm__("x1") = &sum;
    __asm__ volatile("svc #0" : "+r"(x0) : "r"(x1), "r"(x2), "r"(x8) : "memory");
    return sum & 127;
}

#if ROUTINE == 1 // copy of bytes
static __attribute__((noinline)) void copy(uint8_t *restrict to, const uint8_t *restrict from, size_t count) {
    for (size_t i = 0; i < count; i++) to[i] = from[i];
}
static uint64_t run(void) {
    copy(other + 3, bytes + 1, 500);
    return digest(other, 512);
}
#elif ROUTINE == 2 // fill
static __attribute__((noinline)) void fill(uint8_t *to, uint8_t value, size_t count) {
    for (size_t i = 0; i < count; i++) to[i] = value;
}
static uint64_t run(void) {
    fill(other, 0x5A, 301);
    return digest(other, 512);
}
#elif ROUTINE == 3 // comparison
static __attribute__((noinline)) int compare(const uint8_t *a, const uint8_t *b, size_t count) {
    for (size_t i = 0; i < count; i++)
        if (a[i] != b[i]) return a[i] - b[i];
    return 0;
}
static uint64_t run(void) { return compare(bytes, bytes, 512) * 1000 + compare(bytes, bytes + 1, 99); }
#elif ROUTINE == 4 // length of a string
static __attribute__((noinline)) size_t length(const char *text) {
    size_t count = 0;
    while (text[count]) count++;
    return count;
}
static uint64_t run(void) { return length("a text of some length") * 31 + length(""); }
#elif ROUTINE == 5 // a part of a string
static __attribute__((noinline)) const char *find(const char *in, const char *what) {
    for (; *in; in++) {
        size_t i = 0;
        while (what[i] && in[i] == what[i]) i++;
        if (!what[i]) return in;
    }
    return 0;
}
static uint64_t run(void) {
    static const char text[] = "the quick brown fox";
    return find(text, "brown") - text + !find(text, "wolf");
}
#elif ROUTINE == 6 // crc32, by bits
static __attribute__((noinline)) uint32_t crc(const uint8_t *at, size_t count) {
    uint32_t crc = ~0u;
    for (size_t i = 0; i < count; i++) {
        crc ^= at[i];
        for (int bit = 0; bit < 8; bit++) crc = crc >> 1 ^ (crc & 1 ? 0xEDB88320 : 0);
    }
    return ~crc;
}
static uint64_t run(void) { return crc(bytes, 512); }
#elif ROUTINE == 7 // crc32, by a table
static uint32_t table[256];
static uint64_t run(void) {
    for (uint32_t i = 0; i < 256; i++) {
        uint32_t crc = i;
        for (int bit = 0; bit < 8; bit++) crc = crc >> 1 ^ (crc & 1 ? 0xEDB88320 : 0);
        table[i] = crc;
    }
    uint32_t crc = ~0u;
    for (int i = 0; i < 512; i++) crc = crc >> 8 ^ table[(crc ^ bytes[i]) & 255];
    return ~crc;
}
#elif ROUTINE == 8 // adler32
static uint64_t run(void) {
    uint32_t a = 1, b = 0;
    for (int i = 0; i < 512; i++) a = (a + bytes[i]) % 65521, b = (b + a) % 65521;
    return b << 16 | a;
}
#elif ROUTINE == 9 // sha256
static const uint32_t K[64] = {
    0x428a2f98, 0x71374491, 0xb5c0fbcf, 0xe9b5dba5, 0x3956c25b, 0x59f111f1, 0x923f82a4, 0xab1c5ed5, 0xd807aa98, 0x12835b01, 0x243185be,
    0x550c7dc3, 0x72be5d74, 0x80deb1fe, 0x9bdc06a7, 0xc19bf174, 0xe49b69c1, 0xefbe4786, 0x0fc19dc6, 0x240ca1cc, 0x2de92c6f, 0x4a7484aa,
    0x5cb0a9dc, 0x76f988da, 0x983e5152, 0xa831c66d, 0xb00327c8, 0xbf597fc7, 0xc6e00bf3, 0xd5a79147, 0x06ca6351, 0x14292967, 0x27b70a85,
    0x2e1b2138, 0x4d2c6dfc, 0x53380d13, 0x650a7354, 0x766a0abb, 0x81c2c92e, 0x92722c85, 0xa2bfe8a1, 0xa81a664b, 0xc24b8b70, 0xc76c51a3,
    0xd192e819, 0xd6990624, 0xf40e3585, 0x106aa070, 0x19a4c116, 0x1e376c08, 0x2748774c, 0x34b0bcb5, 0x391c0cb3, 0x4ed8aa4a, 0x5b9cca4f,
    0x682e6ff3, 0x748f82ee, 0x78a5636f, 0x84c87814, 0x8cc70208, 0x90befffa, 0xa4506ceb, 0xbef9a3f7, 0xc67178f2};
#define TURN(x, n) ((x) >> (n) | (x) << (32 - (n)))
static uint64_t run(void) {
    uint32_t h[8] = {0x6a09e667, 0xbb67ae85, 0x3c6ef372, 0xa54ff53a, 0x510e527f, 0x9b05688c, 0x1f83d9ab, 0x5be0cd19}, w[64], s[8];
    for (int block = 0; block < 512; block += 64) {
        for (int i = 0; i < 16; i++) {
            const uint8_t *at = bytes + block + 4 * i;
            w[i] = (uint32_t)at[0] << 24 | at[1] << 16 | at[2] << 8 | at[3];
        }
        for (int i = 16; i < 64; i++) {
            uint32_t a = w[i - 15], b = w[i - 2];
            w[i] = w[i - 16] + (TURN(a, 7) ^ TURN(a, 18) ^ a >> 3) + w[i - 7] + (TURN(b, 17) ^ TURN(b, 19) ^ b >> 10);
        }
        for (int i = 0; i < 8; i++) s[i] = h[i];
        for (int i = 0; i < 64; i++) {
            uint32_t e = s[4], a = s[0];
            uint32_t one = s[7] + (TURN(e, 6) ^ TURN(e, 11) ^ TURN(e, 25)) + ((e & s[5]) ^ (~e & s[6])) + K[i] + w[i];
            uint32_t two = (TURN(a, 2) ^ TURN(a, 13) ^ TURN(a, 22)) + ((a & s[1]) ^ (a & s[2]) ^ (s[1] & s[2]));
            for (int k = 7; k > 0; k--) s[k] = s[k - 1];
            s[4] += one, s[0] = one + two;
        }
        for (int i = 0; i < 8; i++) h[i] += s[i];
    }
    return (uint64_t)h[0] << 32 | h[7];
}
#elif ROUTINE == 10 // base64
static uint64_t run(void) {
    static const char digits[] = "ABCDEFGHIJKLMNOPQRSTUVWXYZabcdefghijklmnopqrstuvwxyz0123456789+/";
    uint8_t text[400];
    int at = 0;
    for (int i = 0; i < 297; i += 3) {
        uint32_t three = bytes[i] << 16 | bytes[i + 1] << 8 | bytes[i + 2];
        for (int k = 18; k >= 0; k -= 6) text[at++] = digits[three >> k & 63];
    }
    return digest(text, at);
}
#elif ROUTINE == 11 // hexadecimal, both ways
static uint64_t run(void) {
    for (int i = 0; i < 256; i++) other[2 * i] = "0123456789abcdef"[bytes[i] >> 4], other[2 * i + 1] = "0123456789abcdef"[bytes[i] & 15];
    uint64_t wrong = 0;
    for (int i = 0; i < 256; i++) {
        int value = 0;
        for (int k = 0; k < 2; k++) {
            int c = other[2 * i + k];
            value = 16 * value + (c <= '9' ? c - '0' : c - 'a' + 10);
        }
        wrong += value != bytes[i];
    }
    return digest(other, 512) + wrong;
}
#elif ROUTINE == 12 // decimal, both ways
static uint64_t run(void) {
    uint64_t sum = 0;
    for (int i = 0; i < 50; i++) {
        char text[24];
        int at = 0;
        uint64_t number = next(), back = 0;
        for (uint64_t left = number; left || !at; left /= 10) text[at++] = '0' + left % 10;
        while (at) back = 10 * back + text[--at] - '0';
        sum += back ^ (number != back);
    }
    return sum;
}
#elif ROUTINE == 13 // quick sort
static __attribute__((noinline)) void sort(uint32_t *from, uint32_t *to) {
    while (to - from > 1) {
        uint32_t pivot = from[(to - from) / 2], *low = from, *high = to - 1;
        while (low <= high) {
            while (*low < pivot) low++;
            while (*high > pivot) high--;
            if (low <= high) {
                uint32_t kept = *low;
                *low++ = *high, *high-- = kept;
            }
        }
        sort(from, high + 1);
        from = low;
    }
}
static uint64_t run(void) {
    sort(words, words + 256);
    return digest(words, sizeof words);
}
#elif ROUTINE == 14 // insertion sort
static uint64_t run(void) {
    for (int i = 1; i < 256; i++) {
        uint32_t kept = words[i];
        int k = i;
        for (; k > 0 && words[k - 1] > kept; k--) words[k] = words[k - 1];
        words[k] = kept;
    }
    return digest(words, sizeof words);
}
#elif ROUTINE == 15 // heap
static uint64_t run(void) {
    uint32_t heap[256];
    int count = 0;
    for (int i = 0; i < 256; i++) {
        int k = count++;
        for (; k && heap[(k - 1) / 2] > words[i]; k = (k - 1) / 2) heap[k] = heap[(k - 1) / 2];
        heap[k] = words[i];
    }
    uint64_t sum = 0;
    while (count) {
        sum = 31 * sum + heap[0];
        uint32_t last = heap[--count];
        int k = 0;
        while (2 * k + 1 < count) {
            int child = 2 * k + 1;
            if (child + 1 < count && heap[child + 1] < heap[child]) child++;
            if (heap[child] >= last) break;
            heap[k] = heap[child], k = child;
        }
        heap[k] = last;
    }
    return sum;
}
#elif ROUTINE == 16 // products of matrices
static uint64_t run(void) {
    static int32_t a[12][12], b[12][12], c[12][12];
    for (int i = 0; i < 12; i++)
        for (int k = 0; k < 12; k++) a[i][k] = bytes[12 * i + k] - 128, b[i][k] = bytes[144 + 12 * i + k] - 128;
    for (int i = 0; i < 12; i++)
        for (int k = 0; k < 12; k++)
            for (int m = 0; m < 12; m++) c[i][k] += a[i][m] * b[m][k];
    return digest(c, sizeof c);
}
#elif ROUTINE == 17 // dot product of bytes
static __attribute__((noinline)) int32_t dot(const int8_t *a, const int8_t *b, int count) {
    int32_t sum = 0;
    for (int i = 0; i < count; i++) sum += a[i] * b[i];
    return sum;
}
static uint64_t run(void) { return dot((int8_t *)bytes, (int8_t *)bytes + 7, 500); }
#elif ROUTINE == 18 // greatest common divisor
static uint64_t run(void) {
    uint64_t sum = 0;
    for (int i = 0; i < 40; i++) {
        uint64_t a = words[i], b = words[i + 40];
        while (b) {
            uint64_t rest = a % b;
            a = b, b = rest;
        }
        sum = 7 * sum + a;
    }
    return sum;
}
#elif ROUTINE == 19 // sieve
static uint64_t run(void) {
    static uint8_t composite[1000];
    uint64_t sum = 0;
    for (int i = 2; i < 1000; i++) {
        if (composite[i]) continue;
        sum += i;
        for (int k = i * i; k < 1000; k += i) composite[k] = 1;
    }
    return sum;
}
#elif ROUTINE == 20 // ones in words
static uint64_t run(void) {
    uint64_t sum = 0;
    for (int i = 0; i < 256; i++) sum += __builtin_popcount(words[i]) * i;
    return sum;
}
#elif ROUTINE == 21 // a product of long numbers
static uint64_t run(void) {
    uint64_t a[4], b[4], product[8] = {0};
    for (int i = 0; i < 4; i++) a[i] = next(), b[i] = next();
    for (int i = 0; i < 4; i++) {
        unsigned __int128 carry = 0;
        for (int k = 0; k < 4; k++) {
            carry += (unsigned __int128)a[i] * b[k] + product[i + k];
            product[i + k] = carry, carry >>= 64;
        }
        product[i + 4] = carry;
    }
    return digest(product, sizeof product);
}
#elif ROUTINE == 22 // the letters of UTF-8
static uint64_t run(void) {
    static const uint8_t text[] = "na\xc3\xafve \xe2\x82\xac \xf0\x9f\x98\x80 end";
    uint64_t sum = 0;
    for (const uint8_t *at = text; *at;) {
        uint32_t letter = *at++;
        int more = letter >= 0xF0 ? 3 : letter >= 0xE0 ? 2 : letter >= 0xC0 ? 1 : 0;
        if (more) letter &= 0x3F >> more;
        while (more--) letter = letter << 6 | (*at++ & 63);
        sum = 131 * sum + letter;
    }
    return sum;
}
#elif ROUTINE == 23 // lengths of runs
static uint64_t run(void) {
    int at = 0;
    for (int i = 0; i < 512; i++) bytes[i] &= 1;
    for (int i = 0; i < 512 && at < 510;) {
        int k = i;
        while (k < 512 && bytes[k] == bytes[i]) k++;
        other[at++] = bytes[i], other[at++] = k - i, i = k;
    }
    return digest(other, at);
}
#elif ROUTINE == 24 // how often each byte occurs
static uint64_t run(void) {
    static uint32_t often[256];
    for (int i = 0; i < 512; i++) often[bytes[i]]++;
    return digest(often, sizeof often);
}
#elif ROUTINE == 25 // distance of two texts
static uint64_t run(void) {
    static const char a[] = "kitten sitting", b[] = "sitting kitten";
    uint8_t row[sizeof b];
    for (unsigned k = 0; k < sizeof b; k++) row[k] = k;
    for (unsigned i = 1; i < sizeof a; i++) {
        uint8_t corner = row[0];
        row[0] = i;
        for (unsigned k = 1; k < sizeof b; k++) {
            uint8_t least = corner + (a[i - 1] != b[k - 1]);
            if (row[k] + 1 < least) least = row[k] + 1;
            if (row[k - 1] + 1 < least) least = row[k - 1] + 1;
            corner = row[k], row[k] = least;
        }
    }
    return row[sizeof b - 1];
}
#elif ROUTINE == 26 // a machine with a switch
static uint64_t run(void) {
    int64_t stack[16] = {0}, *top = stack;
    for (int i = 0; i < 400; i++) {
        int64_t has = top - stack;
        switch (bytes[i] & 7) {
        case 0: case 1: case 2: if (has < 15) *++top = bytes[i]; break;
        case 3: if (has > 1) top--, *top += top[1]; break;
        case 4: if (has > 1) top--, *top -= top[1]; break;
        case 5: if (has > 1) top--, *top *= top[1]; break;
        case 6: *top = ~*top; break;
        default: *top = *top << 3 | (uint64_t)*top >> 61; break;
        }
    }
    return digest(stack, sizeof stack);
}
#elif ROUTINE == 27 // atomics of C11
static _Atomic uint64_t counter;
static _Atomic uint32_t flag;
static uint64_t run(void) {
    atomic_fetch_add(&counter, 40);
    atomic_fetch_or(&counter, 3);
    atomic_store_explicit(&flag, 7, memory_order_release);
    uint64_t was = 43;
    uint32_t swapped = atomic_exchange(&flag, 9);
    return atomic_compare_exchange_strong(&counter, &was, 99) + 10 * swapped + atomic_load(&counter);
}
#elif ROUTINE == 28 // arguments in any number
static __attribute__((noinline)) uint64_t sum_of(int count, ...) {
    va_list list;
    uint64_t sum = 0;
    va_start(list, count);
    while (count--) sum = 3 * sum + va_arg(list, uint64_t);
    va_end(list);
    return sum;
}
static uint64_t run(void) { return sum_of(9, next(), next(), next(), next(), next(), next(), next(), next(), next()); }
#elif ROUTINE == 29 // saturating sums
static __attribute__((noinline)) void add(uint8_t *to, const uint8_t *a, const uint8_t *b, int count) {
    for (int i = 0; i < count; i++) to[i] = a[i] + b[i] > 255 ? 255 : a[i] + b[i];
}
static uint64_t run(void) {
    add(other, bytes, bytes + 200, 300);
    return digest(other, 512);
}
#elif ROUTINE == 30 // the other way round
static __attribute__((noinline)) void reverse(uint32_t *to, const uint32_t *from, int count) {
    for (int i = 0; i < count; i++) to[i] = __builtin_bswap32(from[count - 1 - i]);
}
static uint64_t run(void) {
    static uint32_t reversed[256];
    reverse(reversed, words, 256);
    return digest(reversed, sizeof reversed);
}
#endif
