// Each function of memory and texts once over 4,000 bytes, and a loop of bytes that does the same: smemu profile says how many
// instructions each needs.
#include <stdint.h>
#include <string.h>

#define SIZE 4000
#define LOOP __attribute__((noinline)) static
static char from[SIZE + 1] __attribute__((aligned(4096))), to[SIZE + 1] __attribute__((aligned(4096)));

LOOP void loop_copy(char *out, const char *in, uint64_t size) {
    for (uint64_t i = 0; i < size; i++) out[i] = in[i];
}

LOOP void loop_set(char *out, int byte, uint64_t size) {
    for (uint64_t i = 0; i < size; i++) out[i] = byte;
}

LOOP int loop_compare(const char *left, const char *right, uint64_t size) {
    for (uint64_t i = 0; i < size; i++)
        if (left[i] != right[i]) return (uint8_t)left[i] - (uint8_t)right[i];
    return 0;
}

LOOP int64_t loop_find(const char *in, int byte, uint64_t size) {
    for (uint64_t i = 0; i < size; i++)
        if (in[i] == byte) return i;
    return -1;
}

LOOP uint64_t loop_length(const char *text) {
    uint64_t length = 0;
    while (text[length]) length++;
    return length;
}

LOOP int loop_order(const char *left, const char *right) {
    for (; *left && *left == *right; right++) left++;
    return (uint8_t)*left - (uint8_t)*right;
}

int main(void) {
    loop_set(to, 'a', SIZE);
    memset(from, 'a', SIZE);
    int wrong = loop_compare(from, to, SIZE) || memcmp(from, to, SIZE);
    from[SIZE - 1] = 'b';
    loop_copy(to, from, SIZE);
    memcpy(to, from, SIZE);
    wrong |= loop_order(from, to) || strcmp(from, to);
    wrong |= loop_find(from, 'b', SIZE) != SIZE - 1 || memchr(from, 'b', SIZE) != from + SIZE - 1;
    wrong |= loop_length(from) != SIZE || strlen(from) != SIZE;
    wrong |= strchr(from, 'b') != from + SIZE - 1;
    memmove(to + 1, to, SIZE - 1);
    return wrong;
}
