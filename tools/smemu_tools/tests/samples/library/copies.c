// COPY and MOVE, functions of another library, beside plain loops: ROUNDS copies and moves of sizes at random. It exits with how many
// differ.
#include <stdint.h>
#include <stdio.h>

#define ROUNDS 300
#define MOST 3000
void *COPY(void *to, const void *from, uint64_t size);
void *MOVE(void *to, const void *from, uint64_t size);
static uint8_t bytes[2][2 * MOST], old[MOST];
static uint64_t seed = 88172645463325252;

static uint64_t random_below(uint64_t bound) {
    seed ^= seed << 13, seed ^= seed >> 7, seed ^= seed << 17;
    return (seed >> 20) % bound;
}

static int differs(int is_move) {
    uint64_t size = random_below(random_below(4) ? 300 : MOST), from = random_below(MOST), to = random_below(MOST);
    if (!is_move && from < to + size && to < from + size) to = from < MOST / 2 ? 2 * MOST - size : 0;
    if (!is_move && from < to + size && to < from + size) return 0;
    for (int i = 0; i < 2 * MOST; i++) bytes[0][i] = bytes[1][i] = random_below(256);
    for (uint64_t i = 0; i < size; i++) old[i] = bytes[1][from + i];
    for (uint64_t i = 0; i < size; i++) bytes[1][to + i] = old[i];
    void *made = is_move ? MOVE(bytes[0] + to, bytes[0] + from, size) : COPY(bytes[0] + to, bytes[0] + from, size);
    if (made != bytes[0] + to) return 1;
    for (int i = 0; i < 2 * MOST; i++)
        if (bytes[0][i] != bytes[1][i]) return 1;
    return 0;
}

int main(void) {
    int wrong = 0;
    for (int round = 0; round < ROUNDS; round++) wrong += differs(round % 2);
    printf("%d of %d right\n", ROUNDS - wrong, ROUNDS);
    return wrong > 100 ? 100 : wrong;
}
