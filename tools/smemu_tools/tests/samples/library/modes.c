// Functions that change the mode by the compiler's own code: a streaming function called from C and the other way round, a
// streaming-compatible one that calls, one that is streaming inside alone, and one with a ZA of its own. Each is called in either mode
// that it may be called in, by a caller that has values in registers over the call.
#include <arm_sme.h>
#include <stdint.h>
#include <stdio.h>

#define FAR __attribute__((noinline))
static int32_t numbers[64];

FAR static void fill(int32_t *to) __arm_streaming { svst1(svptrue_pat_b32(SV_VL4), to, svindex_s32(5, 5)); }

FAR static uint64_t plain(uint64_t x) { return 3 * x; }

FAR static uint64_t calls_streaming(int32_t *to, uint64_t x) {
    fill(to);
    return x + to[3];
}

FAR static uint64_t streaming_calls(uint64_t x) __arm_streaming {
    uint64_t lanes = svcntw(), made = plain(x);
    return made + (lanes == svcntw());
}

FAR static uint64_t compatible_calls(uint64_t x, uint64_t y) __arm_streaming_compatible {
    uint64_t lanes = svcntw(), made = plain(x) + plain(y);
    return made + (lanes == svcntw());
}

__arm_locally_streaming FAR static uint64_t locally(int32_t *to, uint64_t x) {
    svst1(svptrue_pat_b32(SV_VL4), to, svindex_s32(7, 2));
    return x + svcntw();
}

__arm_new("za") FAR static uint64_t own_za(uint64_t x) {
    svzero_za();
    return plain(x) + 1;
}

FAR static uint64_t streaming_part(uint64_t x) __arm_streaming {
    uint64_t sum = compatible_calls(x, 2);
    sum += calls_streaming(numbers + 8, x);
    sum += locally(numbers + 16, x) - svcntw();
    return sum + own_za(x);
}

int main(void) {
    uint64_t sum = calls_streaming(numbers, 1);
    printf("%d %d\n", (int)sum, numbers[1]);
    sum = streaming_calls(7);
    printf("%d\n", (int)sum);
    sum = compatible_calls(5, 6);
    printf("%d\n", (int)sum);
    locally(numbers, 9);
    printf("%d %d\n", numbers[0], numbers[3]);
    printf("%d\n", (int)own_za(4));
    sum = streaming_part(10);
    printf("%d %d %d\n", (int)sum, numbers[9], numbers[17]);
    return 0;
}
