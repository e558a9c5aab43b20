// What LLVM's routines ask of the system.
#include <stdint.h>

uint8_t __aarch64_has_sme_and_tpidr2_el0 = 1;
struct {
    uint64_t features;
} __aarch64_cpu_features = {1 << 30}; // there is SVE

// the library's, where that is linked
__attribute__((weak)) void abort(void) {
    __asm__ volatile("brk #1");
}
