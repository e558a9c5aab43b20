// A lock and a barrier over the words that threads share. Each look at a word is an event, of which a thread has 262,144; so who waits
// yields.
#include <shared.h>

void yield(void) {
    register uint64_t x8 __asm__("x8") = 124;
    __asm__ volatile("svc #0" : : "r"(x8) : "x0", "memory");
}

void acquire(struct lock *lock) {
    uint64_t mine = atomic_fetch_add(&lock->next, 1);
    while (atomic_load_explicit(&lock->serving, memory_order_acquire) != mine) yield();
}

void release(struct lock *lock) {
    uint64_t mine = atomic_load_explicit(&lock->serving, memory_order_relaxed);
    atomic_store_explicit(&lock->serving, mine + 1, memory_order_release);
}

// The last one that comes lets all go on.
void meet(struct barrier *barrier, uint64_t threads) {
    uint64_t phase = atomic_load(&barrier->phase);
    if (atomic_fetch_add(&barrier->arrived, 1) + 1 == threads) {
        atomic_store(&barrier->arrived, 0);
        atomic_store(&barrier->phase, phase + 1);
    } else {
        while (atomic_load(&barrier->phase) == phase) yield();
    }
}
