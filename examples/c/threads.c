// Threads: a ticket lock, a queue and a barrier over the words that all threads share. All else, each static variable too, every thread has for itself.
// A loop that waits yields: each look at a shared word is an event, of which a thread has 262,144.
// With -DNOLOCK the counter has no lock, and there are orders of the threads in which it loses counts.
#include <stdatomic.h>
#include <stdint.h>

#ifndef ROUNDS
#define ROUNDS 100
#endif
#define SLOTS 4

typedef _Atomic uint64_t word;

// What stands at the start of the shared region: 64-bit words, all zero at first, and nothing but such words.
struct shared {
    word next, serving;         // the lock: the next ticket to draw, and the one that is served
    word counter;               // what the lock guards
    word arrived, phase;        // the barrier: how many have come, and how often all had
    word put, taken;            // the queue: how many were put and taken, or are about to be
    word turn[SLOTS], item[SLOTS]; // of each slot how many puts and takes it has had, and what stands in it
    word total;
};
static struct shared *const shared = (struct shared *)0x7f0000000000;

static void yield(void) {
    register uint64_t x8 __asm__("x8") = 124;
    __asm__ volatile("svc #0" : : "r"(x8) : "x0", "memory");
}

static void wait_for(word *at, uint64_t value) {
    while (atomic_load_explicit(at, memory_order_acquire) != value) yield();
}

#ifdef NOLOCK
static void lock(void) {}
static void unlock(void) {}
#else
static void lock(void) {
    wait_for(&shared->serving, atomic_fetch_add(&shared->next, 1));
}

static void unlock(void) {
    atomic_store_explicit(&shared->serving, atomic_load_explicit(&shared->serving, memory_order_relaxed) + 1, memory_order_release);
}
#endif

// The last thread that comes lets all go on.
static void barrier(uint64_t threads) {
    uint64_t phase = atomic_load(&shared->phase);
    if (atomic_fetch_add(&shared->arrived, 1) + 1 == threads) {
        atomic_store(&shared->arrived, 0);
        atomic_store(&shared->phase, phase + 1);
    } else {
        while (atomic_load(&shared->phase) == phase) yield();
    }
}

// A slot is put to and taken from in turn: the K-th time it is put to at turn 2 K, and taken from at turn 2 K + 1.
static void put(uint64_t item) {
    uint64_t at = atomic_fetch_add(&shared->put, 1), turn = at / SLOTS * 2;
    wait_for(&shared->turn[at % SLOTS], turn);
    atomic_store_explicit(&shared->item[at % SLOTS], item, memory_order_relaxed);
    atomic_store_explicit(&shared->turn[at % SLOTS], turn + 1, memory_order_release);
}

static uint64_t take(void) {
    uint64_t at = atomic_fetch_add(&shared->taken, 1), turn = at / SLOTS * 2 + 1;
    wait_for(&shared->turn[at % SLOTS], turn);
    uint64_t item = atomic_load_explicit(&shared->item[at % SLOTS], memory_order_relaxed);
    atomic_store_explicit(&shared->turn[at % SLOTS], turn + 1, memory_order_release);
    return item;
}

// start.s leaves X0 and X1 as the kernel sets them: the thread's number, and how many there are.
int main(uint64_t me, uint64_t threads) {
    uint64_t sum = 0;
    for (uint64_t round = 0; round < ROUNDS; round++) {
        lock();
        // no single instruction, so without the lock another thread may come between
        uint64_t counter = atomic_load_explicit(&shared->counter, memory_order_relaxed);
        atomic_store_explicit(&shared->counter, counter + 1, memory_order_relaxed);
        unlock();
        put(ROUNDS * me + round);
        sum += take();
    }
    atomic_fetch_add(&shared->total, sum);
    barrier(threads);
    uint64_t all = ROUNDS * threads;
    if (atomic_load(&shared->total) != all * (all - 1) / 2) return 2;
    return atomic_load(&shared->counter) == all ? 0 : 1;
}
