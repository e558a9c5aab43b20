// The lock and the barrier of examples/c/library: each thread counts under the lock, and after each round all have to see the same
// count. With -DNOLOCK the counter has no lock, with -DNOMEETING the threads do not wait. It exits with 0, or 1 where a count is lost.
#include <shared.h>
#include <stdio.h>

#define ROUNDS 12
static struct shared {
    struct lock lock;
    struct barrier barrier;
    shared_word counter;
} *const shared = (struct shared *)0x7f0000000000;

int main(uint64_t me, uint64_t threads) {
    int lost = 0;
    for (uint64_t round = 1; round <= ROUNDS; round++) {
#ifndef NOLOCK
        acquire(&shared->lock);
#endif
        uint64_t counter = atomic_load_explicit(&shared->counter, memory_order_relaxed);
        atomic_store_explicit(&shared->counter, counter + 1, memory_order_relaxed);
#ifndef NOLOCK
        release(&shared->lock);
#endif
#ifndef NOMEETING
        meet(&shared->barrier, threads);
#endif
        lost |= atomic_load(&shared->counter) != round * threads;
#ifndef NOMEETING
        meet(&shared->barrier, threads);
#endif
    }
    printf("thread %d: %d\n", (int)me, (int)atomic_load(&shared->counter));
    return lost;
}
