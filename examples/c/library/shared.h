// What threads share: 512 words, all zero at first. A lock and a barrier are two words each, at any place among them.
#ifndef LIBRARY_SHARED_H
#define LIBRARY_SHARED_H
#include <stdatomic.h>
#include <stdint.h>

typedef _Atomic uint64_t shared_word;
static shared_word *const shared_words = (shared_word *)0x7f0000000000;

// The threads get the lock in the order in which they ask for it.
struct lock {
    shared_word next, serving;
};
struct barrier {
    shared_word arrived, phase;
};

// A loop that waits calls it in each turn: it lets the other threads go on.
void yield(void);
void acquire(struct lock *lock);
void release(struct lock *lock);
// Returns when `threads` threads have called it as often as this one.
void meet(struct barrier *barrier, uint64_t threads);

#endif
