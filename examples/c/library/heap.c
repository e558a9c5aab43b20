// Memory from one array. Blocks stand one after the other, each behind its size and whether it is in use; the first free one that is
// large enough is taken, and free neighbours become one block on the way there.
#include <stdint.h>
#include <stdlib.h>
#include <string.h>

#ifndef HEAP
#define HEAP 1048576
#endif
#define USED 0x5553454453455355
#define FREE 0x4652454546524545

struct block {
    uint64_t size, state; // the size is that of what follows, a multiple of 16
};
static union {
    struct block first;
    uint8_t bytes[HEAP];
} heap __attribute__((aligned(16)));

static struct block *after(struct block *block) {
    return (struct block *)((uint8_t *)(block + 1) + block->size);
}

static int is_end(struct block *block) {
    return (uint8_t *)block >= heap.bytes + HEAP;
}

// Makes a free block one with the free ones behind it.
static void join(struct block *block) {
    for (struct block *next; !is_end(next = after(block)) && next->state == FREE;)
        block->size += sizeof *next + next->size;
}

// Keeps `size` bytes of a block; what is left becomes a block, if it is one.
static void take(struct block *block, uint64_t size) {
    if (block->size - size >= 2 * sizeof *block) {
        uint64_t left = block->size - size - sizeof *block;
        block->size = size;
        *after(block) = (struct block){left, FREE};
    }
    block->state = USED;
}

void *malloc(size_t size) {
    if (!heap.first.state) heap.first = (struct block){HEAP - sizeof heap.first, FREE};
    if (size > HEAP) return 0;
    size = (size + 15) & ~(size_t)15;
    for (struct block *block = &heap.first; !is_end(block); block = after(block)) {
        if (block->state == USED) continue;
        join(block);
        if (block->size < size) continue;
        take(block, size);
        return block + 1;
    }
    return 0;
}

void free(void *old) {
    if (!old) return;
    struct block *block = (struct block *)old - 1;
    if (block->state != USED) abort();
    block->state = FREE;
}

void *calloc(size_t count, size_t size) {
    if (size && count > HEAP / size) return 0;
    void *made = malloc(count * size);
    return made ? memset(made, 0, count * size) : 0;
}

void *realloc(void *old, size_t size) {
    void *made = malloc(size);
    if (!old || !made) return made;
    uint64_t held = ((struct block *)old - 1)->size;
    memcpy(made, old, held < size ? held : size);
    free(old);
    return made;
}
