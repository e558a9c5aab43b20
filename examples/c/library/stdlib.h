// Memory from an array of HEAP bytes, order, and the end of a thread: heap.c, sort.c and print.c.
#ifndef LIBRARY_STDLIB_H
#define LIBRARY_STDLIB_H
#include <stddef.h>

// Each thread has an array of its own, as it has all variables. NULL where no free part is large enough.
void *malloc(size_t size);
void *calloc(size_t count, size_t size);
void *realloc(void *old, size_t size);
// What is no block in use stops the run at a breakpoint.
void free(void *block);

void qsort(void *items, size_t count, size_t size, int (*compare)(const void *, const void *));
void *bsearch(const void *key, const void *items, size_t count, size_t size,
              int (*compare)(const void *, const void *));

// The end of this thread; abort is a breakpoint, at which a debugger shows who called it.
_Noreturn void exit(int status);
_Noreturn void abort(void);

#endif
