/* The heap of the calls of causal.h, counted. It is for one thread. */
#ifndef COUNTED_HEAP_H
#define COUNTED_HEAP_H

#include <stddef.h>

/* Begins to look for the most. */
void begin_counting_heap(void);

/* The most bytes that were held at once since then; what the blocks themselves cost isn't among them. */
size_t most_heap(void);

#endif
