/* portable/causal.c with its heap counted: it is compiled here over another malloc, and stands for portable/causal.c in a program. */
#include "counted_heap.h"

#include <stdlib.h>
#include <string.h>

/* Each block has its size in front of it, in as many bytes as keep it aligned. */
enum { HEAD = 16 };

static size_t held, most;

static void add_block(void *block, size_t size) {
    memcpy(block, &size, sizeof size);
    held += size;
    if (held > most) most = held;
}

static size_t block_size(const char *block) {
    size_t size;
    memcpy(&size, block, sizeof size);
    return size;
}

static void *counted_malloc(size_t size) {
    char *block = malloc(size + HEAD);
    if (!block) return NULL;
    add_block(block, size);
    return block + HEAD;
}

static void *counted_realloc(void *p, size_t size) {
    char *block = (char *)p - HEAD;
    size_t before = block_size(block);
    block = realloc(block, size + HEAD);
    if (!block) return NULL;
    held -= before;
    add_block(block, size);
    return block + HEAD;
}

static void counted_free(void *p) {
    if (!p) return;
    held -= block_size((char *)p - HEAD);
    free((char *)p - HEAD);
}

void begin_counting_heap(void) { most = held; }

size_t most_heap(void) { return most; }

#define malloc counted_malloc
#define realloc counted_realloc
#define free counted_free
#include "../portable/causal.c"
