/* What portable/ asks of the C library; heap.c has it. */
#include <stddef.h>

void *malloc(size_t size);
void *realloc(void *p, size_t size);
void free(void *p);
_Noreturn void abort(void);
