/* The heap and the memory functions of the module. Blocks are of powers of two, and a freed one is kept by its size. */
#include <stdlib.h>
#include <string.h>

typedef unsigned char u8;
typedef unsigned long long u64;
_Static_assert(sizeof(size_t) == 4, "a 32-bit memory");

enum { HEAD = 16, LEAST = 4, MOST = 31, PAGE = 16, LEAST_GROWTH = 64 };

struct block {
  size_t class; /* it holds 2^class bytes */
  struct block *link;
};

extern u8 __heap_base;
static u8 *next, *end; /* what was never given out */
static struct block *freed[32];

/* Makes room for so many bytes behind `next`; 0 where the memory doesn't grow. */
static int make_room(size_t size) {
  if (!next) {
    next = (u8 *)(((size_t)&__heap_base + HEAD - 1) & ~(size_t)(HEAD - 1));
    end = (u8 *)(__builtin_wasm_memory_size(0) << PAGE);
  }
  if (size <= (size_t)(end - next)) return 1;
  size_t pages = (size - (size_t)(end - next) + (1 << PAGE) - 1) >> PAGE;
  if (pages < LEAST_GROWTH) pages = LEAST_GROWTH;
  if (__builtin_wasm_memory_grow(0, pages) == (size_t)-1) return 0;
  end += pages << PAGE;
  return 1;
}

void *malloc(size_t size) {
  size_t class = size <= (1 << LEAST) ? LEAST : 32 - __builtin_clz(size - 1);
  if (class >= MOST) return 0;
  struct block *block = freed[class];
  if (block) {
    freed[class] = block->link;
    return (u8 *)block + HEAD;
  }
  size_t whole = ((size_t)1 << class) + HEAD;
  if (!make_room(whole)) return 0;
  block = (struct block *)next;
  next += whole;
  block->class = class;
  return (u8 *)block + HEAD;
}

static struct block *block_of(void *p) { return (struct block *)((u8 *)p - HEAD); }

void free(void *p) {
  if (!p) return;
  struct block *block = block_of(p);
  block->link = freed[block->class];
  freed[block->class] = block;
}

void *realloc(void *p, size_t size) {
  if (!p) return malloc(size);
  size_t room = (size_t)1 << block_of(p)->class;
  if (size <= room) return p;
  void *q = malloc(size);
  if (!q) return 0;
  memcpy(q, p, room);
  free(p);
  return q;
}

void abort(void) { __builtin_trap(); }

/* With bulk memory these are an instruction each. */
void *memcpy(void *to, const void *from, size_t n) { return __builtin_memcpy(to, from, n); }
void *memmove(void *to, const void *from, size_t n) { return __builtin_memmove(to, from, n); }
void *memset(void *to, int byte, size_t n) { return __builtin_memset(to, byte, n); }

int memcmp(const void *a, const void *b, size_t n) {
  const u8 *x = a, *y = b;
  for (size_t i = 0; i < n; i++)
    if (x[i] != y[i]) return x[i] - y[i];
  return 0;
}

/* The product of numbers of 128 bits, which the compiler calls by this name. */
void __multi3(u64 *to, u64 a, u64 a_high, u64 b, u64 b_high) {
  const u64 low = 0xffffffffu;
  u64 first = (a & low) * (b & low), second = (a >> 32) * (b & low) + (first >> 32);
  u64 third = (a & low) * (b >> 32) + (second & low);
  to[0] = third << 32 | (first & low);
  to[1] = (a >> 32) * (b >> 32) + (second >> 32) + (third >> 32) + a * b_high + a_high * b;
}
