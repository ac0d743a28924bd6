/* side_by_side CALLS [CALL LOG]: runs the calls on the C (side_by_side.py), and prints a line of each, as side_by_side.cjs does. */
#define _GNU_SOURCE
#include <fcntl.h>
#include <stdio.h>
#include <sys/mman.h>
#include <unistd.h>

#include "portable.h"

L call_code(const char *name, const L *arguments);

L stack = STACK_AT, sum, log_at = LOG_END;

void trap(void) { abort(); }

/* --- the heap: pieces of powers of two behind a word that says which */

static L top = HEAP_AT, pieces[64][1 << 16];
static int counts[64];

static L take(L size) {
  int kind = 4;
  while (kind < 63 && ((L)1 << kind) < size) kind++;
  if (counts[kind]) return pieces[kind][--counts[kind]];
  L p = top + 16;
  top = p + ((L)1 << kind);
  if (top > END_AT) abort();
  P8(p - 16, (L)kind);
  return p;
}

static void give(L p) {
  L kind = R8(p - 16);
  if (kind > 63 || counts[kind] == 1 << 16) abort();
  pieces[kind][counts[kind]++] = p;
}

static void told(L to, L p) {
  P8(to, 1);
  P8(to + 8, p);
}

void rattle_alloc(L to, L size, L align) { told(to, take(size ? size : align)); }
void rattle_realloc(L to, L old, L kept, L size, L align) {
  L p = take(size ? size : align);
  move(p, old, kept < size ? kept : size);
  give(old);
  told(to, p);
}
void rattle_dealloc(L old) { give(old); }

/* --- the calls */

/* Memory at an address, of a file or of none; what is there already is in the way unless it is ours. */
static int has_memory(L from, L to, int file) {
  int flags = file < 0 ? MAP_PRIVATE | MAP_ANONYMOUS | MAP_NORESERVE | MAP_FIXED_NOREPLACE : MAP_SHARED | MAP_FIXED;
  void *p = (void *)(uintptr_t)from;
  return mmap(p, (size_t)(to - from), PROT_READ | PROT_WRITE, flags, file, 0) == p;
}

static I sum_of_memory(void) {
  I h = 0;
  for (L p = BASE_AT; p < top; p += 4) h = h * 31 + R4(p);
  return h;
}

/* Puts bytes into memory: AT:HEX,AT:HEX.. or - for none. */
static void poke(char *at) {
  while (*at && *at != '-') {
    L to = strtoull(at, &at, 10);
    for (at++; *at && *at != ','; at += 2) {
      char digits[3] = {at[0], at[1], 0};
      P1(to++, strtoul(digits, NULL, 16));
    }
    if (*at) at++;
  }
}

static void call(char *line) {
  L arguments[16] = {0};
  char *name = strtok(line, " "), *pokes = strtok(NULL, " "), *next;
  poke(pokes);
  for (int i = 0; i < 16 && (next = strtok(NULL, " \n")); i++) {
    arguments[i] = strtoull(next + (*next == '@'), NULL, 10);
    if (*next == '@') arguments[i] = R8(arguments[i]);
  }
  L result = call_code(name, arguments);
  printf("%s %llu %llu %u %llu\n", name, (unsigned long long)result, (unsigned long long)sum, sum_of_memory(), (unsigned long long)top);
  fflush(stdout);
}

int main(int count, char **words) {
  static char line[1 << 24];
  long logged = count == 4 ? strtol(words[2], NULL, 10) : -1;
  /* (before the C library's heap comes to lie there) */
  if (!has_memory(BASE_AT, LOG_END, -1)) return 2;
  FILE *file = count > 1 ? fopen(words[1], "r") : NULL;
  if (!file) return 2;
  for (int i = 0; i < WORDS; i++) {
    L x = causal_data[i].n, from = (L)(uintptr_t)causal_data;
    P8(BASE_AT + 8 * i, x - from <= 8 * WORDS ? x - from + BASE_AT : x);
  }
  for (long number = 0; fgets(line, sizeof line, file); number++) {
    if (number != logged) {
      call(line);
      continue;
    }
    int log = open(words[3], O_RDWR | O_CREAT | O_TRUNC, 0600);
    if (log < 0 || ftruncate(log, (off_t)(LOG_END - END_AT)) || !has_memory(END_AT, LOG_END, log)) return 2;
    log_at = END_AT;
    call(line);
    return 0;
  }
  return 0;
}
