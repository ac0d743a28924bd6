/* Refuses memory: the allocation numbered REFUSE, counted from 1, and with REFUSE_ALL each one after it too. Where it
   refuses one, it makes the file REFUSED. Loaded before the C library by LD_PRELOAD. */
#define _GNU_SOURCE
#include <dlfcn.h>
#include <errno.h>
#include <fcntl.h>
#include <stdlib.h>
#include <unistd.h>

static unsigned long count, number;
static int all, is_read;

static int is_refused(void) {
  if (!is_read) {
    const char *said = getenv("REFUSE");
    number = said ? strtoul(said, NULL, 10) : 0;
    all = getenv("REFUSE_ALL") != NULL;
    is_read = 1;
  }
  count++;
  if (number == 0 || !(count == number || (all && count > number))) return 0;
  const char *mark = getenv("REFUSED");
  int file = mark ? open(mark, O_CREAT | O_WRONLY, 0600) : -1;
  if (file >= 0) close(file);
  errno = ENOMEM;
  return 1;
}

void *malloc(size_t size) {
  static void *(*next)(size_t);
  if (!next) next = (void *(*)(size_t))dlsym(RTLD_NEXT, "malloc");
  return is_refused() ? NULL : next(size);
}

void *realloc(void *was, size_t size) {
  static void *(*next)(void *, size_t);
  if (!next) next = (void *(*)(void *, size_t))dlsym(RTLD_NEXT, "realloc");
  return is_refused() ? NULL : next(was, size);
}
