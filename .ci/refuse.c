// Preloaded into a program, counts its calls of malloc and realloc, from 1, and refuses the one whose number stands in
// the variable REFUSED_CALL. Where it refuses, it writes a byte to descriptor 9.
#define _GNU_SOURCE
#include <dlfcn.h>
#include <errno.h>
#include <stddef.h>
#include <stdlib.h>
#include <unistd.h>

static unsigned long calls;
static unsigned long refused;

__attribute__((constructor)) static void prepare(void) {
  const char *number = getenv("REFUSED_CALL");
  refused = number ? strtoul(number, NULL, 10) : 0;
  calls = 0;
}

static int is_refused(void) {
  calls++;
  if (calls != refused) {
    return 0;
  }
  if (write(9, "x", 1) != 1) {
    _exit(99);
  }
  errno = ENOMEM;
  return 1;
}

void *malloc(size_t size) {
  static void *(*next)(size_t);
  if (!next) {
    next = (void *(*)(size_t))dlsym(RTLD_NEXT, "malloc");
  }
  return is_refused() ? NULL : next(size);
}

void *realloc(void *block, size_t size) {
  static void *(*next)(void *, size_t);
  if (!next) {
    next = (void *(*)(void *, size_t))dlsym(RTLD_NEXT, "realloc");
  }
  return is_refused() ? NULL : next(block, size);
}
