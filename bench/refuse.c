// Passes calls on to the allocator of the C library, but for the one whose number REFUSED has, counted from 1; then it writes a byte to
// descriptor 9. The scripts that refuse allocations put it before a program by LD_PRELOAD.
#define _GNU_SOURCE
#include <dlfcn.h>
#include <stdlib.h>
#include <unistd.h>

static long calls;

static int refuses(void) {
  const char *number = getenv("REFUSED");
  if (__atomic_add_fetch(&calls, 1, __ATOMIC_SEQ_CST) != (number ? atol(number) : 0)) return 0;
  return write(9, "x", 1) == 1;
}

void *malloc(size_t size) {
  static void *(*real)(size_t);
  if (!real) real = dlsym(RTLD_NEXT, "malloc");
  return refuses() ? NULL : real(size);
}

void *realloc(void *block, size_t size) {
  static void *(*real)(void *, size_t);
  if (!real) real = dlsym(RTLD_NEXT, "realloc");
  return refuses() ? NULL : real(block, size);
}
