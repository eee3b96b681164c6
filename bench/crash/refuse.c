/* A shim before the system's malloc and realloc that refuses the allocation of the number in REFUSE, counted from the
   program's start: for bench/crash/refused-batches and bench/crash/refused-sessions. */
#define _GNU_SOURCE
#include <dlfcn.h>
#include <stdlib.h>
static long made = 0;
static int refused(void) {
  const char *n = getenv("REFUSE");
  return n && ++made == atol(n);
}
void *malloc(size_t size) {
  static void *(*real)(size_t) = 0;
  if (!real) real = dlsym(RTLD_NEXT, "malloc");
  return refused() ? 0 : real(size);
}
void *realloc(void *old, size_t size) {
  static void *(*real)(void *, size_t) = 0;
  if (!real) real = dlsym(RTLD_NEXT, "realloc");
  return refused() ? 0 : real(old, size);
}
