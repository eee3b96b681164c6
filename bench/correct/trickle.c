/* A shim before the system's read of standard input and its write of standard output, for bench/correct/words: at most
   MOST bytes are given and taken at a call. Once so many bytes were read as READ begins with, one read fails by the
   error number behind it; so does one write, as WRITE has it, or takes nothing where that number is 0; and so does a
   read at a place of a file behind so many such reads as PLACE begins with. */
#define _GNU_SOURCE
#include <dlfcn.h>
#include <errno.h>
#include <stdio.h>
#include <stdlib.h>
#include <unistd.h>
struct end {
  ssize_t moved;
  int has_failed;
};
static size_t most(size_t size) {
  const char *text = getenv("MOST");
  size_t least = text ? strtoul(text, 0, 10) : size;
  return size < least ? size : least;
}
/* The number of the error of this call, 0 where it takes nothing, and -1 where it does not fail. */
static int failure(struct end *end, const char *name) {
  const char *text = getenv(name);
  long at;
  int number;
  if (end->has_failed || !text || sscanf(text, "%ld %d", &at, &number) != 2 || at != end->moved) return -1;
  end->has_failed = 1;
  return number;
}
ssize_t read(int file, void *bytes, size_t size) {
  static struct end in;
  static ssize_t (*real)(int, void *, size_t) = 0;
  int number;
  if (!real) real = dlsym(RTLD_NEXT, "read");
  if (file) return real(file, bytes, size);
  if ((number = failure(&in, "READ")) > 0) return errno = number, -1;
  ssize_t count = real(file, bytes, most(size));
  if (count > 0) in.moved += count;
  return count;
}
ssize_t write(int file, const void *bytes, size_t size) {
  static struct end out;
  static ssize_t (*real)(int, const void *, size_t) = 0;
  int number;
  if (!real) real = dlsym(RTLD_NEXT, "write");
  if (file != 1) return real(file, bytes, size);
  if ((number = failure(&out, "WRITE")) >= 0) return errno = number, number ? -1 : 0;
  ssize_t count = real(file, bytes, most(size));
  if (count > 0) out.moved += count;
  return count;
}
ssize_t pread64(int file, void *bytes, size_t size, off_t place) {
  static struct end places;
  static ssize_t (*real)(int, void *, size_t, off_t) = 0;
  int number;
  if (!real) real = dlsym(RTLD_NEXT, "pread64");
  if ((number = failure(&places, "PLACE")) > 0) return errno = number, -1;
  places.moved++;
  return real(file, bytes, size, place);
}
ssize_t pread(int file, void *bytes, size_t size, off_t place) {
  return pread64(file, bytes, size, place);
}
