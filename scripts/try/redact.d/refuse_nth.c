// A heap for a whole program: where the variable REFUSES says N, it refuses the N-th growth and no other, and then makes the file
// that the variable REFUSED names.
#include <fcntl.h>
#include <stdlib.h>
#include <unistd.h>
void *__libc_malloc(size_t);
void *__libc_realloc(void *, size_t);
static long left;
__attribute__((constructor)) static void arm(void) {
  const char *given = getenv("REFUSES");
  left = given ? atol(given) : 0;
}
static int refuses(void) {
  if (!left || --left) return 0;
  const char *name = getenv("REFUSED");
  int file = name ? creat(name, 0600) : -1;
  if (file >= 0) close(file);
  return 1;
}
void *malloc(size_t n) { return refuses() ? NULL : __libc_malloc(n); }
void *realloc(void *p, size_t n) { return refuses() ? NULL : __libc_realloc(p, n); }
