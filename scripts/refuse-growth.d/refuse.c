// A heap that refuses the n-th growth from when it is armed. A program arms it by asking for ARMS + n bytes, which no heap
// has, and asks by ASKS bytes whether one was refused since; without this library both are refused, and nothing else is.
#include <stddef.h>
#define ARMS 0x4000000000000000ul
#define ASKS 0x5000000000000000ul
void *__libc_malloc(size_t);
void *__libc_realloc(void *, size_t);
static size_t left;
static int refused;
static int refuses(void) { return left && --left == 0 && (refused = 1); }
void *malloc(size_t n) {
  if (n >= ASKS) return refused ? __libc_malloc(1) : NULL;
  if (n >= ARMS) { left = n - ARMS; refused = 0; return NULL; }
  return refuses() ? NULL : __libc_malloc(n);
}
void *realloc(void *p, size_t n) { return refuses() ? NULL : __libc_realloc(p, n); }
