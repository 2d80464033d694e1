// Counts the memory of the heap's blocks, with the 8 bytes that the C library has before each, in the file that HEAP_USE names.
#include <fcntl.h>
#include <malloc.h>
#include <stdlib.h>
#include <sys/mman.h>
#include <unistd.h>
void *__libc_malloc(size_t);
void *__libc_calloc(size_t, size_t);
void *__libc_realloc(void *, size_t);
void __libc_free(void *);
static long early, *used = &early;
static long size_of(void *p) { return p ? (long)malloc_usable_size(p) + 8 : 0; }
static void *taken(void *p) { return *used += size_of(p), p; }
__attribute__((constructor)) static void begin(void) {
  const char *name = getenv("HEAP_USE");
  int file = name ? open(name, O_RDWR) : -1;
  void *page = file < 0 ? MAP_FAILED : mmap(NULL, sizeof early, PROT_READ | PROT_WRITE, MAP_SHARED, file, 0);
  if (page == MAP_FAILED) return;
  used = page;
  *used = early;
  close(file);
}
void *malloc(size_t n) { return taken(__libc_malloc(n)); }
void *calloc(size_t n, size_t size) { return taken(__libc_calloc(n, size)); }
void free(void *p) { *used -= size_of(p), __libc_free(p); }
void *realloc(void *p, size_t n) {
  long before = size_of(p);
  void *moved = __libc_realloc(p, n);
  if (moved || !n) *used += size_of(moved) - before;
  return moved;
}
