/* A library that is loaded before a program and tells, on standard error at its end, how often memory was asked for, and how many pages
   were touched for the first time between the first and the last write to a file that the program opened:
   `cc -shared -fPIC -O1 -o memory.so bench/memory.c; LD_PRELOAD=$PWD/memory.so ardour_engine export s.toml 0 100000 > run.report`. */
#define _GNU_SOURCE
#include <stddef.h>
#include <stdio.h>
#include <sys/resource.h>
#include <sys/syscall.h>
#include <unistd.h>

extern void *__libc_malloc(size_t), *__libc_calloc(size_t, size_t), *__libc_realloc(void *, size_t), *__libc_memalign(size_t, size_t);

static unsigned long asked;
static long first = -1, last;

static long touched(void) {
  struct rusage r;
  getrusage(RUSAGE_SELF, &r);
  return r.ru_minflt;
}

void *malloc(size_t n) { return ++asked, __libc_malloc(n); }
void *calloc(size_t m, size_t n) { return ++asked, __libc_calloc(m, n); }
void *realloc(void *p, size_t n) { return ++asked, __libc_realloc(p, n); }
void *aligned_alloc(size_t a, size_t n) { return ++asked, __libc_memalign(a, n); }

int posix_memalign(void **p, size_t a, size_t n) {
  ++asked;
  *p = __libc_memalign(a, n);
  return *p ? 0 : 12;
}

ssize_t write(int file, const void *bytes, size_t n) {
  if (file > 2) {
    last = touched();
    if (first < 0) first = last;
  }
  return syscall(SYS_write, file, bytes, n);
}

__attribute__((destructor)) static void tell(void) {
  char line[80];
  int n = snprintf(line, sizeof line, "allocations %lu pages %ld\n", asked, first < 0 ? 0 : last - first);
  syscall(SYS_write, 2, line, n);
}
