/* Preloaded before a program: between a `+` and a `-` that it writes on standard error, or from its start where WHOLE is
   there, its allocations are counted, and the one whose number REFUSED says gets nothing. The count is written into the file COUNTED at the end. Where REFUSED isn't
   there, or 0, each gets its memory. */
#define _GNU_SOURCE
#include <dlfcn.h>
#include <errno.h>
#include <stdio.h>
#include <stdlib.h>
#include <string.h>
#include <sys/syscall.h>
#include <sys/uio.h>
#include <unistd.h>

static long counted, refused = -1;
static int counts = -1;

extern void *__libc_malloc(size_t);
extern void *__libc_calloc(size_t, size_t);
extern void *__libc_realloc(void *, size_t);
extern void *__libc_memalign(size_t, size_t);

static int is_refused(void) {
  if (counts < 0) counts = getenv("WHOLE") != NULL;
  if (!counts) return 0;
  if (refused < 0) {
    const char *word = getenv("REFUSED");
    refused = word ? atol(word) : 0;
  }
  if (++counted != refused) return 0;
  errno = ENOMEM;
  return 1;
}

void *malloc(size_t size) { return is_refused() ? NULL : __libc_malloc(size); }

void *calloc(size_t count, size_t size) { return is_refused() ? NULL : __libc_calloc(count, size); }

void *realloc(void *old, size_t size) { return is_refused() ? NULL : __libc_realloc(old, size); }

void *aligned_alloc(size_t align, size_t size) { return is_refused() ? NULL : __libc_memalign(align, size); }

int posix_memalign(void **out, size_t align, size_t size) {
  if (is_refused()) return ENOMEM;
  *out = __libc_memalign(align, size);
  return *out ? 0 : ENOMEM;
}

ssize_t write(int fd, const void *bytes, size_t length) {
  if (fd == 2 && length == 1) {
    char sign = *(const char *)bytes;
    if (sign == '+' || sign == '-') {
      counts = sign == '+';
      return 1;
    }
  }
  return syscall(SYS_write, fd, bytes, length);
}

__attribute__((destructor)) static void tell(void) {
  const char *path = getenv("COUNTED");
  FILE *file = path ? fopen(path, "w") : NULL;
  if (file) {
    fprintf(file, "%ld\n", counted);
    fclose(file);
  }
}
