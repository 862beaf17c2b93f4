// Loaded before the C library, it refuses one allocation of a program: the one whose number the environment gives.
#define _GNU_SOURCE
#include <errno.h>
#include <fcntl.h>
#include <stdatomic.h>
#include <stddef.h>
#include <stdio.h>
#include <stdlib.h>
#include <sys/syscall.h>
#include <unistd.h>

extern void *__libc_malloc(size_t);
extern void *__libc_calloc(size_t, size_t);
extern void *__libc_realloc(void *, size_t);
extern void *__libc_memalign(size_t, size_t);

static atomic_long asked;
static atomic_long refused_at = -1;

static int is_refused(void) {
  long at = atomic_load(&refused_at);
  if (at < 0) {
    const char *text = getenv("REFUSED_AT");
    at = text ? atol(text) : 0;
    atomic_store(&refused_at, at);
  }
  if (atomic_fetch_add(&asked, 1) + 1 != at) {
    return 0;
  }
  errno = ENOMEM;
  return 1;
}

void *malloc(size_t size) { return is_refused() ? NULL : __libc_malloc(size); }

void *calloc(size_t count, size_t size) { return is_refused() ? NULL : __libc_calloc(count, size); }

void *realloc(void *old, size_t size) { return is_refused() ? NULL : __libc_realloc(old, size); }

void *aligned_alloc(size_t alignment, size_t size) { return is_refused() ? NULL : __libc_memalign(alignment, size); }

int posix_memalign(void **result, size_t alignment, size_t size) {
  if (is_refused()) {
    return ENOMEM;
  }
  *result = __libc_memalign(alignment, size);
  return *result ? 0 : ENOMEM;
}

// Writes into a file how many allocations were asked for.
static void tell(void) {
  const char *path = getenv("REFUSED_COUNT");
  int file = path ? open(path, O_WRONLY | O_CREAT | O_TRUNC, 0600) : -1;
  if (file >= 0) {
    dprintf(file, "%ld\n", atomic_load(&asked));
    close(file);
  }
}

// The program ends by this call, which runs no destructor.
void _exit(int status) {
  tell();
  syscall(SYS_exit_group, status);
  __builtin_unreachable();
}
