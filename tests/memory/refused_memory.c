// A shared object before the C library's calls for memory: it refuses the one whose number, counted from 1, is REFUSE_AT,
// and makes the file that REFUSED names. Where these aren't set it refuses none. All threads count together.
#include <errno.h>
#include <fcntl.h>
#include <stdlib.h>
#include <unistd.h>

void *__libc_malloc(size_t size);
void *__libc_calloc(size_t count, size_t size);
void *__libc_realloc(void *block, size_t size);
void *__libc_memalign(size_t align, size_t size);

static int is_refused(void) {
  static long number;
  const char *at = getenv("REFUSE_AT"), *mark = getenv("REFUSED");
  if (!at || !mark || __atomic_add_fetch(&number, 1, __ATOMIC_SEQ_CST) != atol(at))
    return 0;
  close(open(mark, O_WRONLY | O_CREAT | O_CLOEXEC, 0600));
  errno = ENOMEM;
  return 1;
}

void *malloc(size_t size) { return is_refused() ? NULL : __libc_malloc(size); }

void *calloc(size_t count, size_t size) { return is_refused() ? NULL : __libc_calloc(count, size); }

void *realloc(void *block, size_t size) { return is_refused() ? NULL : __libc_realloc(block, size); }

void *aligned_alloc(size_t align, size_t size) { return is_refused() ? NULL : __libc_memalign(align, size); }

int posix_memalign(void **block, size_t align, size_t size) {
  void *made = is_refused() ? NULL : __libc_memalign(align, size);
  if (!made)
    return ENOMEM;
  *block = made;
  return 0;
}
