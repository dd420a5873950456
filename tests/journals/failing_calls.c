// A shared object before the C library's calls on files: it writes a letter for each into the file that CALLS names, and
// fails those whose numbers, counted from 1, stand in FAIL_AT, with the number FAIL_WITH of an error. These count: pwrite
// (w), fdatasync (s), ftruncate (t), fsync (f) and the advice to forget what a file has in memory, posix_fadvise (d). A
// pread is an r and a write to standard output an a, and they don't count. Where FAIL_PART is there a pwrite that fails
// writes three quarters of its bytes before. The paths of what an fsync is called for go into the file that SYNCED names,
// a line each.
#define _GNU_SOURCE
#include <dlfcn.h>
#include <errno.h>
#include <fcntl.h>
#include <stdio.h>
#include <stdlib.h>
#include <string.h>
#include <sys/syscall.h>
#include <unistd.h>

static int opened(const char *name) {
  const char *path = getenv(name);
  return path ? open(path, O_WRONLY | O_CREAT | O_APPEND | O_CLOEXEC, 0600) : -1;
}

static void note(const char *letter) {
  static int calls = -1;
  if (calls < 0)
    calls = opened("CALLS");
  if (calls >= 0)
    syscall(SYS_write, calls, letter, strlen(letter));
}

// Notes the path of what a descriptor stands for.
static void note_path(int file) {
  char link[64], path[4096];
  int synced = opened("SYNCED");
  snprintf(link, sizeof link, "/proc/self/fd/%d", file);
  ssize_t length = readlink(link, path, sizeof path - 1);
  if (synced >= 0 && length > 0) {
    path[length] = '\n';
    syscall(SYS_write, synced, path, length + 1);
  }
  if (synced >= 0)
    close(synced);
}

// Counts a call, and says whether it is to fail.
static int fails(const char *letter, const char *failed) {
  static long number = 0;
  const char *at = getenv("FAIL_AT");
  number++;
  while (at && *at) {
    char *end;
    if (strtol(at, &end, 10) == number) {
      note(failed);
      errno = atoi(getenv("FAIL_WITH"));
      return 1;
    }
    at = *end == ',' ? end + 1 : "";
  }
  note(letter);
  return 0;
}

#define REAL(name, type) ((type)dlsym(RTLD_NEXT, name))

ssize_t pwrite(int file, const void *piece, size_t size, off_t place) {
  int failed = fails("w", "W"), error = errno;
  if (failed && !getenv("FAIL_PART"))
    return -1;
  ssize_t done = REAL("pwrite", ssize_t (*)(int, const void *, size_t, off_t))(file, piece, failed ? size / 4 * 3 : size, place);
  if (!failed)
    return done;
  errno = error;
  return -1;
}

ssize_t pwrite64(int file, const void *piece, size_t size, off_t place) { return pwrite(file, piece, size, place); }

int fdatasync(int file) { return fails("s", "S") ? -1 : REAL("fdatasync", int (*)(int))(file); }

int fsync(int file) {
  note_path(file);
  return fails("f", "F") ? -1 : REAL("fsync", int (*)(int))(file);
}

int ftruncate(int file, off_t size) { return fails("t", "T") ? -1 : REAL("ftruncate", int (*)(int, off_t))(file, size); }

int ftruncate64(int file, off_t size) { return ftruncate(file, size); }

// (it answers the number of an error; another advice is no d)
int posix_fadvise(int file, off_t place, off_t size, int advice) {
  if (advice == POSIX_FADV_DONTNEED && place == 0 && size == 0 && fails("d", "D"))
    return errno;
  return REAL("posix_fadvise", int (*)(int, off_t, off_t, int))(file, place, size, advice);
}

int posix_fadvise64(int file, off_t place, off_t size, int advice) { return posix_fadvise(file, place, size, advice); }

ssize_t pread(int file, void *out, size_t size, off_t place) {
  note("r");
  return REAL("pread", ssize_t (*)(int, void *, size_t, off_t))(file, out, size, place);
}

ssize_t pread64(int file, void *out, size_t size, off_t place) { return pread(file, out, size, place); }

ssize_t write(int file, const void *piece, size_t size) {
  if (file == 1)
    note("a");
  return REAL("write", ssize_t (*)(int, const void *, size_t))(file, piece, size);
}
