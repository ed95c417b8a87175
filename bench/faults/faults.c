// A library that is loaded before others, and has the call of a number fail: FAULT_KIND is `alloc`, `open`, `read`,
// `write` or `connect`, and FAULT_AT its number from 1, or 0 for none. Where FAULT_COUNT names a file, the number of calls
// of the kind is written there at the end.
#define _GNU_SOURCE
#include <errno.h>
#include <fcntl.h>
#include <stdarg.h>
#include <stdlib.h>
#include <string.h>
#include <sys/socket.h>
#include <sys/syscall.h>
#include <unistd.h>

void *__libc_malloc(size_t);
void *__libc_calloc(size_t, size_t);
void *__libc_realloc(void *, size_t);
void *__libc_memalign(size_t, size_t);

static const char *kind;
static long at, calls;
static int ready;

__attribute__((constructor)) static void begin(void) {
  const char *number = getenv("FAULT_AT");
  kind = getenv("FAULT_KIND");
  at = number ? atol(number) : 0;
  ready = kind != NULL;
}

// Whether this call of a kind is the one that fails.
static int fails(const char *this_kind) {
  return ready && strcmp(kind, this_kind) == 0 && ++calls == at;
}

__attribute__((destructor)) static void end(void) {
  const char *name = getenv("FAULT_COUNT");
  char digits[24];
  int length = 0;
  long left = calls;
  if (name == NULL) return;
  do digits[sizeof digits - ++length] = '0' + left % 10;
  while ((left /= 10) > 0);
  int file = syscall(SYS_openat, AT_FDCWD, name, O_WRONLY | O_CREAT | O_TRUNC, 0644);
  if (file >= 0) syscall(SYS_write, file, digits + sizeof digits - length, length);
}

void *malloc(size_t size) {
  if (fails("alloc")) { errno = ENOMEM; return NULL; }
  return __libc_malloc(size);
}

void *calloc(size_t count, size_t size) {
  if (fails("alloc")) { errno = ENOMEM; return NULL; }
  return __libc_calloc(count, size);
}

void *realloc(void *old, size_t size) {
  if (fails("alloc")) { errno = ENOMEM; return NULL; }
  return __libc_realloc(old, size);
}

void *aligned_alloc(size_t alignment, size_t size) {
  if (fails("alloc")) { errno = ENOMEM; return NULL; }
  return __libc_memalign(alignment, size);
}

int posix_memalign(void **to, size_t alignment, size_t size) {
  if (fails("alloc")) return ENOMEM;
  *to = __libc_memalign(alignment, size);
  return *to ? 0 : ENOMEM;
}

static int opened(int folder, const char *path, int flags, va_list more) {
  int mode = flags & (O_CREAT | O_TMPFILE) ? va_arg(more, int) : 0;
  if (fails("open")) { errno = EIO; return -1; }
  return syscall(SYS_openat, folder, path, flags, mode);
}

int open(const char *path, int flags, ...) {
  va_list more;
  va_start(more, flags);
  int file = opened(AT_FDCWD, path, flags, more);
  va_end(more);
  return file;
}

int open64(const char *path, int flags, ...) {
  va_list more;
  va_start(more, flags);
  int file = opened(AT_FDCWD, path, flags, more);
  va_end(more);
  return file;
}

int openat(int folder, const char *path, int flags, ...) {
  va_list more;
  va_start(more, flags);
  int file = opened(folder, path, flags, more);
  va_end(more);
  return file;
}

ssize_t read(int file, void *to, size_t most) {
  if (fails("read")) { errno = EIO; return -1; }
  return syscall(SYS_read, file, to, most);
}

ssize_t write(int file, const void *from, size_t many) {
  if (fails("write")) { errno = EIO; return -1; }
  return syscall(SYS_write, file, from, many);
}

int connect(int link, const struct sockaddr *to, socklen_t size) {
  if (fails("connect")) { errno = EIO; return -1; }
  return syscall(SYS_connect, link, to, size);
}
