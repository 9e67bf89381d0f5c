/* Stands between a program and the C library, as LD_PRELOAD, and fails the calls that the environment
   names: the growth of memory FAIL_GROWTH, the open or read FAIL_READ, the write FAIL_WRITE, each counted
   from 1. With STEP no read gives and no write takes more bytes than that. At the end the file TOLD gets
   how often the program grew its memory, how often it opened or read, how often it wrote, and how many
   blocks of memory it still held. */
#define _GNU_SOURCE
#include <errno.h>
#include <fcntl.h>
#include <stdarg.h>
#include <stdio.h>
#include <stdlib.h>
#include <sys/syscall.h>
#include <unistd.h>

void *__libc_malloc(size_t size);
void *__libc_calloc(size_t count, size_t size);
void *__libc_realloc(void *block, size_t size);
void __libc_free(void *block);

static long growths, reads, writes, held;
static long fail_growth, fail_read, fail_write, step;
static int counting;

static long number(const char *name) {
  const char *text = getenv(name);
  return text ? atol(text) : 0;
}

__attribute__((constructor)) static void begin(void) {
  fail_growth = number("FAIL_GROWTH");
  fail_read = number("FAIL_READ");
  fail_write = number("FAIL_WRITE");
  step = number("STEP");
  counting = 1;
}

__attribute__((destructor)) static void end(void) {
  char text[100];
  const char *told = getenv("TOLD");
  counting = 0;
  if (!told) return;
  int size = snprintf(text, sizeof text, "%ld %ld %ld %ld\n", growths, reads, writes, held);
  int file = syscall(SYS_openat, AT_FDCWD, told, O_WRONLY | O_CREAT | O_TRUNC, 0600);
  if (file >= 0) syscall(SYS_write, file, text, size);
}

/* A program that may start threads ends so, and no destructor is called. */
void _exit(int status) {
  end();
  for (;;) syscall(SYS_exit_group, status);
}

static int is_next(long *count, long failing) {
  return counting && __atomic_add_fetch(count, 1, __ATOMIC_SEQ_CST) == failing;
}

static void *kept(void *block, long more) {
  if (counting && block) __atomic_add_fetch(&held, more, __ATOMIC_SEQ_CST);
  return block;
}

static int refuses(void) {
  if (!is_next(&growths, fail_growth)) return 0;
  errno = ENOMEM;
  return 1;
}

void *malloc(size_t size) { return refuses() ? NULL : kept(__libc_malloc(size), 1); }

void *calloc(size_t count, size_t size) {
  return refuses() ? NULL : kept(__libc_calloc(count, size), 1);
}

void *realloc(void *block, size_t size) {
  return refuses() ? NULL : kept(__libc_realloc(block, size), block ? 0 : 1);
}

void free(void *block) {
  kept(block, -1);
  __libc_free(block);
}

static size_t at_most(size_t size) { return step && size > (size_t)step ? (size_t)step : size; }

static int fails(long *count, long failing) {
  if (!is_next(count, failing)) return 0;
  errno = EIO;
  return 1;
}

ssize_t read(int file, void *bytes, size_t size) {
  if (fails(&reads, fail_read)) return -1;
  return syscall(SYS_read, file, bytes, at_most(size));
}

ssize_t write(int file, const void *bytes, size_t size) {
  if (fails(&writes, fail_write)) return -1;
  return syscall(SYS_write, file, bytes, at_most(size));
}

static int opened(int folder, const char *name, int flags, int mode) {
  if (fails(&reads, fail_read)) return -1;
  return syscall(SYS_openat, folder, name, flags, mode);
}

#define MODE(last) \
  va_list more;    \
  va_start(more, last); \
  int mode = va_arg(more, int); \
  va_end(more)

int open(const char *name, int flags, ...) {
  MODE(flags);
  return opened(AT_FDCWD, name, flags, mode);
}

int openat(int folder, const char *name, int flags, ...) {
  MODE(flags);
  return opened(folder, name, flags, mode);
}

int open64(const char *name, int flags, ...) {
  MODE(flags);
  return opened(AT_FDCWD, name, flags, mode);
}

int openat64(int folder, const char *name, int flags, ...) {
  MODE(flags);
  return opened(folder, name, flags, mode);
}
