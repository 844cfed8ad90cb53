/*
 * Calls that fail late, as those of a file system may that finds only then that the bytes have no room. For LD_PRELOAD; the variable
 * FAILS names the call: close (of what was written, and not of standard error), fsync or rename, which fails with the error of the number
 * ERROR, if that is given; or read, write or fsync, of which the first so many as INTERRUPTIONS says are interrupted by a signal, but for
 * those to standard error. All others do their work.
 */
#define _GNU_SOURCE
#include <errno.h>
#include <fcntl.h>
#include <stdio.h>
#include <stdlib.h>
#include <string.h>
#include <sys/syscall.h>
#include <unistd.h>

static int fails(const char *call) {
  const char *named = getenv("FAILS");
  return named != NULL && strcmp(named, call) == 0;
}

static int was_written(int descriptor) {
  int flags = fcntl(descriptor, F_GETFL);
  return descriptor != STDERR_FILENO && flags >= 0 && (flags & O_ACCMODE) != O_RDONLY;
}

static int is_interrupted(const char *call, int descriptor) {
  static long interrupted = 0;
  const char *interruptions = getenv("INTERRUPTIONS");
  return descriptor != STDERR_FILENO && fails(call) && interruptions != NULL && interrupted++ < atol(interruptions);
}

static int with_error(int error) {
  errno = error;
  return -1;
}

static int with_named_error(int usual) {
  const char *named = getenv("ERROR");
  return with_error(named != NULL ? atoi(named) : usual);
}

ssize_t read(int descriptor, void *bytes, size_t size) {
  return is_interrupted("read", descriptor) ? with_error(EINTR) : syscall(SYS_read, descriptor, bytes, size);
}

ssize_t write(int descriptor, const void *bytes, size_t size) {
  return is_interrupted("write", descriptor) ? with_error(EINTR) : syscall(SYS_write, descriptor, bytes, size);
}

int close(int descriptor) {
  int written = was_written(descriptor);
  int closed = (int)syscall(SYS_close, descriptor);
  return written && fails("close") ? with_named_error(EDQUOT) : closed;
}

int fsync(int descriptor) {
  if (is_interrupted("fsync", descriptor)) return with_error(EINTR);
  return fails("fsync") && getenv("INTERRUPTIONS") == NULL ? with_named_error(EIO) : (int)syscall(SYS_fsync, descriptor);
}

int rename(const char *old, const char *new) { return fails("rename") ? with_named_error(EROFS) : (int)syscall(SYS_rename, old, new); }
