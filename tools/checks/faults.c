/* Preloaded into a program, has its calls fail where the environment says so: ALLOCATION=N
   refuses the Nth allocation or growth of memory, FROM=N all from the Nth on; READ=N and WRITE=N fail the Nth read of
   standard input, and with TIMES=M those behind it, M in all, and the Nth write on standard output, with the error
   number FAULT, or with no byte where that is 0;
   READS=N and WRITES=N bound the bytes of each of these calls. STATX=N, OPEN=N, FILL=N (a write to another file),
   FCHMOD=N, LCHOWN=N, FSYNC=N, RENAME=N and UNLINK=N fail the Nth of these calls with the error number FAULT; with
   STOP=1 it isn't failed, but the program stopped before it by SIGSTOP. RUST=1 says that the program is one of Rust's
   compiler: it reads and writes by copies of the standard streams, and what Rust allocates before it has made both
   isn't counted, since Rust ends the process where that is refused. */
#define _GNU_SOURCE
#include <errno.h>
#include <fcntl.h>
#include <signal.h>
#include <stdarg.h>
#include <stddef.h>
#include <stdio.h>
#include <stdlib.h>
#include <sys/stat.h>
#include <sys/syscall.h>
#include <sys/uio.h>
#include <unistd.h>

extern void *__libc_malloc(size_t), *__libc_calloc(size_t, size_t), *__libc_realloc(void *, size_t);
enum {
  ALLOCATION, FROM, READ, TIMES, READS, WRITE, WRITES, FAULT, STOP,
  RUST, STATX, OPEN, FILL, FCHMOD, LCHOWN, FSYNC, RENAME, UNLINK
};
static const char *const names[] = {"ALLOCATION", "FROM", "READ", "TIMES", "READS", "WRITE", "WRITES", "FAULT", "STOP",
                                    "RUST", "STATX", "OPEN", "FILL", "FCHMOD", "LCHOWN", "FSYNC", "RENAME",
                                    "UNLINK"};
static long set[UNLINK + 1], calls[UNLINK + 1], allocations, reads, writes;
/* By which the program reads and writes, and whether its allocations are counted. */
static int input = STDIN_FILENO, output = STDOUT_FILENO, is_counting;

__attribute__((constructor)) static void begin(void) {
  for (int it = 0; it <= UNLINK; it++) {
    set[it] = getenv(names[it]) ? atol(getenv(names[it])) : 0;
    calls[it] = 0;
  }
  allocations = 0;
  is_counting = !set[RUST];
}

static int is_refused(void) {
  if (!is_counting) return 0;
  allocations++;
  if (allocations != set[ALLOCATION] && (set[FROM] == 0 || allocations < set[FROM])) return 0;
  errno = ENOMEM;
  return 1;
}

void *malloc(size_t size) { return is_refused() ? NULL : __libc_malloc(size); }
void *calloc(size_t count, size_t size) { return is_refused() ? NULL : __libc_calloc(count, size); }

void *realloc(void *old, size_t size) { return is_refused() ? NULL : __libc_realloc(old, size); }

/* Of the calls that Rust's copies of the standard streams are made by. */
int fcntl(int file, int command, ...) {
  va_list rest;
  va_start(rest, command);
  int made = (int)syscall(SYS_fcntl, file, command, va_arg(rest, long));
  va_end(rest);
  if (set[RUST] && command == F_DUPFD_CLOEXEC && file == STDIN_FILENO) input = made;
  if (set[RUST] && command == F_DUPFD_CLOEXEC && file == STDOUT_FILENO) output = made;
  is_counting = is_counting || (input != STDIN_FILENO && output != STDOUT_FILENO);
  return made;
}

static size_t bounded(size_t count, long most) { return most && count > (size_t)most ? (size_t)most : count; }

static ssize_t failed(void) {
  errno = (int)set[FAULT];
  return errno ? -1 : 0;
}

ssize_t read(int file, void *bytes, size_t count) {
  if (file == input && set[READ] && ++reads >= set[READ] && reads < set[READ] + (set[TIMES] ? set[TIMES] : 1))
    return failed();
  struct iovec part = {bytes, bounded(count, file == input ? set[READS] : 0)};
  return readv(file, &part, 1);
}

/* Whether this call of the kind fails. */
static int fails(int kind) {
  if (++calls[kind] != set[kind]) return 0;
  errno = (int)set[FAULT];
  return set[STOP] ? raise(SIGSTOP) : 1;
}

ssize_t write(int file, const void *bytes, size_t count) {
  if (file == output && ++writes == set[WRITE]) return failed();
  if (file > STDERR_FILENO && file != output && fails(FILL)) return -1;
  struct iovec part = {(void *)bytes, bounded(count, file == output ? set[WRITES] : 0)};
  return writev(file, &part, 1);
}

int open(const char *path, int flags, ...) {
  va_list rest;
  va_start(rest, flags);
  mode_t mode = flags & O_CREAT ? va_arg(rest, mode_t) : 0;
  va_end(rest);
  return fails(OPEN) ? -1 : openat(AT_FDCWD, path, flags, mode);
}

/* As Rust calls it. */
int open64(const char *path, int flags, ...) __attribute__((alias("open")));

int statx(int file, const char *restrict path, int flags, unsigned mask, struct statx *restrict found) {
  return fails(STATX) ? -1 : (int)syscall(SYS_statx, file, path, flags, mask, found);
}

int fchmod(int file, mode_t mode) { return fails(FCHMOD) ? -1 : (int)syscall(SYS_fchmod, file, mode); }
int lchown(const char *path, uid_t user, gid_t group) {
  return fails(LCHOWN) ? -1 : fchownat(AT_FDCWD, path, user, group, AT_SYMLINK_NOFOLLOW);
}
int fsync(int file) { return fails(FSYNC) ? -1 : (int)syscall(SYS_fsync, file); }
int rename(const char *from, const char *to) { return fails(RENAME) ? -1 : renameat(AT_FDCWD, from, AT_FDCWD, to); }
int unlink(const char *path) { return fails(UNLINK) ? -1 : unlinkat(AT_FDCWD, path, 0); }
