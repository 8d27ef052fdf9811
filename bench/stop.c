/* Stops one call of a program that it is loaded into: the call named in CALL (open, write, fchmod, ftruncate, fsync, rename) whose number
   among those of that name stands in WHEN, or each of them where WHEN is 0. HOW is the number of the error that the call answers; or
   `kill`, and the process is killed before it; or `skip`, and the call does nothing and answers that it is done. With LOG, the calls that
   were done are written to the file of that name, a line each: `fsync` with `file` or `folder`. Writes to standard output and standard error
   are not counted, and of the calls of `open` only those that make a new file which must not be there. */
#define _GNU_SOURCE
#include <dlfcn.h>
#include <errno.h>
#include <fcntl.h>
#include <signal.h>
#include <stdarg.h>
#include <stdio.h>
#include <stdlib.h>
#include <string.h>
#include <sys/stat.h>
#include <unistd.h>

enum fate { GOES_ON, FAILS, IS_SKIPPED };

static long made;

static void *real(const char *name) { return dlsym(RTLD_NEXT, name); }

static void note(const char *name, const char *what) {
  const char *log = getenv("LOG");
  if (!log) return;
  int file = ((int (*)(const char *, int, mode_t))real("open"))(log, O_WRONLY | O_CREAT | O_APPEND, 0600);
  if (file < 0) abort();
  dprintf(file, "%s%s\n", name, what);
  close(file);
}

static enum fate fate_of(const char *name) {
  const char *call = getenv("CALL"), *when = getenv("WHEN"), *how = getenv("HOW");
  if (!call || !when || !how || strcmp(call, name)) return GOES_ON;
  made += 1;
  if (atol(when) && made != atol(when)) return GOES_ON;
  if (made == 1 || atol(when)) fprintf(stderr, "stopped\n");
  if (!strcmp(how, "kill")) kill(getpid(), SIGKILL);
  if (!strcmp(how, "skip")) return IS_SKIPPED;
  errno = atoi(how);
  return FAILS;
}

static int opened(const char *name, int folder, const char *path, int flags, mode_t mode) {
  int file;
  if ((flags & O_EXCL) && fate_of("open") == FAILS) return -1;
  if (!strcmp(name, "openat") || !strcmp(name, "openat64"))
    file = ((int (*)(int, const char *, int, mode_t))real(name))(folder, path, flags, mode);
  else
    file = ((int (*)(const char *, int, mode_t))real(name))(path, flags, mode);
  if ((flags & O_EXCL) && file >= 0) note("open", "");
  return file;
}

#define MODE(flags) \
  mode_t mode = 0; \
  if ((flags) & (O_CREAT | O_TMPFILE)) { \
    va_list rest; \
    va_start(rest, flags); \
    mode = va_arg(rest, mode_t); \
    va_end(rest); \
  }

int open(const char *path, int flags, ...) { MODE(flags) return opened("open", 0, path, flags, mode); }
int open64(const char *path, int flags, ...) { MODE(flags) return opened("open64", 0, path, flags, mode); }
int openat(int folder, const char *path, int flags, ...) { MODE(flags) return opened("openat", folder, path, flags, mode); }
int openat64(int folder, const char *path, int flags, ...) { MODE(flags) return opened("openat64", folder, path, flags, mode); }

ssize_t write(int file, const void *bytes, size_t count) {
  if (file > 2) {
    enum fate fate = fate_of("write");
    if (fate != GOES_ON) return fate == FAILS ? -1 : (ssize_t)count;
    note("write", "");
  }
  return ((ssize_t(*)(int, const void *, size_t))real("write"))(file, bytes, count);
}

int fchmod(int file, mode_t mode) {
  enum fate fate = fate_of("fchmod");
  if (fate != GOES_ON) return fate == FAILS ? -1 : 0;
  note("fchmod", "");
  return ((int (*)(int, mode_t))real("fchmod"))(file, mode);
}

static int cut(const char *name, int file, off_t length) {
  enum fate fate = fate_of("ftruncate");
  if (fate != GOES_ON) return fate == FAILS ? -1 : 0;
  note("ftruncate", "");
  return ((int (*)(int, off_t))real(name))(file, length);
}

int ftruncate(int file, off_t length) { return cut("ftruncate", file, length); }
int ftruncate64(int file, off_t length) { return cut("ftruncate64", file, length); }

int fsync(int file) {
  enum fate fate = fate_of("fsync");
  if (fate != GOES_ON) return fate == FAILS ? -1 : 0;
  struct stat known;
  note("fsync", fstat(file, &known) == 0 && S_ISDIR(known.st_mode) ? " folder" : " file");
  return ((int (*)(int))real("fsync"))(file);
}

int rename(const char *from, const char *to) {
  enum fate fate = fate_of("rename");
  if (fate != GOES_ON) return fate == FAILS ? -1 : 0;
  note("rename", "");
  return ((int (*)(const char *, const char *))real("rename"))(from, to);
}
