/* Preloaded into a program, lets one of its calls on files go wrong. Calls of read, pread, write, pwrite, fsync, fdatasync and ftruncate
   that return into the program's own image are numbered from 1, but for those on its standard input, output and error.

   FAILED_FILES names a file of three numbers, as the machine keeps a uint64_t: how many calls were made, which of them goes wrong, and
   how. With no such file nothing goes wrong.

   What pwrite and ftruncate change is noted until the file is synced, so that it can be lost as it is when the power is cut. */
#define _GNU_SOURCE
#include <dlfcn.h>
#include <errno.h>
#include <signal.h>
#include <stdint.h>
#include <stdlib.h>
#include <sys/stat.h>
#include <unistd.h>

#include "image.h"

/* How a call goes wrong: it fails, it finds no room, it moves one byte; the program is killed before it, or when half of its bytes are
   moved; or it is killed before it, and what was not synced is lost, or all of that but the last change. */
enum way { FAILS = 1, FULL, SHORT, KILLED, TORN, LOST, LOST_BUT_LAST };

struct account {
  uint64_t made, wrong, way;
};

/* A change of a file that was not synced: where it is, and of how many bytes, ALL where the file was cut there; how long the file was, and
   the bytes that it had there. */
struct change {
  struct change *before;
  int file;
  off_t at, length;
  size_t asked, size;
  char bytes[];
};

#define ALL SIZE_MAX

static struct account nothing;
static struct account *account;
static struct change *changes;

static ssize_t (*next_read)(int, void *, size_t);
static ssize_t (*next_pread)(int, void *, size_t, off_t);
static ssize_t (*next_write)(int, const void *, size_t);
static ssize_t (*next_pwrite)(int, const void *, size_t, off_t);
static int (*next_fsync)(int);
static int (*next_fdatasync)(int);
static int (*next_ftruncate)(int, off_t);

__attribute__((constructor)) static void begin(void) {
  if (account) return;
  next_read = (ssize_t(*)(int, void *, size_t))dlsym(RTLD_NEXT, "read");
  next_pread = (ssize_t(*)(int, void *, size_t, off_t))dlsym(RTLD_NEXT, "pread");
  next_write = (ssize_t(*)(int, const void *, size_t))dlsym(RTLD_NEXT, "write");
  next_pwrite = (ssize_t(*)(int, const void *, size_t, off_t))dlsym(RTLD_NEXT, "pwrite");
  next_fsync = (int (*)(int))dlsym(RTLD_NEXT, "fsync");
  next_fdatasync = (int (*)(int))dlsym(RTLD_NEXT, "fdatasync");
  next_ftruncate = (int (*)(int, off_t))dlsym(RTLD_NEXT, "ftruncate");
  account = open_account("FAILED_FILES", &nothing, sizeof nothing);
}

/* Notes the bytes of a file that are about to be changed, which are so many, or all from there on. */
static void note(int file, off_t at, size_t asked) {
  struct stat told;
  if (fstat(file, &told)) abort();
  size_t left = at < told.st_size ? told.st_size - at : 0;
  size_t size = asked < left ? asked : left;
  struct change *change = malloc(sizeof *change + size);
  if (!change || next_pread(file, change->bytes, size, at) != (ssize_t)size) abort();
  change->before = changes;
  change->file = file;
  change->at = at;
  change->length = told.st_size;
  change->asked = asked;
  change->size = size;
  changes = change;
}

/* Whether both are one file. */
static int are_same(int file, int other) {
  struct stat one, two;
  return !fstat(file, &one) && !fstat(other, &two) && one.st_ino == two.st_ino && one.st_dev == two.st_dev;
}

/* Forgets the changes of a file that is synced. */
static void forget(int file) {
  struct change **place = &changes;
  while (*place) {
    struct change *change = *place;
    if (are_same(file, change->file)) {
      *place = change->before;
      free(change);
    } else {
      place = &change->before;
    }
  }
}

/* Undoes the changes that were not synced, from the last one on. */
static void lose(void) {
  for (struct change *it = changes; it; it = it->before) {
    if (next_ftruncate(it->file, it->length)) abort();
    if (next_pwrite(it->file, it->bytes, it->size, it->at) != (ssize_t)it->size) abort();
  }
}

/* The same, but for the last one. */
static void lose_but_last(void) {
  struct change *last = changes;
  if (!last) return;
  if (last->asked == ALL) {
    lose();
    if (next_ftruncate(last->file, last->at)) abort();
    return;
  }
  char *bytes = malloc(last->asked);
  ssize_t size = bytes ? next_pread(last->file, bytes, last->asked, last->at) : -1;
  if (size < 0) abort();
  lose();
  if (next_pwrite(last->file, bytes, size, last->at) != size) abort();
}

/* Ends the program in this way, if it is one that ends it before a call. */
static void end(enum way way) {
  if (way == LOST) lose();
  if (way == LOST_BUT_LAST) lose_but_last();
  if (way == KILLED || way == LOST || way == LOST_BUT_LAST) raise(SIGKILL);
}

/* Counts the call on a file that returns to this place, if it is the program's own; how it goes wrong, if it does. */
static enum way way_of(int file, void *place) {
  begin();
  if (file <= STDERR_FILENO || !is_own(place)) return 0;
  uint64_t number = __atomic_add_fetch(&account->made, 1, __ATOMIC_RELAXED);
  enum way way = number == account->wrong ? account->way : 0;
  end(way);
  return way;
}

#define FAIL_IF_ASKED(file)                                 \
  enum way way = way_of(file, __builtin_return_address(0)); \
  if (way == FAILS || way == FULL) {                        \
    errno = way == FULL ? ENOSPC : EIO;                     \
    return -1;                                              \
  }

/* A call that moves bytes: fewer of them, where that goes wrong. */
#define MOVE(size, call)             \
  if (way == SHORT && size > 1) size = 1; \
  if (way == TORN) size /= 2;        \
  ssize_t moved = call;              \
  if (way == TORN) raise(SIGKILL);   \
  return moved;

ssize_t read(int file, void *bytes, size_t size) {
  FAIL_IF_ASKED(file)
  MOVE(size, next_read(file, bytes, size))
}

ssize_t pread(int file, void *bytes, size_t size, off_t at) {
  FAIL_IF_ASKED(file)
  MOVE(size, next_pread(file, bytes, size, at))
}

ssize_t write(int file, const void *bytes, size_t size) {
  FAIL_IF_ASKED(file)
  MOVE(size, next_write(file, bytes, size))
}

ssize_t pwrite(int file, const void *bytes, size_t size, off_t at) {
  FAIL_IF_ASKED(file)
  note(file, at, size);
  MOVE(size, next_pwrite(file, bytes, size, at))
}

/* A call that syncs: of one that is cut short nothing is known, so that it is as one that is not reached. */
#define SYNC(call)                 \
  if (way == TORN) raise(SIGKILL); \
  int done = call;                 \
  if (!done) forget(file);         \
  return done;

int fsync(int file) {
  FAIL_IF_ASKED(file)
  SYNC(next_fsync(file))
}

int fdatasync(int file) {
  FAIL_IF_ASKED(file)
  SYNC(next_fdatasync(file))
}

int ftruncate(int file, off_t length) {
  FAIL_IF_ASKED(file)
  note(file, length, ALL);
  int done = next_ftruncate(file, length);
  if (way == TORN) raise(SIGKILL);
  return done;
}
