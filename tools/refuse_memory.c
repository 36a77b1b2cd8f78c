/* Preloaded into a program, refuses some of its requests for memory. Its own requests are numbered from 1: those of malloc,
   calloc, realloc, aligned_alloc and posix_memalign whose call returns into the program's own image. Requests of the C library
   and of the loader are served, and not counted.

   REFUSED_MEMORY names a file of three numbers, as the machine keeps a uint64_t: how many requests were made, the first to be
   refused, and the last. With no such file nothing is refused. */
#define _GNU_SOURCE
#include <dlfcn.h>
#include <errno.h>
#include <stdint.h>
#include <stdlib.h>

#include "image.h"

struct account {
  uint64_t made, first, last;
};

static struct account nothing;
static struct account *account;

static void *(*next_malloc)(size_t);
static void *(*next_calloc)(size_t, size_t);
static void *(*next_realloc)(void *, size_t);
static void *(*next_aligned_alloc)(size_t, size_t);
static int (*next_posix_memalign)(void **, size_t, size_t);

__attribute__((constructor)) static void begin(void) {
  if (account) return;
  next_malloc = (void *(*)(size_t))dlsym(RTLD_NEXT, "malloc");
  next_calloc = (void *(*)(size_t, size_t))dlsym(RTLD_NEXT, "calloc");
  next_realloc = (void *(*)(void *, size_t))dlsym(RTLD_NEXT, "realloc");
  next_aligned_alloc = (void *(*)(size_t, size_t))dlsym(RTLD_NEXT, "aligned_alloc");
  next_posix_memalign = (int (*)(void **, size_t, size_t))dlsym(RTLD_NEXT, "posix_memalign");
  account = open_account("REFUSED_MEMORY", &nothing, sizeof nothing);
}

/* Counts the request that returns to this place, if it is the program's own; whether it is to be refused. */
static int is_refused(void *place) {
  begin();
  if (!is_own(place)) return 0;
  uint64_t number = __atomic_add_fetch(&account->made, 1, __ATOMIC_RELAXED);
  return account->first <= number && number <= account->last;
}

#define REFUSE_IF_ASKED(answer)                      \
  if (is_refused(__builtin_return_address(0))) {     \
    errno = ENOMEM;                                  \
    return answer;                                   \
  }

void *malloc(size_t size) {
  REFUSE_IF_ASKED(NULL)
  return next_malloc(size);
}

void *calloc(size_t count, size_t size) {
  REFUSE_IF_ASKED(NULL)
  return next_calloc(count, size);
}

void *realloc(void *old, size_t size) {
  REFUSE_IF_ASKED(NULL)
  return next_realloc(old, size);
}

void *aligned_alloc(size_t alignment, size_t size) {
  REFUSE_IF_ASKED(NULL)
  return next_aligned_alloc(alignment, size);
}

int posix_memalign(void **out, size_t alignment, size_t size) {
  REFUSE_IF_ASKED(ENOMEM)
  return next_posix_memalign(out, alignment, size);
}
