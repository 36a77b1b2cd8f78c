/* Preloaded into a program, counts its requests for memory and the bytes that it copies by memcpy and memmove. Only calls that
   return into the program's own image are counted, so none of the C library. What the compiler copies in place is not seen: a
   number of bytes that it knows, as those of a digest.

   COUNTED_COPIES names a file of two numbers, as the machine keeps a uint64_t: the requests and the bytes. */
#define _GNU_SOURCE
#include <dlfcn.h>
#include <stdint.h>
#include <stdlib.h>

#include "../tools/image.h"

struct account {
  uint64_t requests, bytes;
};

static struct account nothing;
static struct account *account = &nothing;

static void *(*next_malloc)(size_t);
static void *(*next_calloc)(size_t, size_t);
static void *(*next_realloc)(void *, size_t);
static void *(*next_aligned_alloc)(size_t, size_t);
static int (*next_posix_memalign)(void **, size_t, size_t);

__attribute__((constructor)) static void begin(void) {
  if (next_malloc) return;
  next_malloc = (void *(*)(size_t))dlsym(RTLD_NEXT, "malloc");
  next_calloc = (void *(*)(size_t, size_t))dlsym(RTLD_NEXT, "calloc");
  next_realloc = (void *(*)(void *, size_t))dlsym(RTLD_NEXT, "realloc");
  next_aligned_alloc = (void *(*)(size_t, size_t))dlsym(RTLD_NEXT, "aligned_alloc");
  next_posix_memalign = (int (*)(void **, size_t, size_t))dlsym(RTLD_NEXT, "posix_memalign");
  account = open_account("COUNTED_COPIES", &nothing, sizeof nothing);
}

static void request(void *place) {
  begin();
  if (is_own(place)) account->requests++;
}

void *malloc(size_t size) {
  request(__builtin_return_address(0));
  return next_malloc(size);
}

void *calloc(size_t count, size_t size) {
  request(__builtin_return_address(0));
  return next_calloc(count, size);
}

void *realloc(void *old, size_t size) {
  request(__builtin_return_address(0));
  return next_realloc(old, size);
}

void *aligned_alloc(size_t alignment, size_t size) {
  request(__builtin_return_address(0));
  return next_aligned_alloc(alignment, size);
}

int posix_memalign(void **out, size_t alignment, size_t size) {
  request(__builtin_return_address(0));
  return next_posix_memalign(out, alignment, size);
}

static void *copied(void *to, const void *from, size_t size, void *place) {
  char *out = to;
  const char *in = from;
  if (is_own(place)) account->bytes += size;
  if (out <= in || out >= in + size)
    for (size_t i = 0; i < size; i++) out[i] = in[i];
  else
    while (size--) out[size] = in[size];
  return to;
}

void *memcpy(void *restrict to, const void *restrict from, size_t size) {
  return copied(to, from, size, __builtin_return_address(0));
}

void *memmove(void *to, const void *from, size_t size) {
  return copied(to, from, size, __builtin_return_address(0));
}
