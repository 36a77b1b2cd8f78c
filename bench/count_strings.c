/* Linked into a program whose compiler calls the three functions below when a function that it notes is entered: writes which were
   entered, in their order.

   STRINGS names a file. When the program ends it has a pair of numbers for each run of entries of one function, as the machine keeps a
   uint64_t: the place of the function, counted from the program's first byte, and how often it was entered before another one was. */
#include <stdint.h>
#include <stdio.h>
#include <stdlib.h>

extern const char __executable_start;

struct run {
  uint64_t place, entries;
};

static struct run *runs;
static size_t count, room;
static uint32_t functions, last;
static const uintptr_t *places;

static void tell(void) {
  const char *name = getenv("STRINGS");
  FILE *file = name ? fopen(name, "w") : NULL;
  if (!file) return;
  if (fwrite(runs, sizeof *runs, count, file) != count) abort();
  if (fclose(file)) abort();
}

/* Each noted function has a number of its own between these two places. */
void __sanitizer_cov_trace_pc_guard_init(uint32_t *start, uint32_t *end) {
  if (start == end || *start) return;
  for (uint32_t *it = start; it < end; it++) *it = ++functions;
  atexit(tell);
}

/* And a pair, in the same order, that begins with the function's place. */
void __sanitizer_cov_pcs_init(const uintptr_t *start, const uintptr_t *end) {
  if (start != end) places = start;
}

/* A function is entered. */
void __sanitizer_cov_trace_pc_guard(uint32_t *number) {
  if (*number == last) {
    runs[count - 1].entries++;
    return;
  }
  if (count == room) {
    room = room ? 2 * room : 1024;
    runs = realloc(runs, room * sizeof *runs);
    if (!runs) abort();
  }
  last = *number;
  runs[count++] = (struct run){places[2 * (last - 1)] - (uintptr_t)&__executable_start, 1};
}
