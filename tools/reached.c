/* Linked into a program whose compiler calls the two functions below: notes which of its functions are entered.

   REACHED names a file. When the program ends the place of each function that was entered is added to it, as a number in hexadecimal
   and counted from the program's first byte. A program that dies by a signal adds nothing. */
#include <stdint.h>
#include <stdio.h>
#include <stdlib.h>

extern const char __executable_start;

static uintptr_t *entered;
static uint32_t functions, count;

static void tell(void) {
  const char *name = getenv("REACHED");
  FILE *file = name ? fopen(name, "a") : NULL;
  if (!file) return;
  for (uint32_t it = 0; it < count; it++) fprintf(file, "%lx\n", (unsigned long)(entered[it] - (uintptr_t)&__executable_start));
  fclose(file);
}

/* Each function has a number of its own between these two places. */
void __sanitizer_cov_trace_pc_guard_init(uint32_t *start, uint32_t *end) {
  if (start == end || *start) return;
  for (uint32_t *it = start; it < end; it++) *it = ++functions;
  entered = calloc(functions, sizeof *entered);
  if (!entered) abort();
  atexit(tell);
}

/* A function is entered, and its number is taken away, so that it is noted once. */
void __sanitizer_cov_trace_pc_guard(uint32_t *number) {
  if (!*number) return;
  *number = 0;
  entered[count++] = (uintptr_t)__builtin_return_address(0);
}
