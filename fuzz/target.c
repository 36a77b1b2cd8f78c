/* What AFL++ runs of the program `stateproof`: its command `check`, again and again in one process. The program's own main is linked
   in as stateproof_main. The words of the command line are `check` and four others, which stand for FAMILY, CHUNK, ROOT and LOCATION
   and are written over.

   FUZZ_ROWS names a file of lines FAMILY CHUNK ROOT LOCATION OPERATION PROOF, each a check whose answer is yes. The first byte of a test
   input chooses a row, modulo their number. Where it is below 128, the next byte is the length of the operation, and what follows
   is the operation and the proof, which the program is given as two lines; from 128 on what follows is its standard input as it is.

   A finding ends the process by abort. It is: a yes to other bytes than the row's, another answer than yes to the row's, output that the
   program does not have, or a check that takes more than SLOW times the median of the rows' checks. Where FUZZ_INPUT names a file,
   this one test input is run, and its answer or finding is printed. Where FUZZ_WRONG_ROWS is set, every yes is a finding, as if each
   row had other bytes. */
#define _GNU_SOURCE
#include <fcntl.h>
#include <stdint.h>
#include <stdio.h>
#include <stdlib.h>
#include <string.h>
#include <strings.h>
#include <sys/mman.h>
#include <time.h>
#include <unistd.h>

enum { ROWS = 128, RUNS = 7, SLOW = 10, LOOPS = 20000, OPERATION = 255, SIZE = 1 << 20 };

int stateproof_main(int count, char **words, char **environment);

/* Of AFL++'s runtime. It looks for the two texts in the program's file. */
int __afl_persistent_loop(unsigned int count);
void __afl_manual_init(void);
void __afl_coverage_off(void);
void __afl_coverage_on(void);
extern unsigned char *__afl_fuzz_ptr;
extern unsigned int *__afl_fuzz_len;
int __afl_sharedmem_fuzzing = 1, __afl_selective_coverage = 1;
__attribute__((used)) static const char *const persistent = "##SIG_AFL_PERSISTENT##";
__attribute__((used)) static const char *const deferred = "##SIG_AFL_DEFER_FORKSRV##";

struct row {
  char family[8], chunk[24], root[80], location[24];
  char *text; /* the two lines that are answered yes, the last one without its end */
};

static struct row rows[ROWS];
static size_t row_count;
static int64_t usual; /* nanoseconds */
static int wrong_rows;
static int input, output, errors; /* files in memory, in the place of the standard ones */
static char **words;

static void need(int holds, const char *what) {
  if (holds) return;
  fprintf(stderr, "fuzz_target: %s\n", what);
  exit(2);
}

static void read_rows(const char *name) {
  FILE *file = name ? fopen(name, "r") : NULL;
  need(file != NULL, "FUZZ_ROWS names no file");
  char operation[2 * OPERATION + 1], proof[16384];
  struct row *row = rows;
  while (row_count < ROWS && fscanf(file, "%7s %23s %79s %23s %510s %16383s", row->family, row->chunk, row->root, row->location,
                                    operation, proof) == 6) {
    need(asprintf(&row->text, "%s\n%s", operation, proof) > 0, "no memory");
    row = &rows[++row_count];
  }
  need(row_count > 0 && row_count < ROWS, "there are no rows, or too many");
  fclose(file);
}

/* A file in memory in the place of a standard one. */
static int in_place_of(int standard) {
  int file = memfd_create("fuzz", MFD_CLOEXEC);
  need(file >= 0 && dup2(file, standard) == standard, "no file in memory");
  return standard;
}

static void emptied(int file) {
  need(ftruncate(file, 0) == 0 && lseek(file, 0, SEEK_SET) == 0, "a file in memory is not emptied");
}

static int holds(int file, const char *text) {
  char found[64];
  ssize_t size = pread(file, found, sizeof found, 0);
  return size == (ssize_t)strlen(text) && memcmp(found, text, size) == 0;
}

/* Runs `check` for a row on a text. Answers its status, and its time in `spent`. */
static int check(const struct row *row, const char *text, size_t size, int64_t *spent) {
  emptied(input);
  emptied(output);
  emptied(errors);
  need(pwrite(input, text, size, 0) == (ssize_t)size, "the text is not written");
  words[2] = (char *)row->family;
  words[3] = (char *)row->chunk;
  words[4] = (char *)row->root;
  words[5] = (char *)row->location;
  struct timespec before, after;
  clock_gettime(CLOCK_THREAD_CPUTIME_ID, &before);
  int status = stateproof_main(6, words, environ);
  clock_gettime(CLOCK_THREAD_CPUTIME_ID, &after);
  *spent = (after.tv_sec - before.tv_sec) * 1000000000LL + after.tv_nsec - before.tv_nsec;
  return status;
}

/* The least time of several checks, of which no blocks are counted. */
static int64_t least(const struct row *row, const char *text, size_t size) {
  int64_t best = INT64_MAX;
  __afl_coverage_off();
  for (int i = 0; i < RUNS; i++) {
    int64_t spent;
    check(row, text, size, &spent);
    if (spent < best) best = spent;
  }
  __afl_coverage_on();
  return best;
}

/* Whether standard error has a line of a fault that standard input can have. */
static int is_fault(void) {
  static const char *const faults[] = {"input", "line 1", "line 2", "line 3"};
  for (size_t i = 0; i < sizeof faults / sizeof *faults; i++) {
    char line[32];
    snprintf(line, sizeof line, "stateproof: %s\n", faults[i]);
    if (holds(errors, line)) return 1;
  }
  return 0;
}

/* Whether a text has the bytes of a row: its lines, with digits in either case, the end of the last line there or not. */
static int has_bytes_of(const struct row *row, const char *text, size_t size) {
  size_t wanted = strlen(row->text);
  if (size == wanted + 1 && text[wanted] == '\n') size = wanted;
  return size == wanted && memchr(text, 0, size) == NULL && strncasecmp(text, row->text, size) == 0 && !wrong_rows;
}

/* What is found of a check that ended with a status after a time; none where all is well. */
static const char *finding(const struct row *row, const char *text, size_t size, int status, int64_t spent) {
  int yes = status == 0 && holds(output, "yes\n") && holds(errors, "");
  int no = status == 1 && holds(output, "no\n") && holds(errors, "");
  int refused = status == 2 && holds(output, "") && is_fault();
  if (!yes && !no && !refused) return "output that the program does not have";
  if (yes && !has_bytes_of(row, text, size)) return "a yes to other bytes";
  if (!yes && has_bytes_of(row, text, size)) return "no yes to the right bytes";
  if (usual && spent > SLOW * usual && least(row, text, size) > SLOW * usual) return "a slow check";
  return NULL;
}

/* Bytes in hexadecimal, then the end of a line. Answers where the text goes on. */
static char *line_of(char *text, const unsigned char *bytes, size_t size) {
  for (size_t i = 0; i < size; i++) {
    *text++ = "0123456789abcdef"[bytes[i] >> 4];
    *text++ = "0123456789abcdef"[bytes[i] & 15];
  }
  *text++ = '\n';
  return text;
}

/* Runs a test input. Answers what is found of it, and its status. */
static const char *run(const unsigned char *bytes, size_t size, int *status) {
  static char written[2 * SIZE + 2];
  *status = -1;
  if (size < 2 || size > SIZE) return NULL;
  const struct row *row = &rows[bytes[0] % 128 % row_count];
  const char *text = (const char *)bytes + 1;
  size_t length = size - 1;
  if (bytes[0] < 128) {
    size_t operation = bytes[1] < size - 2 ? bytes[1] : size - 2;
    char *end = line_of(written, bytes + 2, operation);
    end = line_of(end, bytes + 2 + operation, size - 2 - operation);
    text = written;
    length = end - written;
  }
  int64_t spent;
  *status = check(row, text, length, &spent);
  return finding(row, text, length, *status, spent);
}

static int by_size(const void *left, const void *right) {
  int64_t a = *(const int64_t *)left, b = *(const int64_t *)right;
  return (a > b) - (a < b);
}

/* The median time of the rows' checks. */
static int64_t median(void) {
  int64_t times[ROWS];
  for (size_t i = 0; i < row_count; i++) times[i] = least(&rows[i], rows[i].text, strlen(rows[i].text));
  qsort(times, row_count, sizeof *times, by_size);
  return times[row_count / 2];
}

/* Runs the test input in a file, and prints what is found of it, or its status. */
static int run_file(const char *name, int printed) {
  static unsigned char bytes[SIZE + 1];
  FILE *file = fopen(name, "rb");
  need(file != NULL, "FUZZ_INPUT names no file");
  int status;
  size_t size = fread(bytes, 1, sizeof bytes, file);
  const char *found = run(bytes, size, &status);
  dprintf(printed, found ? "finding: %s (status %d)\n" : "%sstatus %d\n", found ? found : "", status);
  return found != NULL;
}

int main(int count, char **given) {
  words = given;
  need(count == 6, "it wants the words check FAMILY CHUNK ROOT LOCATION");
  read_rows(getenv("FUZZ_ROWS"));
  wrong_rows = getenv("FUZZ_WRONG_ROWS") != NULL;
  int printed = fcntl(1, F_DUPFD_CLOEXEC, 300);
  input = in_place_of(0);
  output = in_place_of(1);
  errors = in_place_of(2);
  usual = median();
  if (getenv("FUZZ_INPUT")) return run_file(getenv("FUZZ_INPUT"), printed);
  __afl_manual_init();
  while (__afl_persistent_loop(LOOPS)) {
    int status;
    if (run(__afl_fuzz_ptr, *__afl_fuzz_len, &status)) abort();
  }
  return 0;
}
