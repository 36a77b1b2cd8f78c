/* Of a library that is preloaded into a program: which calls are the program's own, and the account of them. Included by one C file a
   library, which defines _GNU_SOURCE before. */
#include <fcntl.h>
#include <link.h>
#include <stdint.h>
#include <stdlib.h>
#include <sys/mman.h>
#include <unistd.h>

static uintptr_t image_start = UINTPTR_MAX, image_end;

/* Where the program's own image stands: it is the first that the loader names. */
static int find_image(struct dl_phdr_info *info, size_t size, void *data) {
  (void)size;
  (void)data;
  for (int i = 0; i < info->dlpi_phnum; i++) {
    if (info->dlpi_phdr[i].p_type != PT_LOAD) continue;
    uintptr_t start = info->dlpi_addr + info->dlpi_phdr[i].p_vaddr;
    uintptr_t end = start + info->dlpi_phdr[i].p_memsz;
    if (start < image_start) image_start = start;
    if (end > image_end) image_end = end;
  }
  return 1;
}

/* Whether the call that returns to this place is the program's own, once the image is found. */
static int is_own(void *place) { return (uintptr_t)place >= image_start && (uintptr_t)place < image_end; }

/* Finds the image, and answers the account: the bytes of the file that a variable of the environment names, so many of them. They are
   mapped, so that what is written there stands there however the program ends. With no such file it is `none`. */
static void *open_account(const char *variable, void *none, size_t size) {
  dl_iterate_phdr(find_image, NULL);
  const char *name = getenv(variable);
  int file = name ? open(name, O_RDWR | O_CLOEXEC) : -1;
  if (file < 0) return none;
  void *mapped = mmap(NULL, size, PROT_READ | PROT_WRITE, MAP_SHARED, file, 0);
  close(file);
  return mapped == MAP_FAILED ? none : mapped;
}
