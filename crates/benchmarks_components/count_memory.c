// Preloaded into a program: tells on standard error how much memory it took at most while it was timed, beside what it had
// before, from each odd reading of the processor time to the next: `memory RESIDENT ASKED`, in kB, as the system counts the
// pages that were touched, and as the sum of the blocks that were allocated and not freed.
#define _GNU_SOURCE
#include <dlfcn.h>
#include <malloc.h>
#include <stdio.h>
#include <stdlib.h>
#include <string.h>
#include <sys/syscall.h>
#include <time.h>
#include <unistd.h>

extern void *__libc_malloc(size_t);
extern void *__libc_calloc(size_t, size_t);
extern void *__libc_realloc(void *, size_t);
extern void *__libc_memalign(size_t, size_t);
extern void __libc_free(void *);

static long held, most, before, resident;
static int timed;

static void *taken(void *block) {
  if (block && (held += malloc_usable_size(block)) > most)
    most = held;
  return block;
}

void *malloc(size_t size) { return taken(__libc_malloc(size)); }

void *calloc(size_t count, size_t size) { return taken(__libc_calloc(count, size)); }

void *memalign(size_t to, size_t size) { return taken(__libc_memalign(to, size)); }

void *aligned_alloc(size_t to, size_t size) { return taken(__libc_memalign(to, size)); }

int posix_memalign(void **block, size_t to, size_t size) {
  *block = taken(__libc_memalign(to, size));
  return *block ? 0 : 12;
}

void free(void *block) {
  if (block)
    held -= malloc_usable_size(block);
  __libc_free(block);
}

// A block that grows counts once, also where it is moved.
void *realloc(void *block, size_t size) {
  long old = block ? malloc_usable_size(block) : 0;
  void *moved = __libc_realloc(block, size);
  if (moved || !size)
    held -= old;
  return taken(moved);
}

static long status_of(const char *name) {
  char line[128];
  long kilobytes = 0;
  FILE *file = fopen("/proc/self/status", "r");
  while (file && fgets(line, sizeof line, file))
    if (!strncmp(line, name, strlen(name)))
      kilobytes = atol(line + strlen(name));
  if (file)
    fclose(file);
  return kilobytes;
}

int clock_gettime(clockid_t clock, struct timespec *time) {
  if (clock == CLOCK_PROCESS_CPUTIME_ID && (timed = !timed)) {
    FILE *file = fopen("/proc/self/clear_refs", "w"); // 5: the greatest size so far is the size now
    if (file) {
      fputs("5", file);
      fclose(file);
    }
    resident = status_of("VmRSS:");
    before = most = held;
  } else if (clock == CLOCK_PROCESS_CPUTIME_ID) {
    long asked = most - before;
    fprintf(stderr, "memory %ld %ld\n", status_of("VmHWM:") - resident, asked / 1024);
  }
  return syscall(SYS_clock_gettime, clock, time);
}
