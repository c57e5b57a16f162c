// Preloaded into a built program, makes its allocation number FAIL_ALLOCATION find no memory. Only the program that
// FAIL_ALLOCATION_OF names is meant, so that what starts it goes on undisturbed. It finds in ALLOCATIONS_REFUSED whether
// that has happened, 0 or 1, and in ALLOCATIONS how many there were, also if FAIL_ALLOCATION is 0. Where there were so many
// allocations, the file FAIL_ALLOCATION_MARK is made.
#define _GNU_SOURCE
#include <errno.h>
#include <fcntl.h>
#include <stdlib.h>
#include <string.h>
#include <unistd.h>

extern void *__libc_malloc(size_t);
extern void *__libc_realloc(void *, size_t);

static long left; // how many allocations to go before the one that fails; 0: none fails any more
static char told[] = "ALLOCATIONS_REFUSED=0";
static char count[] = "ALLOCATIONS=0000000000";
static int counts; // whether this is the program that is meant

__attribute__((constructor)) static void begin(void) {
  const char *program = getenv("FAIL_ALLOCATION_OF"), *number = getenv("FAIL_ALLOCATION");
  if (!program || !number || strcmp(program, program_invocation_short_name))
    return;
  putenv(told);
  putenv(count);
  counts = 1;
  left = atol(number);
}

static int fails(void) {
  for (char *digit = count + sizeof count - 2; counts && *digit != '='; digit--) {
    if (*digit != '9') {
      ++*digit;
      break;
    }
    *digit = '0';
  }
  return left > 0 && --left == 0;
}

static void *refused(void) {
  const char *mark = getenv("FAIL_ALLOCATION_MARK");
  if (mark)
    close(open(mark, O_CREAT | O_WRONLY, 0600));
  told[sizeof told - 2] = '1';
  errno = ENOMEM;
  return NULL;
}

void *malloc(size_t size) { return fails() ? refused() : __libc_malloc(size); }

void *realloc(void *block, size_t size) { return fails() ? refused() : __libc_realloc(block, size); }
