/* Refuses requests for memory of the program that it is loaded into (LD_PRELOAD), which has one thread. REFUSE has three numbers: which of its calls of malloc
   and realloc is refused, from 1; how many calls later the next one is; and how many are refused. At the program's end, also where that is
   _exit, it writes to standard error how many calls there were and how many were refused. */
#define _GNU_SOURCE
#include <dlfcn.h>
#include <errno.h>
#include <stdio.h>
#include <stdlib.h>
#include <sys/syscall.h>
#include <unistd.h>

static void *(*next_malloc)(size_t);
static void *(*next_realloc)(void *, size_t);
static long first, step, times, calls, refusals;

__attribute__((constructor)) static void begin(void) {
  next_malloc = (void *(*)(size_t))dlsym(RTLD_NEXT, "malloc");
  next_realloc = (void *(*)(void *, size_t))dlsym(RTLD_NEXT, "realloc");
  const char *asked = getenv("REFUSE");
  if (!asked || sscanf(asked, "%ld %ld %ld", &first, &step, &times) != 3)
    times = 0;
}

__attribute__((destructor)) static void end(void) {
  dprintf(2, "%ld %ld\n", calls, refusals);
}

void _exit(int status) {
  end();
  syscall(SYS_exit_group, status);
  __builtin_unreachable();
}

static int is_refused(void) {
  if (!next_malloc)
    begin();
  long past = ++calls - first;
  if (refusals >= times || past < 0 || past % step != 0)
    return 0;
  refusals++;
  errno = ENOMEM;
  return 1;
}

void *malloc(size_t size) { return is_refused() ? NULL : next_malloc(size); }

void *realloc(void *block, size_t size) { return is_refused() ? NULL : next_realloc(block, size); }
