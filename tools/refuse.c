/* An allocator that refuses. Loaded before a program, it answers every request for memory of that program in place of the C
   library, counts the requests, refuses the one with a given number, and watches what is given back.

   The environment says what it does:

     REFUSE_AT=N      refuse the request numbered N, from 1 on; 0 or not given: none
     REFUSE_ON=1      refuse each later request too
     REFUSE_MARKS=1   count and refuse only between two marks: the line "begin" and the line "end", which the program writes to
                      standard error, each by one call; marks are taken away
     REFUSE_REPORT=D  at the end write one line to the descriptor D:
                      requests N refused N open N wrong N

   "open" are the blocks that were never given back, in the whole run; "wrong" counts what was given back twice, or never taken,
   and requests for which the arena has no room. A block that is given back is overwritten and never handed out again, so that
   a use of it shows. One thread only. */

#define _GNU_SOURCE
#include <errno.h>
#include <stddef.h>
#include <stdint.h>
#include <stdio.h>
#include <stdlib.h>
#include <string.h>
#include <sys/syscall.h>
#include <unistd.h>

#define ARENA_BYTES ((size_t)1 << 28)
#define LEAST_ALIGNMENT ((size_t)16)
#define FRESH 0xCD
#define GIVEN_BACK 0xDD
#define TAKEN_SIGN ((size_t)0x74616b656e)
#define GONE_SIGN ((size_t)0x676f6e65)

/* What stands before each block. */
struct block {
  size_t bytes;
  size_t sign;
};

static unsigned char arena[ARENA_BYTES] __attribute__((aligned(16)));
static size_t arena_used;

static long refuse_at, requests, refused, open_blocks, wrong;
static int refuse_later, only_between_marks, is_counting = 1, is_ready;

static long number_of(const char *name) {
  const char *text = getenv(name);
  return text ? atol(text) : 0;
}

static void get_ready(void) {
  if (is_ready) return;
  is_ready = 1;
  refuse_at = number_of("REFUSE_AT");
  refuse_later = number_of("REFUSE_ON") != 0;
  only_between_marks = number_of("REFUSE_MARKS") != 0;
  is_counting = !only_between_marks;
}

/* Counts a request, and says whether it is refused. */
static int is_refused(void) {
  get_ready();
  if (!is_counting) return 0;
  requests++;
  if (refuse_at == 0 || requests < refuse_at || (requests > refuse_at && !refuse_later)) return 0;
  refused++;
  errno = ENOMEM;
  return 1;
}

static struct block *block_of(void *given) { return (struct block *)given - 1; }

static int is_taken(void *given) {
  unsigned char *at = given;
  return at > arena && at < arena + arena_used && block_of(given)->sign == TAKEN_SIGN;
}

static void *take(size_t bytes, size_t alignment) {
  uintptr_t first = (uintptr_t)arena + arena_used + sizeof(struct block);
  uintptr_t start = (first + alignment - 1) & ~(uintptr_t)(alignment - 1);
  size_t room = (uintptr_t)arena + ARENA_BYTES - start;
  if (start > (uintptr_t)arena + ARENA_BYTES || bytes > room) {
    wrong++;
    errno = ENOMEM;
    return NULL;
  }
  struct block *block = block_of((void *)start);
  block->bytes = bytes;
  block->sign = TAKEN_SIGN;
  arena_used = start + bytes - (uintptr_t)arena;
  memset((void *)start, FRESH, bytes);
  open_blocks++;
  return (void *)start;
}

static void give_back(void *given) {
  if (!is_taken(given)) {
    wrong++;
    return;
  }
  struct block *block = block_of(given);
  block->sign = GONE_SIGN;
  memset(given, GIVEN_BACK, block->bytes);
  open_blocks--;
}

void *malloc(size_t bytes) { return is_refused() ? NULL : take(bytes, LEAST_ALIGNMENT); }

void *calloc(size_t count, size_t bytes) {
  size_t all;
  if (__builtin_mul_overflow(count, bytes, &all) || is_refused()) return NULL;
  void *taken = take(all, LEAST_ALIGNMENT);
  return taken ? memset(taken, 0, all) : NULL;
}

void *realloc(void *given, size_t bytes) {
  if (!given) return malloc(bytes);
  if (is_refused()) return NULL;
  if (!is_taken(given)) {
    wrong++;
    return NULL;
  }
  void *taken = take(bytes, LEAST_ALIGNMENT);
  if (!taken) return NULL;
  size_t kept = block_of(given)->bytes;
  memcpy(taken, given, kept < bytes ? kept : bytes);
  give_back(given);
  return taken;
}

void *aligned_alloc(size_t alignment, size_t bytes) {
  return is_refused() ? NULL : take(bytes, alignment < LEAST_ALIGNMENT ? LEAST_ALIGNMENT : alignment);
}

void *memalign(size_t alignment, size_t bytes) { return aligned_alloc(alignment, bytes); }

int posix_memalign(void **taken, size_t alignment, size_t bytes) {
  *taken = aligned_alloc(alignment, bytes);
  return *taken ? 0 : ENOMEM;
}

void free(void *given) {
  if (given) give_back(given);
}

static int is_mark(int descriptor, const void *text, size_t bytes, const char *mark) {
  return descriptor == STDERR_FILENO && bytes == strlen(mark) && memcmp(text, mark, bytes) == 0;
}

ssize_t write(int descriptor, const void *text, size_t bytes) {
  get_ready();
  if (only_between_marks && is_mark(descriptor, text, bytes, "begin\n")) {
    is_counting = 1;
    return (ssize_t)bytes;
  }
  if (only_between_marks && is_mark(descriptor, text, bytes, "end\n")) {
    is_counting = 0;
    return (ssize_t)bytes;
  }
  return syscall(SYS_write, descriptor, text, bytes);
}

ssize_t __write(int descriptor, const void *text, size_t bytes) { return write(descriptor, text, bytes); }

__attribute__((destructor)) static void report(void) {
  char line[128];
  long descriptor = number_of("REFUSE_REPORT");
  is_counting = 0;
  if (descriptor == 0) return;
  int bytes = snprintf(line, sizeof line, "requests %ld refused %ld open %ld wrong %ld\n", requests, refused, open_blocks, wrong);
  syscall(SYS_write, descriptor, line, (size_t)bytes);
}
