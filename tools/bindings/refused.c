/* Refuses memory to each function of croner.h: for each request of a call the call is made once where that request is refused. It has to end
   with CRONER_OUT_OF_MEMORY and write nothing, or as where none is refused, since some memory is asked for ahead only; and whatever it took,
   it has to give back. Linked with the archive, and with
   --wrap for malloc, realloc and free. Its word is the folder of the time zone files. */

#include "croner.h"

#include <errno.h>
#include <stdio.h>
#include <stdlib.h>
#include <string.h>

static long passed, failed, requests, refuse_at, open_blocks;

void *__real_malloc(size_t bytes);
void *__real_realloc(void *given, size_t bytes);
void __real_free(void *given);
void *__wrap_malloc(size_t bytes);
void *__wrap_realloc(void *given, size_t bytes);
void __wrap_free(void *given);

static int is_refused(void) {
  if (++requests != refuse_at) return 0;
  errno = ENOMEM;
  return 1;
}

void *__wrap_malloc(size_t bytes) {
  if (is_refused()) return NULL;
  void *taken = __real_malloc(bytes);
  if (taken) open_blocks++;
  return taken;
}

void *__wrap_realloc(void *given, size_t bytes) {
  if (is_refused()) return NULL;
  if (!given) open_blocks++;
  return __real_realloc(given, bytes);
}

void __wrap_free(void *given) {
  if (given) open_blocks--;
  __real_free(given);
}

/* ---- The calls. What they write is compared with what stood there. */

struct written {
  int64_t runs[8];
  croner_start starts[8];
  croner_change changes[300];
  croner_fault fault;
  croner_line line;
  char words[200];
  size_t count;
  int32_t mark;
};

static uint8_t file[100000];
static size_t file_length;
static croner_change changes[300];
static croner_clock paris;

#define TEXT "*/7 2,14-16 1,L * MON-FRI"
#define FROM INT64_C(1711756800)

static croner_status call(int which, struct written *out) {
  switch (which) {
  case 0: return croner_next(TEXT, sizeof TEXT - 1, 0, &paris, FROM, 0, out->runs);
  case 1: return croner_previous(TEXT, sizeof TEXT - 1, 0, &paris, FROM, 0, out->runs);
  case 2: return croner_runs(TEXT, sizeof TEXT - 1, 0, &paris, FROM, 0, INT64_MAX, out->runs, 8, &out->count);
  case 3: return croner_matches(TEXT, sizeof TEXT - 1, 0, &paris, FROM, &out->mark);
  case 4: return croner_describe(TEXT, sizeof TEXT - 1, 0, CRONER_ENGLISH, out->words, 200, &out->count);
  case 5: return croner_describe(TEXT, sizeof TEXT - 1, 0, CRONER_SWEDISH_SUMMARY, out->words, 200, &out->count);
  case 6: return croner_explain("0 9 * * MONDAY", 14, 0, &out->fault, out->words, 200, &out->count);
  case 7: return croner_explain("\xff", 1, 0, &out->fault, out->words, 200, &out->count);
  case 8: return croner_explain(TEXT, sizeof TEXT - 1, 0, &out->fault, out->words, 200, &out->count);
  case 9: return croner_next("0 9 * * MONDAY", 14, 0, &paris, FROM, 0, out->runs);
  case 10: return croner_clock_of_tzif(file, file_length, FROM, FROM + 1000000000, out->changes, 300, &out->mark, &out->count);
  case 11: return croner_clock_of_posix("CET-1CEST,M3.5.0,M10.5.0/3", 26, FROM, FROM + 1000000000, out->changes, 300, &out->mark, &out->count);
  case 12: return croner_crontab_line("*/5 9 * * MON-FRI echo", 22, CRONER_USER_TABLE, &out->line);
  default: return croner_crontab_starts("*/5 9 * * MON-FRI echo", 22, CRONER_USER_TABLE, &paris, FROM, INT64_MAX, out->starts, 8, &out->count);
  }
}

static struct written blank(void) {
  struct written out;
  memset(&out, 0x55, sizeof out);
  out.fault.size = sizeof out.fault;
  out.line.size = sizeof out.line;
  return out;
}

static void check(int holds, const char *what, int which, long at) {
  if (holds) {
    passed++;
    return;
  }
  failed++;
  printf("failed: call %d, request %ld: %s\n", which, at, what);
}

static void try_call(int which) {
  static struct written before, after, whole;
  refuse_at = requests = 0;
  whole = blank();
  croner_status wanted = call(which, &whole);
  long all = requests;
  check(open_blocks == 0 && all > 0, "a block is left", which, 0);
  long lacking = 0;
  for (long at = 1; at <= all; at++) {
    refuse_at = at, requests = 0;
    before = after = blank();
    errno = 77;
    croner_status status = call(which, &after);
    check(errno == 77, "errno", which, at);
    if (status == CRONER_OUT_OF_MEMORY) {
      lacking++;
      check(memcmp(&before, &after, sizeof before) == 0, "it writes", which, at);
    } else {
      check(status == wanted && memcmp(&whole, &after, sizeof whole) == 0, "another answer", which, at);
    }
    check(open_blocks == 0, "a block is left", which, at);
    open_blocks = 0;
  }
  check(lacking * 2 > all, "few requests are needed", which, 0);
  refuse_at = requests = 0;
  after = blank();
  check(call(which, &after) == wanted, "another status afterwards", which, 0);
}

int main(int count, char **words) {
  if (count != 2) return 2;
  char path[4096];
  snprintf(path, sizeof path, "%s/Europe/Paris", words[1]);
  FILE *from = fopen(path, "rb");
  if (!from) return 2;
  file_length = fread(file, 1, sizeof file, from);
  fclose(from);
  open_blocks = 0;
  size_t changed = 0;
  int32_t ahead = 0;
  if (croner_clock_of_tzif(file, file_length, FROM - 1000000, FROM + 1000000000, changes, 300, &ahead, &changed) != CRONER_OK) return 2;
  paris = (croner_clock){sizeof paris, FROM - 1000000, FROM + 1000000000, changes, changed, ahead, 0};
  for (int which = 0; which <= 13; which++) try_call(which);
  printf("%ld passed, %ld failed\n", passed, failed);
  return failed != 0;
}
