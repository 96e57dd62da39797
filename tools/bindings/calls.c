/* Calls each function of croner.h, and compares what it gives with what is known: of the clocks of UTC and Paris; of texts and buffers of each
   length; of made-up clocks and patterns; and of many threads at once. Its words are the folder of the time zone files, and how many
   calls are made up. */

#define _POSIX_C_SOURCE 200809L
#include "croner.h"

#include <errno.h>
#include <inttypes.h>
#include <pthread.h>
#include <stdbool.h>
#include <stdio.h>
#include <stdlib.h>
#include <string.h>

static long passed, failed;

static void check(bool holds, const char *what, int64_t number) {
  if (holds) {
    passed++;
    return;
  }
  failed++;
  if (failed <= 20) printf("failed: %s (%" PRId64 ")\n", what, number);
}

#define CHECK(holds, number)                          \
  do {                                                 \
    bool does_hold = (holds);                          \
    check(does_hold, #holds, (int64_t)(number));       \
  } while (0)

/* ---- Numbers that look random, the same in each run */

static uint64_t drawn = 88172645463325252u;

static uint64_t draw(void) {
  drawn ^= drawn << 13;
  drawn ^= drawn >> 7;
  drawn ^= drawn << 17;
  return drawn;
}

static int64_t draw_from(int64_t first, int64_t last) { return first + (int64_t)(draw() % (uint64_t)(last - first + 1)); }

/* ---- Clocks */

#define YEAR_2000 INT64_C(946684800)
#define YEAR_2100 INT64_C(4102444800)
#define DAY 86400

static const croner_clock utc = {sizeof(croner_clock), YEAR_2000, YEAR_2100, NULL, 0, 0, 0};
static const croner_clock all_years = {sizeof(croner_clock), CRONER_FIRST_SECOND, CRONER_LAST_SECOND, NULL, 0, 0, 0};

struct zone {
  croner_change changes[400];
  croner_clock clock;
};

static size_t read_file(const char *folder, const char *name, uint8_t *bytes, size_t room) {
  char path[4096];
  snprintf(path, sizeof path, "%s/%s", folder, name);
  FILE *file = fopen(path, "rb");
  if (!file) return 0;
  size_t length = fread(bytes, 1, room, file);
  fclose(file);
  return length;
}

static croner_status take_zone(const char *folder, const char *name, struct zone *zone) {
  static uint8_t bytes[100000];
  size_t length = read_file(folder, name, bytes, sizeof bytes), count = 0;
  int32_t ahead = 0;
  croner_status status = croner_clock_of_tzif(bytes, length, YEAR_2000, YEAR_2100, zone->changes, 400, &ahead, &count);
  croner_clock clock = {sizeof clock, YEAR_2000, YEAR_2100, zone->changes, count, ahead, 0};
  zone->clock = clock;
  return status;
}

/* ---- Calls with a text that ends in a byte 0 */

static croner_status next(const char *text, const croner_clock *clock, int64_t start, int32_t inclusive, int64_t *run) {
  return croner_next(text, strlen(text), 0, clock, start, inclusive, run);
}

static croner_status previous(const char *text, const croner_clock *clock, int64_t start, int32_t inclusive, int64_t *run) {
  return croner_previous(text, strlen(text), 0, clock, start, inclusive, run);
}

static void check_next(const char *text, const croner_clock *clock, int64_t start, int64_t wanted) {
  int64_t run = 0;
  CHECK(next(text, clock, start, 0, &run) == CRONER_OK && run == wanted, run);
}

static void check_utc(void) {
  int64_t run = 7;
  int32_t is_match = 7;
  check_next("0 9 * * MON-FRI", &utc, 1720170000, 1720429200); /* from a Friday to Monday */
  check_next("*/15 * * * * *", &utc, 1720170000, 1720170015);
  check_next("0 0 29 2 *", &utc, 1720170000, 1835395200); /* 2028-02-29 */
  CHECK(next("0 9 * * *", &utc, 1720170000, 1, &run) == CRONER_OK && run == 1720170000, run);
  CHECK(previous("0 9 * * *", &utc, 1720170000, 1, &run) == CRONER_OK && run == 1720170000, run);
  CHECK(previous("0 9 * * *", &utc, 1720170000, 0, &run) == CRONER_OK && run == 1720083600, run);
  CHECK(croner_matches("0 9 * * *", 9, 0, &utc, 1720170000, &is_match) == CRONER_OK && is_match == 1, is_match);
  CHECK(croner_matches("0 9 * * *", 9, 0, &utc, 1720170001, &is_match) == CRONER_OK && is_match == 0, is_match);
  run = 7;
  CHECK(next("0 0 0 1 1 * 2010", &utc, 1720170000, 0, &run) == CRONER_LIMIT && run == 7, run);
  CHECK(next("0 0 0 1 1 * 2200", &utc, 1720170000, 0, &run) == CRONER_OUTSIDE && run == 7, run);
  CHECK(previous("0 0 0 1 1 * 1990", &utc, 1720170000, 0, &run) == CRONER_OUTSIDE && run == 7, run);
  CHECK(next("* * * * *", &utc, YEAR_2000 - 1, 0, &run) == CRONER_OUTSIDE && run == 7, run);
  CHECK(next("* * * * *", &utc, YEAR_2100 + 1, 0, &run) == CRONER_OUTSIDE && run == 7, run);
  check_next("59 59 23 31 12 * 4999", &all_years, 1720170000, 95617583999);
  check_next("0 0 0 1 1 * 5000", &all_years, 1720170000, 95617584000);
  CHECK(next("0 0 0 2 1 * 5000", &all_years, 1720170000, 0, &run) == CRONER_LIMIT && run == 7, run);
  CHECK(previous("0 0 0 1 1 * 1", &all_years, 1720170000, 0, &run) == CRONER_LIMIT && run == 7, run);
  CHECK(croner_matches("* * * * *", 9, 0, &all_years, CRONER_LAST_SECOND - 59, &is_match) == CRONER_OK && is_match == 0, is_match);
  CHECK(next("0 25 * * *", &utc, 1720170000, 0, &run) == CRONER_REFUSED && run == 7, run);
  CHECK(next("0 9 * * *\xff", &utc, 1720170000, 0, &run) == CRONER_REFUSED && run == 7, run);
  CHECK(croner_version() == CRONER_VERSION, croner_version());
}

static void check_runs(void) {
  int64_t runs[8] = {7, 7, 7, 7, 7, 7, 7, 7};
  size_t count = 7;
  CHECK(croner_runs("0 9 * * *", 9, 0, &utc, 1720170000, 0, INT64_MAX, runs, 3, &count) == CRONER_OK && count == 3, count);
  CHECK(runs[0] == 1720256400 && runs[1] == 1720342800 && runs[2] == 1720429200 && runs[3] == 7, runs[0]);
  CHECK(croner_runs("0 9 * * *", 9, 0, &utc, 1720170000, 1, 1720256400, runs, 8, &count) == CRONER_OK && count == 2, count);
  CHECK(runs[0] == 1720170000 && runs[1] == 1720256400 && runs[2] == 1720429200, runs[1]);
  CHECK(croner_runs("0 9 * * *", 9, 0, &utc, 1720170000, 0, 1720170000, runs, 8, &count) == CRONER_OK && count == 0, count);
  CHECK(croner_runs("0 9 * * *", 9, 0, &utc, 1720170000, 0, INT64_MIN, runs, 8, &count) == CRONER_OK && count == 0, count);
  CHECK(croner_runs("0 9 * * *", 9, 0, &utc, 1720170000, 0, INT64_MAX, NULL, 0, &count) == CRONER_OK && count == 0, count);
  CHECK(croner_runs("0 0 0 1 1 * 2025-2026", 21, 0, &utc, 1720170000, 0, INT64_MAX, runs, 8, &count) == CRONER_LIMIT && count == 2, count);
  CHECK(croner_runs("0 0 0 1 1 * 2025,2200", 21, 0, &utc, 1720170000, 0, INT64_MAX, runs, 8, &count) == CRONER_OUTSIDE && count == 1, count);
  CHECK(croner_runs("0 9 * *", 7, 0, &utc, 1720170000, 0, INT64_MAX, runs, 8, &count) == CRONER_REFUSED && count == 1, count);
}

/* Both changes of 2024: at 2 the clock skips to 3 on 31 March, and at 3 it goes back to 2 on 27 October. */
static void check_paris(const croner_clock *paris) {
  int64_t runs[5];
  size_t count = 0;
  check_next("30 2 * * *", paris, 1711756800, 1711762200);
  check_next("30 2 * * *", paris, 1711762200, 1711846800); /* skipped: at 3 */
  check_next("30 2 * * *", paris, 1711846800, 1711931400);
  check_next("30 2 * * *", paris, 1729944000, 1729989000); /* twice: at the first */
  check_next("30 2 * * *", paris, 1729989000, 1730079000);
  check_next("*/30 2 * * *", paris, 1711762200, 1711929600); /* skipped */
  CHECK(croner_runs("*/30 2 * * *", 12, 0, paris, 1729944000, 0, INT64_MAX, runs, 5, &count) == CRONER_OK && count == 5, count);
  CHECK(runs[0] == 1729987200 && runs[1] == 1729989000 && runs[2] == 1729990800 && runs[3] == 1729992600 && runs[4] == 1730077200, runs[0]);
}

static void check_starts(const croner_clock *paris) {
  croner_start starts[3];
  size_t count = 0;
  const char *line = "0,20,40 2 * * * true";
  CHECK(croner_crontab_starts(line, 20, CRONER_USER_TABLE, paris, 1711800000, INT64_MAX, starts, 2, &count) == CRONER_OK && count == 2, count);
  CHECK(starts[0].second == 1711846800 && starts[0].times == 3 && starts[0].reserved == 0, starts[0].second);
  CHECK(starts[1].second == 1711929600 && starts[1].times == 1, starts[1].second);
  line = "*/20 2 * * * true";
  CHECK(croner_crontab_starts(line, 17, CRONER_USER_TABLE, paris, 1711800000, 1711929600, starts, 3, &count) == CRONER_OK && count == 1, count);
  CHECK(starts[0].second == 1711929600 && starts[0].times == 1, starts[0].second);
  CHECK(croner_crontab_starts("@reboot true", 12, 0, paris, 1711800000, 1711929600, starts, 3, &count) == CRONER_REFUSED, count);
  CHECK(croner_crontab_starts("A=b", 3, 0, paris, 1711800000, 1711929600, starts, 3, &count) == CRONER_REFUSED, count);
}

static bool says(const char *text, uint32_t form, const char *wanted) {
  char words[200];
  size_t length = 0, all = strlen(wanted);
  if (croner_describe(text, strlen(text), 0, form, words, sizeof words, &length) != CRONER_OK) return false;
  return length == all && memcmp(words, wanted, all) == 0;
}

static void check_words(void) {
  char words[30];
  size_t length = 0;
  CHECK(says("5 9 * * *", CRONER_ENGLISH, "At 09:05."), 0);
  CHECK(says("5 9 * * *", CRONER_SWEDISH, "Klockan 09:05."), 0);
  CHECK(says("5 9 * * MON-FRI", CRONER_ENGLISH_SUMMARY, "At 09:05, Monday to Friday"), 0);
  CHECK(says("5 9 * * MON-FRI", CRONER_SWEDISH_SUMMARY, "Kl. 09:05, m\xc3\xa5ndag till fredag"), 0);
  for (size_t room = 0; room <= 12; room++) {
    memset(words, '!', sizeof words);
    CHECK(croner_describe("5 9 * * *", 9, 0, 0, words, room, &length) == CRONER_OK && length == 9, length);
    size_t fits = room < 9 ? room : 9;
    CHECK(memcmp(words, "At 09:05.", fits) == 0 && words[fits] == '!', room);
  }
  CHECK(croner_describe("5 9 * * *", 9, 0, 0, NULL, 0, &length) == CRONER_OK && length == 9, length);
  CHECK(croner_describe("5 9 * * *", 9, 0, 4, words, 30, &length) == CRONER_BAD_ARGUMENT, length);
}

static void check_fault(const char *text, uint32_t settings, size_t begin, size_t end, size_t character, int32_t field, int32_t kind) {
  croner_fault fault = {sizeof fault, 9, 9, 9, 9, 9};
  char message[300];
  size_t length = 0;
  CHECK(croner_explain(text, strlen(text), settings, &fault, message, sizeof message, &length) == CRONER_REFUSED, kind);
  CHECK(fault.begin == begin && fault.end == end && fault.character == character, fault.begin);
  CHECK(fault.field == field && fault.kind == kind && length > 10, fault.field);
}

static void check_faults(void) {
  croner_fault fault = {sizeof fault, 9, 9, 9, 9, 9};
  size_t length = 9;
  CHECK(croner_explain("0 9 * * *", 9, 0, &fault, NULL, 0, &length) == CRONER_OK && length == 0, length);
  CHECK(fault.begin == 0 && fault.end == 0 && fault.character == 0 && fault.field == -1 && fault.kind == CRONER_NO_FAULT, fault.field);
  check_fault("0 9 * * MONDAY", 0, 11, 12, 12, 5, CRONER_ILLEGAL_CHARACTER);
  check_fault("", 0, 0, 0, 1, -1, CRONER_EMPTY);
  check_fault("0 9 *", 0, 4, 5, 5, -1, CRONER_FIELD_COUNT);
  check_fault("0 25 * * *", 0, 2, 4, 3, 2, CRONER_BAD_FIELD);
  check_fault("\xc3\xa5 \xff 9", 0, 3, 4, 3, -1, CRONER_NOT_UTF8);
  check_fault("0 0 9 * * *", CRONER_SECONDS_DISALLOWED | CRONER_YEAR_DISALLOWED, 10, 11, 11, -1, CRONER_FIELD_COUNT);
}

static croner_line line_of(const char *text, uint32_t table, croner_status wanted) {
  croner_line line;
  memset(&line, 9, sizeof line);
  line.size = sizeof line;
  CHECK(croner_crontab_line(text, strlen(text), table, &line) == wanted, line.kind);
  return line;
}

static void check_lines(void) {
  croner_line line = line_of(" */5 9 * * MON\troot \techo %a", CRONER_SYSTEM_TABLE, CRONER_OK);
  CHECK(line.kind == CRONER_JOB && line.fault == 0, line.kind);
  CHECK(line.schedule_begin == 1 && line.schedule_end == 14, line.schedule_end);
  CHECK(line.user_begin == 15 && line.user_end == 19, line.user_begin);
  CHECK(line.command_begin == 20 && line.command_end == 28, line.command_begin);
  line = line_of("@daily  echo", CRONER_USER_TABLE, CRONER_OK);
  CHECK(line.kind == CRONER_JOB && line.schedule_end == 6 && line.command_begin == 8 && line.user_end == 0, line.command_begin);
  CHECK(line_of("@reboot x", CRONER_USER_TABLE, CRONER_OK).kind == CRONER_REBOOT, 0);
  CHECK(line_of("", CRONER_USER_TABLE, CRONER_OK).kind == CRONER_BLANK, 0);
  CHECK(line_of("  # x", CRONER_USER_TABLE, CRONER_OK).kind == CRONER_COMMENT, 0);
  CHECK(line_of("TZ=UTC", CRONER_USER_TABLE, CRONER_OK).kind == CRONER_SETTING, 0);
  line = line_of("0 25 * * * echo", CRONER_USER_TABLE, CRONER_REFUSED);
  CHECK(line.kind == CRONER_REFUSED_LINE && line.fault == CRONER_LINE_HOURS, line.fault);
  CHECK(line.fault_begin == 2 && line.fault_end == 4 && line.command_end == 0, line.fault_begin);
  CHECK(line_of("0 9 * * * root", CRONER_SYSTEM_TABLE, CRONER_REFUSED).fault == CRONER_LINE_USER, 0);
}

/* ---- Wrong arguments: each is refused, and nothing is written */

static void check_settings(void) {
  int64_t run = 7;
  for (uint32_t settings = 0; settings < 300; settings++) {
    bool is_wrong = settings >= 128 || settings % 4 == 3 || settings / 4 % 4 == 3;
    const char *text = settings % 4 == 1 ? (settings / 4 % 4 == 1 ? "0 0 9 * * 2 *" : "0 0 9 * * 2") : settings / 4 % 4 == 1 ? "0 0 9 * * 2 *" : "0 9 * * 2";
    if (settings % 4 == 2 && settings / 4 % 4 == 1) continue; /* these settings accept no text */
    croner_status status = croner_next(text, strlen(text), settings, &utc, 1720170000, 0, &run);
    CHECK(status == (is_wrong ? CRONER_BAD_ARGUMENT : CRONER_OK), settings);
  }
}

static void check_clock(croner_clock clock, croner_status wanted) {
  int64_t run = 7;
  croner_status status = next("0 9 * * *", &clock, 1720170000, 0, &run);
  CHECK(status == wanted && (run == 7) == (status != CRONER_OK), status);
}

static void check_clocks(void) {
  croner_clock clock = utc;
  check_clock(clock, CRONER_OK);
  clock.size = 40;
  check_clock(clock, CRONER_BAD_ARGUMENT);
  clock = utc, clock.reserved = 1;
  check_clock(clock, CRONER_BAD_ARGUMENT);
  clock = utc, clock.first = YEAR_2100 + 1;
  check_clock(clock, CRONER_BAD_ARGUMENT);
  clock = utc, clock.first = CRONER_FIRST_SECOND, clock.last = CRONER_LAST_SECOND;
  check_clock(clock, CRONER_OK);
  clock.first--;
  check_clock(clock, CRONER_BAD_ARGUMENT);
  clock.first++, clock.last++;
  check_clock(clock, CRONER_BAD_ARGUMENT);
  clock = utc, clock.count = 1;
  check_clock(clock, CRONER_BAD_ARGUMENT); /* no changes there */
  clock = utc, clock.ahead = 86400;
  check_clock(clock, CRONER_OK);
  clock.ahead++;
  check_clock(clock, CRONER_NOT_CALM);
  croner_change changes[2] = {{1000000000, 3600, 0}, {1000172801, 0, 0}};
  clock = utc, clock.changes = changes, clock.count = 2;
  check_clock(clock, CRONER_OK);
  changes[1].second--;
  check_clock(clock, CRONER_NOT_CALM);
  changes[1].second++, changes[1].ahead = 3600;
  check_clock(clock, CRONER_NOT_CALM);
  changes[1].ahead = -3601;
  check_clock(clock, CRONER_NOT_CALM);
  changes[1].ahead = 0, clock.count = SIZE_MAX / 16;
  check_clock(clock, CRONER_BAD_ARGUMENT);
}

static void check_pointers(void) {
  static int64_t cells[64];
  int64_t *run = &cells[40];
  size_t count = 7;
  int32_t mark = 7;
  char word = 0;
  croner_clock *clock = (croner_clock *)(void *)cells;
  croner_change change = {0, 0, 0};
  *clock = utc;
  CHECK(next("0 9 * * *", clock, 1720170000, 0, run) == CRONER_OK, *run);
  CHECK(croner_next(NULL, 9, 0, clock, 1720170000, 0, run) == CRONER_BAD_ARGUMENT, 0);
  CHECK(croner_next(NULL, 0, 0, clock, 1720170000, 0, run) == CRONER_REFUSED, 0);
  CHECK(next("0 9 * * *", NULL, 1720170000, 0, run) == CRONER_BAD_ARGUMENT, 0);
  CHECK(next("0 9 * * *", clock, 1720170000, 0, NULL) == CRONER_BAD_ARGUMENT, 0);
  CHECK(next("0 9 * * *", clock, 1720170000, 2, run) == CRONER_BAD_ARGUMENT, 0);
  CHECK(next("0 9 * * *", clock, 1720170000, -1, run) == CRONER_BAD_ARGUMENT, 0);
  CHECK(next("0 9 * * *", clock, 1720170000, 0, &cells[3]) == CRONER_BAD_ARGUMENT, 0); /* in the clock */
  CHECK(next("0 9 * * *", clock, 1720170000, 0, (int64_t *)(void *)((char *)cells + 321)) == CRONER_BAD_ARGUMENT, 0);
  CHECK(croner_next((const char *)cells, SIZE_MAX, 0, &utc, 1720170000, 0, run) == CRONER_BAD_ARGUMENT, 0);
  CHECK(croner_next((const char *)cells, (size_t)PTRDIFF_MAX + 1, 0, &utc, 1720170000, 0, run) == CRONER_BAD_ARGUMENT, 0);
  CHECK(croner_runs("0 9 * * *", 9, 0, clock, 1720170000, 0, 0, cells, 8, &count) == CRONER_BAD_ARGUMENT, 0);
  CHECK(croner_runs("0 9 * * *", 9, 0, &utc, 1720170000, 0, 0, cells, 1000001, &count) == CRONER_BAD_ARGUMENT, 0);
  CHECK(croner_runs("0 9 * * *", 9, 0, &utc, 1720170000, 0, 0, NULL, 1, &count) == CRONER_BAD_ARGUMENT, 0);
  CHECK(croner_matches("0 9 * * *", 9, 0, clock, 0, NULL) == CRONER_BAD_ARGUMENT && mark == 7, mark);
  CHECK(croner_describe("0 9 * * *", 9, 0, 0, &word, 1, NULL) == CRONER_BAD_ARGUMENT, 0);
  CHECK(croner_explain("0 9 * * *", 9, 0, NULL, &word, 1, &count) == CRONER_BAD_ARGUMENT, 0);
  CHECK(croner_crontab_line("0 9 * * *", 9, 2, (croner_line *)(void *)cells) == CRONER_BAD_ARGUMENT, 0);
  CHECK(croner_crontab_line("0 9 * * *", 9, 0, NULL) == CRONER_BAD_ARGUMENT, 0);
  CHECK(croner_clock_of_tzif((const uint8_t *)cells, 100, 0, -1, &change, 1, &mark, &count) == CRONER_BAD_ARGUMENT, 0);
  CHECK(croner_clock_of_tzif((const uint8_t *)cells, 100, 0, 1, &change, 1, &mark, &count) == CRONER_BAD_ZONE, 0);
  CHECK(croner_clock_of_tzif((const uint8_t *)cells, 100, 0, 1, &change, 1, NULL, &count) == CRONER_BAD_ARGUMENT, 0);
  CHECK(croner_clock_of_posix("CET-1CEST", 9, 0, 1, &change, 1, &mark, &count) == CRONER_BAD_ZONE, 0);
  CHECK(mark == 7 && count == 7, mark);
}

static void check_rules(const croner_clock *paris) {
  static croner_change changes[400];
  const char *rule = "CET-1CEST,M3.5.0,M10.5.0/3";
  int32_t ahead = 0;
  size_t count = 0;
  CHECK(croner_clock_of_posix(rule, strlen(rule), YEAR_2000, YEAR_2100, changes, 400, &ahead, &count) == CRONER_OK, count);
  CHECK(count == paris->count && ahead == paris->ahead, count);
  for (size_t i = 0; i < count && i < paris->count; i++)
    CHECK(changes[i].second == paris->changes[i].second && changes[i].ahead == paris->changes[i].ahead && changes[i].reserved == 0, i);
  CHECK(croner_clock_of_posix(rule, strlen(rule), YEAR_2000, YEAR_2100, changes, count - 1, &ahead, &count) == CRONER_TOO_SMALL, count);
  CHECK(count == paris->count, count);
}

/* ---- Made-up calls */

static bool is_status(croner_status status) { return status >= CRONER_OK && status <= CRONER_BAD_ARGUMENT; }

/* A clock that may be calm, or is nearly so. */
static void make_clock(struct zone *zone) {
  int64_t second = draw_from(YEAR_2000, YEAR_2000 + 100 * DAY);
  size_t count = draw() % 20;
  int32_t ahead = (int32_t)draw_from(-60000, 60000);
  croner_clock clock = {sizeof clock, YEAR_2000, YEAR_2100, zone->changes, count, ahead, 0};
  for (size_t i = 0; i < count; i++) {
    int32_t step = draw() % 2 ? (int32_t)draw_from(1, 7200) : -(int32_t)draw_from(1, 7200);
    if (draw() % 60 == 0) step *= 12;
    ahead += step;
    zone->changes[i] = (croner_change){second, ahead, 0};
    second += draw_from(draw() % 50 == 0 ? 172000 : 172801, 40 * DAY);
  }
  zone->clock = clock;
}

/* A pattern of which the minutes, hours and weekdays are lists or stars. */
static void make_pattern(char *text, size_t room, uint64_t *minutes, uint32_t *hours, uint32_t *weekdays) {
  *minutes = draw() & draw() & draw() & ((UINT64_C(1) << 60) - 1);
  *hours = (uint32_t)(draw() & draw() & 0xFFFFFF);
  *weekdays = (uint32_t)(draw() & 0x7F);
  if (*minutes == 0) *minutes = 1;
  if (*hours == 0) *hours = 0xFFFFFF;
  if (*weekdays == 0) *weekdays = 0x7F;
  size_t at = 0;
  for (int i = 0; i < 60; i++)
    if (*minutes >> i & 1) at += (size_t)snprintf(text + at, room - at, "%s%d", at ? "," : "", i);
  at += (size_t)snprintf(text + at, room - at, " ");
  if (*hours == 0xFFFFFF) at += (size_t)snprintf(text + at, room - at, "*,");
  else
    for (int i = 0; i < 24; i++)
      if (*hours >> i & 1) at += (size_t)snprintf(text + at, room - at, "%d,", i);
  at += (size_t)snprintf(text + at - 1, room - at, " * * ") - 1;
  if (*weekdays == 0x7F) at += (size_t)snprintf(text + at, room - at, "*,");
  else
    for (int i = 0; i < 7; i++)
      if (*weekdays >> i & 1) at += (size_t)snprintf(text + at, room - at, "%d,", i);
  text[at - 1] = 0;
}

static int32_t ahead_at(const croner_clock *clock, int64_t second) {
  int32_t ahead = clock->ahead;
  for (size_t i = 0; i < clock->count && clock->changes[i].second <= second; i++) ahead = clock->changes[i].ahead;
  return ahead;
}

static bool is_scheduled(const croner_clock *clock, int64_t second, uint64_t minutes, uint32_t hours, uint32_t weekdays) {
  int64_t wall = second + ahead_at(clock, second);
  return wall % 60 == 0 && (minutes >> (wall / 60 % 60) & 1) && (hours >> (wall / 3600 % 24) & 1) && (weekdays >> ((wall / DAY + 4) % 7) & 1);
}

/* The next run of a pattern that isn't one time of day: the first second at which the clock shows a scheduled one. */
static int64_t next_by_hand(const croner_clock *clock, int64_t start, uint64_t minutes, uint32_t hours, uint32_t weekdays) {
  for (int64_t second = start + 1; second < start + 9 * DAY; second++) {
    if (is_scheduled(clock, second, minutes, hours, weekdays)) return second;
    /* To the last second before the next full minute, if nothing changes until then. */
    int64_t wall = second + ahead_at(clock, second), skip = 59 - wall % 60;
    if (skip > 0 && ahead_at(clock, second + skip) == ahead_at(clock, second)) second += skip;
  }
  return 0;
}

static void try_clock(void) {
  static struct zone zone;
  char text[400];
  uint64_t minutes;
  uint32_t hours, weekdays;
  int64_t run = 7, runs[65], before = 7;
  int32_t is_match = 7;
  size_t count = 7, room = draw() % 9;
  make_clock(&zone);
  make_pattern(text, sizeof text, &minutes, &hours, &weekdays);
  int64_t start = draw_from(YEAR_2000 + 3 * DAY, YEAR_2000 + 600 * DAY);
  if (draw() % 3 == 0 && zone.clock.count) start = zone.changes[draw() % zone.clock.count].second - draw_from(0, 9000);
  if (start < YEAR_2000) start = YEAR_2000;
  croner_status status = next(text, &zone.clock, start, 0, &run);
  if (status == CRONER_NOT_CALM) return;
  CHECK(status == CRONER_OK, status);
  bool is_fixed = (minutes & (minutes - 1)) == 0 && (hours & (hours - 1)) == 0;
  if (!is_fixed) CHECK(run == next_by_hand(&zone.clock, start, minutes, hours, weekdays), run);
  for (size_t i = 0; i < 65; i++) runs[i] = 7;
  CHECK(croner_runs(text, strlen(text), 0, &zone.clock, start, 0, INT64_MAX, runs, room, &count) == CRONER_OK && count == room, count);
  CHECK(runs[room] == 7, room);
  for (size_t i = 0; i < room; i++) {
    CHECK(runs[i] == run, i);
    CHECK(previous(text, &zone.clock, run, 1, &before) == CRONER_OK && before == run, before);
    if (i > 0) { CHECK(previous(text, &zone.clock, run, 0, &before) == CRONER_OK && before == runs[i - 1], before); }
    CHECK(croner_matches(text, strlen(text), 0, &zone.clock, run, &is_match) == CRONER_OK && (is_fixed || is_match == 1), run);
    CHECK(next(text, &zone.clock, run, 0, &run) == CRONER_OK, run);
  }
}

/* Any bytes, lengths, settings and rooms, each in memory of just that size. */
static void try_bytes(void) {
  static const char signs[] = "0123456789 */,-LW#?@MONJAN\t\xc3\xa5";
  size_t length = draw() % 40, room = draw() % 40, count = 7, words_length = 7;
  char *text = malloc(length + 1), *words = malloc(room + 1), *exact = realloc(text, length ? length : 1);
  for (size_t i = 0; i < length; i++) exact[i] = draw() % 30 ? signs[draw() % (sizeof signs - 1)] : (char)draw();
  uint32_t settings = draw() % 4 ? 0 : (uint32_t)(draw() % 140);
  int64_t *runs = malloc(room * sizeof *runs + 1), run = 7;
  croner_start *starts = malloc(room * sizeof *starts + 1);
  croner_change *changes = malloc(room * sizeof *changes + 1);
  croner_clock clock = {sizeof clock, YEAR_2000, YEAR_2100, changes, draw() % 3 ? 0 : room, (int32_t)draw_from(-90000, 90000), 0};
  for (size_t i = 0; i < room; i++) changes[i] = (croner_change){(int64_t)draw(), (int32_t)draw(), (int32_t)(draw() % 2)};
  croner_fault fault = {sizeof fault, 0, 0, 0, 0, 0};
  croner_line line = {.size = sizeof line};
  int32_t ahead = 0;
  int64_t start = draw_from(YEAR_2000, YEAR_2100);
  CHECK(is_status(croner_next(exact, length, settings, &clock, start, draw() % 3, &run)), settings);
  CHECK(is_status(croner_previous(exact, length, settings, &clock, start, draw() % 3, &run)), settings);
  CHECK(is_status(croner_matches(exact, length, settings, &clock, start, &ahead)), settings);
  CHECK(is_status(croner_runs(exact, length, settings, &clock, start, draw() % 3, (int64_t)draw(), runs, room, &count)), settings);
  CHECK(is_status(croner_describe(exact, length, settings, (uint32_t)draw() % 5, words, room, &words_length)), settings);
  croner_status status = croner_explain(exact, length, settings, &fault, words, room, &words_length);
  CHECK(is_status(status), status);
  if (status == CRONER_REFUSED) CHECK(fault.begin <= fault.end && fault.end <= length && fault.kind >= 1 && fault.kind <= 5, fault.end);
  status = croner_crontab_line(exact, length, draw() % 3, &line);
  CHECK(is_status(status), status);
  CHECK(line.command_begin <= line.command_end && line.command_end <= length && line.schedule_end <= length && line.user_end <= length, line.kind);
  CHECK(is_status(croner_crontab_starts(exact, length, draw() % 3, &clock, start, (int64_t)draw(), starts, room, &count)), length);
  CHECK(is_status(croner_clock_of_posix(exact, length, start, start + 1000000, changes, room, &ahead, &count)), length);
  CHECK(is_status(croner_clock_of_tzif((const uint8_t *)exact, length, start, start + 1000000, changes, room, &ahead, &count)), length);
  free(exact), free(words), free(runs), free(starts), free(changes);
}

/* A time zone file of which bytes are changed. */
static void try_file(const uint8_t *bytes, size_t length) {
  static croner_change changes[50];
  int32_t ahead = 0;
  size_t count = 0, used = draw() % 4 ? length : draw() % (length + 1);
  uint8_t *changed = malloc(used ? used : 1);
  memcpy(changed, bytes, used);
  for (size_t i = draw() % 6; i > 0 && used > 0; i--) changed[draw() % 3 ? draw() % used : draw() % (used < 50 ? used : 50)] = (uint8_t)draw();
  int64_t first = draw_from(-INT64_C(3000000000), YEAR_2100);
  CHECK(is_status(croner_clock_of_tzif(changed, used, first, first + draw_from(0, 1000000000), changes, draw() % 50, &ahead, &count)), used);
  free(changed);
}

/* ---- Threads */

static const croner_clock *shared;

static void *run_thread(void *counted) {
  long *differing = counted;
  for (int64_t i = 0; i < 3000; i++) {
    int64_t start = 1711756800 + i * 7919, run = 0, again = 0;
    size_t length = 0;
    char words[100];
    if (next("30 2,14 * * *", shared, start, 0, &run) != CRONER_OK) ++*differing;
    if (previous("30 2,14 * * *", shared, run + 1, 0, &again) != CRONER_OK || again != run) ++*differing;
    if (croner_describe("30 2 * * *", 10, 0, 0, words, sizeof words, &length) != CRONER_OK || length != 9) ++*differing;
  }
  return NULL;
}

static void check_threads(const croner_clock *clock) {
  pthread_t threads[12];
  long differing[12] = {0};
  shared = clock;
  for (int i = 0; i < 12; i++)
    if (pthread_create(&threads[i], NULL, run_thread, &differing[i])) exit(1);
  for (int i = 0; i < 12; i++) {
    pthread_join(threads[i], NULL);
    CHECK(differing[i] == 0, differing[i]);
  }
}

int main(int count, char **words) {
  if (count != 3) {
    fprintf(stderr, "usage: calls FOLDER NUMBER\n");
    return 2;
  }
  static struct zone paris, other;
  static uint8_t bytes[100000];
  long number = atol(words[2]);
  static const char *const names[] = {"UTC", "Europe/Stockholm", "America/New_York", "Antarctica/Troll", "Asia/Kolkata", "Australia/Lord_Howe", "Pacific/Apia"};
  errno = 77;
  CHECK(take_zone(words[1], "Europe/Paris", &paris) == CRONER_OK && paris.clock.count == 200, paris.clock.count);
  for (size_t i = 0; i < sizeof names / sizeof *names; i++) CHECK(take_zone(words[1], names[i], &other) == CRONER_OK, i);
  check_utc();
  check_runs();
  check_paris(&paris.clock);
  check_starts(&paris.clock);
  check_words();
  check_faults();
  check_lines();
  check_settings();
  check_clocks();
  check_pointers();
  check_rules(&paris.clock);
  check_threads(&paris.clock);
  size_t length = read_file(words[1], "Europe/Paris", bytes, sizeof bytes);
  errno = 77;
  for (long i = 0; i < number; i++) {
    if (i % 20 == 0) try_clock();
    else if (i % 20 == 1) try_file(bytes, length);
    else try_bytes();
  }
  CHECK(errno == 77, errno);
  printf("%ld passed, %ld failed\n", passed, failed);
  return failed != 0;
}
