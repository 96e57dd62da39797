/* The functions of croner.h. Each tests what the caller alone could otherwise know (null pointers, alignment, lengths, overlaps), and asks
 * the proved export of the same name. The exports take a text as bytes, a slice as a pointer and then a length, and a null pointer
 * nowhere. */
#include "croner.h"

#include <errno.h>
#include <stdbool.h>

/* ---- The exports of crates/croner_c ---- */

int32_t croner_c_next(const uint8_t *text, size_t length, uint32_t settings, const croner_clock *clock, int64_t start, int32_t inclusive,
                      int64_t *run);
int32_t croner_c_previous(const uint8_t *text, size_t length, uint32_t settings, const croner_clock *clock, int64_t start,
                          int32_t inclusive, int64_t *run);
int32_t croner_c_runs(const uint8_t *text, size_t length, uint32_t settings, const croner_clock *clock, int64_t start, int32_t inclusive,
                      int64_t until, int64_t *runs, size_t room, size_t *count);
int32_t croner_c_matches(const uint8_t *text, size_t length, uint32_t settings, const croner_clock *clock, int64_t second,
                         int32_t *is_match);
int32_t croner_c_describe(const uint8_t *text, size_t length, uint32_t settings, uint32_t form, uint8_t *words, size_t room,
                          size_t *words_length);
int32_t croner_c_explain(const uint8_t *text, size_t length, uint32_t settings, croner_fault *fault, uint8_t *message, size_t room,
                         size_t *message_length);
int32_t croner_c_clock_of_tzif(const uint8_t *bytes, size_t length, int64_t first, int64_t last, croner_change *changes, size_t room,
                               int32_t *ahead, size_t *count);
int32_t croner_c_clock_of_posix(const uint8_t *rule, size_t length, int64_t first, int64_t last, croner_change *changes, size_t room,
                int32_t *ahead, size_t *count);
int32_t croner_c_crontab_line(const uint8_t *line, size_t length, uint32_t table, croner_line *out);
int32_t croner_c_crontab_starts(const uint8_t *line, size_t length, uint32_t table, const croner_clock *clock, int64_t start,
                int64_t until, croner_start *starts, size_t room, size_t *count);

/* ---- Arguments in memory ---- */

struct part {
  const void *at;
  size_t count; /* of elements */
  size_t size;  /* of one, in bytes */
  bool is_written;
};

#define READ(at, count) {(at), (count), sizeof *(at), false}
#define WRITTEN(at, count) {(at), (count), sizeof *(at), true}

/* Where there is nothing: a caller may pass any pointer with a length of 0. */
static const croner_change nothing;

/* The alignment that an element of so many bytes can ask for. */
static size_t alignment(size_t size) { return size < 8 ? size : 8; }

/* Whether its bytes are an object that memory can hold, or none. */
static bool is_object(const struct part *part)
{
  uintptr_t begin = (uintptr_t)part->at;
  if (part->count == 0) return true;
  if (part->at == NULL || begin % alignment(part->size) != 0) return false;
  return part->count <= PTRDIFF_MAX / part->size && part->count * part->size <= UINTPTR_MAX - begin;
}

static bool overlap(const struct part *one, const struct part *other)
{
  uintptr_t a = (uintptr_t)one->at, b = (uintptr_t)other->at;
  return one->count != 0 && other->count != 0 && a < b + other->count * other->size && b < a + one->count * one->size;
}

/* Whether each is an object, and none that is written overlaps another. */
static bool are_arguments(const struct part *parts, size_t count)
{
  for (size_t i = 0; i < count; i++) {
    if (!is_object(&parts[i])) return false;
    for (size_t j = 0; j < i; j++)
      if ((parts[i].is_written || parts[j].is_written) && overlap(&parts[i], &parts[j])) return false;
  }
  return true;
}

/* Whether a pointer leads to a struct that begins with its size. */
static bool has_size(const void *at, size_t size)
{
  return at != NULL && (uintptr_t)at % alignment(size) == 0 && *(const size_t *)at == size;
}

#define ARE_ARGUMENTS(...) \
  are_arguments((const struct part[]){__VA_ARGS__}, sizeof((const struct part[]){__VA_ARGS__}) / sizeof(struct part))

static const uint8_t *octets(const void *at, size_t length) { return length == 0 ? (const uint8_t *)&nothing : at; }

/* (nothing is written there) */
static void *space(void *at, size_t room) { return room == 0 ? (void *)(uintptr_t)&nothing : at; }

static croner_clock clock_of(const croner_clock *clock)
{
  croner_clock used = *clock;
  if (used.count == 0) used.changes = &nothing;
  return used;
}

/* A call; malloc may have set errno in it. */
#define ASK(call) \
  do { \
    int kept = errno; \
    croner_status status = (call); \
    errno = kept; \
    return status; \
  } while (0)

/* ---- The functions ---- */

uint32_t croner_version(void) { return CRONER_VERSION; }

croner_status croner_next(const char *text, size_t length, uint32_t settings, const croner_clock *clock, int64_t start,
                          int32_t inclusive, int64_t *run)
{
  if (!has_size(clock, sizeof *clock)) return CRONER_BAD_ARGUMENT;
  if (!ARE_ARGUMENTS(READ(text, length), READ(clock, 1), READ(clock->changes, clock->count), WRITTEN(run, 1)))
    return CRONER_BAD_ARGUMENT;
  croner_clock used = clock_of(clock);
  ASK(croner_c_next(octets(text, length), length, settings, &used, start, inclusive, run));
}

croner_status croner_previous(const char *text, size_t length, uint32_t settings, const croner_clock *clock, int64_t start,
                              int32_t inclusive, int64_t *run)
{
  if (!has_size(clock, sizeof *clock)) return CRONER_BAD_ARGUMENT;
  if (!ARE_ARGUMENTS(READ(text, length), READ(clock, 1), READ(clock->changes, clock->count), WRITTEN(run, 1)))
    return CRONER_BAD_ARGUMENT;
  croner_clock used = clock_of(clock);
  ASK(croner_c_previous(octets(text, length), length, settings, &used, start, inclusive, run));
}

croner_status croner_runs(const char *text, size_t length, uint32_t settings, const croner_clock *clock, int64_t start,
                          int32_t inclusive, int64_t until, int64_t *runs, size_t room, size_t *count)
{
  if (!has_size(clock, sizeof *clock)) return CRONER_BAD_ARGUMENT;
  if (!ARE_ARGUMENTS(READ(text, length), READ(clock, 1), READ(clock->changes, clock->count), WRITTEN(runs, room), WRITTEN(count, 1)))
    return CRONER_BAD_ARGUMENT;
  croner_clock used = clock_of(clock);
  ASK(croner_c_runs(octets(text, length), length, settings, &used, start, inclusive, until, space(runs, room), room, count));
}

croner_status croner_matches(const char *text, size_t length, uint32_t settings, const croner_clock *clock, int64_t second,
                             int32_t *is_match)
{
  if (!has_size(clock, sizeof *clock)) return CRONER_BAD_ARGUMENT;
  if (!ARE_ARGUMENTS(READ(text, length), READ(clock, 1), READ(clock->changes, clock->count), WRITTEN(is_match, 1)))
    return CRONER_BAD_ARGUMENT;
  croner_clock used = clock_of(clock);
  ASK(croner_c_matches(octets(text, length), length, settings, &used, second, is_match));
}

croner_status croner_describe(const char *text, size_t length, uint32_t settings, uint32_t form, char *words, size_t room,
                              size_t *words_length)
{
  if (!ARE_ARGUMENTS(READ(text, length), WRITTEN(words, room), WRITTEN(words_length, 1))) return CRONER_BAD_ARGUMENT;
  ASK(croner_c_describe(octets(text, length), length, settings, form, space(words, room), room, words_length));
}

croner_status croner_explain(const char *text, size_t length, uint32_t settings, croner_fault *fault, char *message, size_t room,
                             size_t *message_length)
{
  if (!has_size(fault, sizeof *fault)) return CRONER_BAD_ARGUMENT;
  if (!ARE_ARGUMENTS(READ(text, length), WRITTEN(fault, 1), WRITTEN(message, room), WRITTEN(message_length, 1)))
    return CRONER_BAD_ARGUMENT;
  ASK(croner_c_explain(octets(text, length), length, settings, fault, space(message, room), room, message_length));
}

croner_status croner_clock_of_tzif(const uint8_t *bytes, size_t length, int64_t first, int64_t last, croner_change *changes,
                                   size_t room, int32_t *ahead, size_t *count)
{
  if (!ARE_ARGUMENTS(READ(bytes, length), WRITTEN(changes, room), WRITTEN(ahead, 1), WRITTEN(count, 1))) return CRONER_BAD_ARGUMENT;
  ASK(croner_c_clock_of_tzif(octets(bytes, length), length, first, last, space(changes, room), room, ahead, count));
}

croner_status croner_clock_of_posix(const char *rule, size_t length, int64_t first, int64_t last, croner_change *changes, size_t room,
                  int32_t *ahead, size_t *count)
{
  if (!ARE_ARGUMENTS(READ(rule, length), WRITTEN(changes, room), WRITTEN(ahead, 1), WRITTEN(count, 1))) return CRONER_BAD_ARGUMENT;
  ASK(croner_c_clock_of_posix(octets(rule, length), length, first, last, space(changes, room), room, ahead, count));
}

croner_status croner_crontab_line(const char *line, size_t length, uint32_t table, croner_line *out)
{
  if (!has_size(out, sizeof *out)) return CRONER_BAD_ARGUMENT;
  if (!ARE_ARGUMENTS(READ(line, length), WRITTEN(out, 1))) return CRONER_BAD_ARGUMENT;
  ASK(croner_c_crontab_line(octets(line, length), length, table, out));
}

croner_status croner_crontab_starts(const char *line, size_t length, uint32_t table, const croner_clock *clock, int64_t start,
                  int64_t until, croner_start *starts, size_t room, size_t *count)
{
  if (!has_size(clock, sizeof *clock)) return CRONER_BAD_ARGUMENT;
  if (!ARE_ARGUMENTS(READ(line, length), READ(clock, 1), READ(clock->changes, clock->count), WRITTEN(starts, room), WRITTEN(count, 1)))
    return CRONER_BAD_ARGUMENT;
  croner_clock used = clock_of(clock);
  ASK(croner_c_crontab_starts(octets(line, length), length, table, &used, start, until, space(starts, room), room, count));
}
