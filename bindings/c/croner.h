/* croner.h: cron patterns, and when they run. For C99 and C++; link with -lcroner.
 *
 * The library keeps nothing between two calls, and no call depends on another. It reads no file, no clock and no environment. It
 * starts no thread and takes no lock. Any number of threads may call it at once.
 *
 * TIMES are seconds since 1970-01-01T00:00:00 UTC.
 *
 * STATUS. Each function but croner_version returns a croner_status. CRONER_BAD_ARGUMENT says that the call is wrong, whatever its
 * text is; nothing is written then. Where a function writes something with another status than CRONER_OK, its comment says so.
 *
 * TEXTS are a pointer and a length in bytes. They need no byte 0 at the end.
 *
 * WRITTEN TEXTS. A function that writes a text writes at most `room` bytes of it, without a byte 0 at the end, and puts the length of
 * the whole text into *length. Where *length > room the text was cut: call again with more room. The bytes are UTF-8, but a cut
 * may fall inside a character.
 *
 * POINTERS. A function returns CRONER_BAD_ARGUMENT for a null or a misaligned pointer, for 2^63 bytes or more, and where an argument
 * that it writes overlaps another argument. A pointer with a length or a room of 0 may be null. What no function can test is the
 * caller's part: there is as much memory as the length or the room says, and no other thread writes it during the call. No pointer
 * is kept after the call, and none of the library's own is handed out: there is nothing to free.
 *
 * MEMORY. Calls take memory by malloc and realloc, and give all of it back by free before they return. Where there is none the status
 * is CRONER_OUT_OF_MEMORY. The library needs about 16 KiB of stack. Don't call it from a signal handler, nor from the child of a
 * fork of a process with threads. No function aborts, and none sets errno.
 */
#ifndef CRONER_H
#define CRONER_H

#include <stddef.h>
#include <stdint.h>

#ifdef __cplusplus
extern "C" {
#endif

/* What a call came to. */
typedef int32_t croner_status;
enum {
  CRONER_OK = 0,
  /* The text is no pattern, or the line is none that cron accepts. */
  CRONER_REFUSED = 1,
  /* No run is left: forward none before the clock first shows year 5000, backward none after it last shows year 1. In year 5000, or
   * year 1, some runs are found and others are missed. The clock is taken to keep its offset before its first change and after its
   * last one. */
  CRONER_LIMIT = 2,
  /* malloc or realloc gave no memory. */
  CRONER_OUT_OF_MEMORY = 3,
  /* The start, or the next run, lies outside the clock's window. */
  CRONER_OUTSIDE = 4,
  /* The clock isn't calm: see croner_clock. */
  CRONER_NOT_CALM = 5,
  /* The bytes are no time zone file, or the text is no POSIX rule. */
  CRONER_BAD_ZONE = 6,
  /* There are more changes than room for them. */
  CRONER_TOO_SMALL = 7,
  /* An argument has a value that the function doesn't accept. */
  CRONER_BAD_ARGUMENT = 8
};

/* The settings of a pattern, added up. With 0 a pattern has 5, 6 or 7 fields, as in "0 9 * * MON-FRI": an optional second comes
 * first, and an optional year last. A function refuses other bits, and both of the bits for the second or for the year. */
enum {
  CRONER_SECONDS_REQUIRED = 1,
  CRONER_SECONDS_DISALLOWED = 2,
  CRONER_YEAR_REQUIRED = 4,
  CRONER_YEAR_DISALLOWED = 8,
  /* A day has to match both the day of month and the weekday. */
  CRONER_DAY_AND_WEEKDAY = 16,
  /* Weekdays are 1 for Sunday to 7 for Saturday. */
  CRONER_QUARTZ_WEEKDAYS = 32,
  /* A step may follow a single value, as in 5/10. */
  CRONER_SLOPPY_RANGES = 64
};

/* The version of this interface: 0x010000 is 1.0.0. A library with another first number has another soname. */
#define CRONER_VERSION 0x010000

/* The version of the library. */
uint32_t croner_version(void);

/* ---- Clocks ---- */

/* A change of a clock: from this second on it is so many seconds ahead of UTC. */
typedef struct croner_change {
  int64_t second;
  int32_t ahead;
  int32_t reserved; /* 0 */
} croner_change;

/* A clock: how far it is ahead of UTC, in seconds, before its first change, and from each change on. The caller owns all of it. Each
 * call reads and tests it anew.
 *
 * The window is the time for which the clock is right. A start outside it has the status CRONER_OUTSIDE, and so has a run. What the
 * clock shows just before its window can decide what runs in it: list the changes from 180000 seconds (50 hours) before the window
 * on, as croner_clock_of_tzif does.
 *
 * A clock is calm if
 * - its offsets are from -86400 to 86400;
 * - its changes come in order, each more than 172800 seconds after the one before;
 * - each moves the clock, by at most 86400 seconds forward or 7200 back;
 * - they lie in the years -9999 to 9999 of UTC;
 * - at most 20000 of them happen in the years 1 to 5000 of the clock, and these skip at most 20000000 seconds together.
 * From 1970 to 2100, 595 of the 598 names of the time zone database are calm. UTC has no change: {sizeof(croner_clock), FIRST, LAST, NULL, 0, 0, 0}. */
typedef struct croner_clock {
  size_t size;                  /* sizeof(croner_clock) */
  int64_t first;                /* the first second of the window; not before CRONER_FIRST_SECOND */
  int64_t last;                 /* the last one; not before `first`, nor after CRONER_LAST_SECOND */
  const croner_change *changes; /* null only if there are none */
  size_t count;                 /* how many changes there are */
  int32_t ahead;                /* how far the clock is ahead of UTC before its first change */
  int32_t reserved;             /* 0 */
} croner_clock;

/* The first and the last second that a window can have: those of the years -9996 to 9996 of UTC. */
#define CRONER_FIRST_SECOND (-INT64_C(377610508800))
#define CRONER_LAST_SECOND INT64_C(253307692799)

/* The clock of a time zone file, as /usr/share/zoneinfo has them, for a window: how far it is *ahead of UTC 50 hours before the window, and
 * the changes from there to the window's end, in order. *count is how many there are: 200 for a century of Europe/Paris.
 *
 * CRONER_TOO_SMALL: there are more than `room`; the first `room` are written, and *ahead and *count too.
 * CRONER_BAD_ZONE: the bytes are no time zone file (TZif).
 * CRONER_NOT_CALM: the zone isn't calm there.
 * CRONER_BAD_ARGUMENT: more than 1000000 bytes; or no window: last < first, or one of them outside CRONER_FIRST_SECOND to
 * CRONER_LAST_SECOND. */
croner_status croner_clock_of_tzif(const uint8_t *bytes, size_t length, int64_t first, int64_t last, croner_change *changes,
                                   size_t room, int32_t *ahead, size_t *count);

/* The same for a POSIX rule of at most 1000 bytes, such as "CET-1CEST,M3.5.0,M10.5.0/3". */
croner_status croner_clock_of_posix(const char *rule, size_t length, int64_t first, int64_t last, croner_change *changes, size_t room,
                                    int32_t *ahead, size_t *count);

/* ---- Patterns ---- */

/* The next run after a start; with `inclusive` 1, and not 0, at the start or after it. */
croner_status croner_next(const char *text, size_t length, uint32_t settings, const croner_clock *clock, int64_t start,
                          int32_t inclusive, int64_t *run);

/* The last run before a start; with `inclusive` 1, and not 0, at the start or before it. */
croner_status croner_previous(const char *text, size_t length, uint32_t settings, const croner_clock *clock, int64_t start,
                              int32_t inclusive, int64_t *run);

/* The runs after a start (with `inclusive` 1: from it on) and up to `until`, in order, each once and none left out; at most `room`, which is
 * at most 1000000. *count is how many were written. With INT64_MAX as `until` the listing goes on to the window's end.
 *
 * CRONER_OK: `room` runs were written, or the next run comes after `until`, which doesn't lie after the window.
 * CRONER_OUTSIDE: `until` lies after the window, and so does the next run; fewer than `room` were written.
 * CRONER_LIMIT: no more run is left; fewer than `room` were written. */
croner_status croner_runs(const char *text, size_t length, uint32_t settings, const croner_clock *clock, int64_t start,
                          int32_t inclusive, int64_t until, int64_t *runs, size_t room, size_t *count);

/* Whether the clock shows a scheduled second: *is_match is 1 or 0. */
croner_status croner_matches(const char *text, size_t length, uint32_t settings, const croner_clock *clock, int64_t second,
                             int32_t *is_match);

/* The forms of a description. A description is croner's sentence; a summary says exactly the schedule, in fewer words. */
enum {
  CRONER_ENGLISH = 0,
  CRONER_SWEDISH = 1,
  CRONER_ENGLISH_SUMMARY = 2,
  CRONER_SWEDISH_SUMMARY = 3
};

/* Writes a pattern in words. */
croner_status croner_describe(const char *text, size_t length, uint32_t settings, uint32_t form, char *words, size_t room,
                              size_t *words_length);

/* The kinds of a fault of a pattern. */
enum {
  CRONER_NO_FAULT = 0,
  CRONER_EMPTY = 1,             /* nothing but white space */
  CRONER_FIELD_COUNT = 2,       /* a count of fields that the settings don't accept */
  CRONER_ILLEGAL_CHARACTER = 3, /* a character that its field can't have */
  CRONER_BAD_FIELD = 4,         /* a field that can't be read */
  CRONER_NOT_UTF8 = 5           /* a byte that is no UTF-8 */
};

/* Where and why a pattern is refused. */
typedef struct croner_fault {
  size_t size;      /* sizeof(croner_fault), by the caller */
  size_t begin;     /* the byte at which the fault begins, from 0 */
  size_t end;       /* the byte after its last one */
  size_t character; /* the number of its first character, from 1 */
  int32_t field;    /* 0 second, 1 minute, 2 hour, 3 day of month, 4 month, 5 weekday, 6 year; -1: no single field */
  int32_t kind;     /* CRONER_EMPTY to CRONER_NOT_UTF8 */
} croner_fault;

/* Why a pattern is refused.
 *
 * CRONER_OK: it is accepted; *message_length is 0, and the fault is all 0 but its size, with field -1.
 * CRONER_REFUSED: the fault, and its message, are written. */
croner_status croner_explain(const char *text, size_t length, uint32_t settings, croner_fault *fault, char *message, size_t room,
                             size_t *message_length);

/* ---- Lines of a crontab, as Debian's cron reads them ---- */

/* Whose crontab: in the system's, a user's name comes before the command. */
enum {
  CRONER_USER_TABLE = 0,
  CRONER_SYSTEM_TABLE = 1
};

/* What a line is. */
enum {
  CRONER_BLANK = 0,
  CRONER_COMMENT = 1,
  CRONER_SETTING = 2, /* it sets a variable */
  CRONER_JOB = 3,     /* a job that runs at times */
  CRONER_REBOOT = 4,  /* a job that runs when the machine starts */
  CRONER_NEVER = 5,   /* a job that never runs, since a field names nothing */
  CRONER_REFUSED_LINE = 6
};

/* Why cron refuses a line. */
enum {
  CRONER_LINE_NUL = 1,           /* a byte 0 */
  CRONER_LINE_MINUTES = 2,       /* the minutes are missing, or cron refuses them; so for the next four */
  CRONER_LINE_HOURS = 3,
  CRONER_LINE_DAYS = 4,
  CRONER_LINE_MONTHS = 5,
  CRONER_LINE_WEEKDAYS = 6,
  CRONER_LINE_NICKNAME = 7,      /* a word after @ that is no nickname, or not in lower case */
  CRONER_LINE_USER = 8,          /* no user's name, or no blank after it */
  CRONER_LINE_COMMAND = 9,       /* a command that begins with * */
  CRONER_LINE_LONG_COMMAND = 10  /* a command of more than 998 bytes */
};

/* A line. Places are bytes of the line from 0: the first, and the one after the last. What a line doesn't have is from 0 to 0. */
typedef struct croner_line {
  size_t size; /* sizeof(croner_line), by the caller */
  size_t schedule_begin, schedule_end; /* a job's fields, or its nickname */
  size_t user_begin, user_end;         /* its user, in a system's crontab */
  size_t command_begin, command_end;   /* its command, as written */
  size_t fault_begin, fault_end;       /* the place of a refused line's fault */
  int32_t kind;                        /* CRONER_BLANK to CRONER_REFUSED_LINE */
  int32_t fault;                       /* CRONER_LINE_NUL to CRONER_LINE_LONG_COMMAND; else 0 */
} croner_line;

/* What a line is to cron. The line comes without its line feed.
 *
 * CRONER_OK, CRONER_REFUSED: *out is written. */
croner_status croner_crontab_line(const char *line, size_t length, uint32_t table, croner_line *out);

/* The starts of a job at one second: more than one only where cron makes up for minutes that the clock has skipped. */
typedef struct croner_start {
  int64_t second;
  uint32_t times;    /* from 1 to 180 */
  uint32_t reserved; /* 0 */
} croner_start;

/* The seconds after a start and up to `until` at which Debian's cron starts a line's job, if cron runs all the time; at most `room`, which
 * is at most 1000000. They come in order, each once and none left out. *count is how many were written.
 *
 * CRONER_OK: `room` were written, or the next one comes after `until`, which doesn't lie after the window.
 * CRONER_OUTSIDE: `until` lies after the window, and so does the next one; fewer than `room` were written.
 * CRONER_LIMIT: no more is left; fewer than `room` were written.
 * CRONER_REFUSED: the line is no job with times: see croner_crontab_line. */
croner_status croner_crontab_starts(const char *line, size_t length, uint32_t table, const croner_clock *clock, int64_t start,
                                    int64_t until, croner_start *starts, size_t room, size_t *count);

#ifdef __cplusplus
}
#endif

#endif
