#!/usr/bin/env python3
"""A slow model of crontabs, as Debian's cron 3.0pl1 reads them, that shares nothing with the library.

    tools/crontab_model.py lines    [--system] FILE                        what each line is
    tools/crontab_model.py runs     [--system] FILE ZONE FROM UNTIL        the runs of each job, after FROM and up to UNTIL
    tools/crontab_model.py starts   [--system] FILE ZONE FROM UNTIL        what cron itself starts there: instants, and how many times
    tools/crontab_model.py warnings [--system | --patterns] FILE ZONE FROM what is to be said of each line that is taken

ZONE is a name of the machine's database or a POSIX rule; FROM and UNTIL are seconds since 1970. One line of JSON is
printed for each line of the file; of warnings, for each line that has some.

How a line is read. Byte after byte, as cron's own reader goes over it: what is a setting is decided first, by its
states; then a nickname or five fields; then a user, where the crontab is the system's; and what is left is the
command. A line that cron refuses has the part at which it stops (`Refused`), in cron's own words. The one liberty: a
line with a byte 0, and one that ends at a quote that it began, are decided without what cron's memory had before.

How runs come about. The clock of a zone is its spans of one offset. In each span one wall minute after another is
looked at: it is named, or not. A job of one plain minute and one plain hour runs only where no earlier instant shows
the same minute; and at the first instant after a gap that holds a named minute, if the date there is named.

What cron starts: by its main loop, with its variables and its four cases by their names. Its sleep takes no time: it looks at
the clock at each second, and what it starts is started at that second.

How warnings come about: by the words of docs/CRONTAB.md over what the fields name, each month of each named year, each
second that a change of the clock skips or repeats; that a job never runs, by looking for a run to the end of year 5000.
"""
import bisect
import functools
import io
import json
import pathlib
import re
import sys
import zoneinfo

import model
import zones

DAY = model.DAY
MONTHS = ["jan", "feb", "mar", "apr", "may", "jun", "jul", "aug", "sep", "oct", "nov", "dec"]
WEEKDAYS = ["sun", "mon", "tue", "wed", "thu", "fri", "sat"]
# The fields in order: what cron calls each, its least and greatest value, and its names from the least value on.
FIELDS = [
    ("minute", 0, 59, []),
    ("hour", 0, 23, []),
    ("day-of-month", 1, 31, []),
    ("month", 1, 12, MONTHS),
    ("day-of-week", 0, 7, WEEKDAYS),
]
NICKNAMES = {
    b"yearly": "0 0 1 1 *",
    b"annually": "0 0 1 1 *",
    b"monthly": "0 0 1 * *",
    b"weekly": "0 0 * * 0",
    b"daily": "0 0 * * *",
    b"midnight": "0 0 * * *",
    b"hourly": "0 * * * *",
}
SPACES = b" \t\v\f\r"
LINE_FEED = b"\n"
END = b"\xff"  # cron keeps what follows a part in a char, where this byte is the end of the file
SETTING_BYTES, COMMAND_BYTES, WORD_BYTES = 998, 998, 999
WATCHED = 372 * DAY
LAST_YEAR = 5000


class Refused(Exception):
    """The part of a line at which cron stops."""


# ---- a line


class Bytes:
    """The bytes of a line, one after another, and then line feeds."""

    def __init__(self, text):
        self.text, self.at = text, 0

    def now(self):
        return self.text[self.at:self.at + 1] or LINE_FEED

    def step(self):
        self.at += 1

    def skip(self, kind):
        while self.now() in kind:
            self.step()

    def take_until(self, kind):
        begin = self.at
        while self.now() not in kind:
            self.step()
        return self.text[begin:self.at]


BLANKS = {b" ", b"\t"}
BLANKS_AND_END = BLANKS | {LINE_FEED}
ALPHANUMERIC = {bytes([n]) for n in range(128) if chr(n).isalnum()}


class Part:
    """A part of a field: its bounds and its step; whether it was a star; whether a step was written."""

    def __init__(self, first, last, is_star):
        self.first, self.last, self.step, self.is_star = first, last, 1, is_star

    def values(self):
        return list(range(self.first, self.last + 1, self.step))


class Field:
    """What a field names, how it was written, its parts, and what stands after them."""

    def __init__(self, at, text, parts, passed_over):
        self.least, self.most = FIELDS[at][1:3]
        self.text, self.parts, self.passed_over = text, parts, passed_over
        self.begins_with_star = text.startswith(b"*")
        self.values = {value for part in parts for value in part.values()}
        if at == 4 and 7 in self.values:
            self.values = self.values - {7} | {0}

    def is_single(self):
        """It names one value, by no star and no step."""
        naming = [part for part in self.parts if part.values()]
        return len(self.values) == 1 and not any(part.is_star or part.step != 1 for part in naming)


def value_of(word, least, names):
    """A name of the field, or a number as C's atoi reads it: 64 bits, of which the lower 32 are kept."""
    if not 0 < len(word) <= WORD_BYTES:
        return None
    text = word.decode("ascii").lower()
    if text in names:
        return least + names.index(text)
    if not text.isdigit():
        return None
    number = min(int(text), 2**63 - 1) % 2**32
    return number if number < 2**31 else number - 2**32


def number_at(line, least, names):
    begin = line.at
    line.skip(ALPHANUMERIC)
    value = value_of(line.text[begin:line.at], least, names)
    if value is None or line.now() == END:
        raise Refused
    return value


def bounds_at(line, least, most, names):
    """A star, a range, or a number, which no slash may follow."""
    if line.now() == b"*":
        line.step()
        return Part(least, most, True)
    first = number_at(line, least, names)
    if line.now() == b"-":
        line.step()
        return Part(first, number_at(line, least, names), False)
    if line.now() == b"/":
        raise Refused
    return Part(first, first, False)


def part_at(line, least, most, names):
    part = bounds_at(line, least, most, names)
    if line.now() == b"/":
        line.step()
        part.step = number_at(line, 0, [])
        if part.step <= 0:
            raise Refused
    if not (least <= part.first <= most and least <= part.last <= most):
        raise Refused
    if part.first <= part.last and part.first + part.step > 2**31 - 1:
        raise Refused  # the sum of 32 bits is negative then, which is no value
    return part


def field_at(line, at):
    """A field: parts with commas between, whatever follows them up to a blank, and the blanks."""
    _, least, most, names = FIELDS[at]
    begin = line.at
    parts = [part_at(line, least, most, names)]
    while line.now() == b",":
        line.step()
        parts.append(part_at(line, least, most, names))
    if line.now() == END:
        raise Refused
    end = line.at
    passed_over = line.take_until(BLANKS_AND_END)
    text = line.text[begin:end] + passed_over
    line.skip(BLANKS)
    if line.now() == END:
        raise Refused
    return Field(at, text, parts, passed_over)


def fields_at(line):
    fields = []
    for at, (name, *_) in enumerate(FIELDS):
        try:
            fields.append(field_at(line, at))
        except Refused:
            raise Refused(f"bad {name}") from None
    return fields


def fields_of(text):
    return fields_at(Bytes(text.encode("ascii")))


def times_at(line):
    """The fields of a nickname or of five words. No fields for @reboot."""
    if line.now() != b"@":
        return fields_at(line)
    line.step()
    name = line.take_until(BLANKS_AND_END)
    line.skip(BLANKS)
    if name == b"reboot":
        return None
    if name not in NICKNAMES:
        raise Refused("bad time specifier")
    return fields_of(NICKNAMES[name])


def user_at(line):
    """The user's name, which one blank ends. Without it cron reads on in the next line."""
    name = line.take_until(BLANKS_AND_END)
    if line.now() == LINE_FEED:
        raise Refused("bad command")
    line.step()
    return name


def job_at(line, is_system):
    begin = line.at
    fields = times_at(line)
    schedule = line.text[begin:line.at].rstrip(b" \t")
    user = None
    if is_system:
        user = user_at(line)
    elif line.now() == b"*":
        raise Refused("bad command")
    command = line.text[line.at:]
    if len(command) > COMMAND_BYTES:
        raise Refused("command too long")
    return Job(fields, schedule, user, command)


def is_setting(text):
    """Whether a text is NAME = VALUE, by the states through which cron goes."""
    text = text[:SETTING_BYTES]
    name = quoted_or_bare(text, b"=" + SPACES, True)
    if name is None:
        return False
    rest = text[name:].lstrip(SPACES)
    if not rest.startswith(b"="):
        return False
    value = rest[1:].lstrip(SPACES)
    if not value:
        return False
    if value[:1] not in (b'"', b"'"):
        return True
    end = quoted_or_bare(value, b"", False)
    return end is not None and not value[end:].strip(SPACES)


def quoted_or_bare(text, ends, is_name):
    """How many bytes a name or a value takes. None where its quote isn't closed, or a quoted name has an equals sign."""
    quote = text[:1]
    if quote not in (b'"', b"'") or not quote:
        return next((at for at in range(len(text)) if text[at] in ends), len(text))
    end = text.find(quote, 1)
    if end < 0 or is_name and b"=" in text[1:end]:
        return None
    return end + 1


class Job:
    """A line that is a job. Its fields are None for @reboot."""

    def __init__(self, fields, schedule, user, command):
        self.fields, self.schedule, self.user, self.command = fields, schedule, user, command
        if fields is not None:
            self.minutes, self.hours, self.days, self.months, self.weekdays = fields
            self.is_fixed = self.minutes.is_single() and self.hours.is_single()
            self.needs_both = self.days.begins_with_star or self.weekdays.begins_with_star
            self.is_repeated_by_cron = self.minutes.begins_with_star or self.hours.begins_with_star

    def matches_date(self, number):
        """Whether the date of a number of days from 1970-01-01 is named."""
        _, month, day = model.date_at(number)
        if month not in self.months.values:
            return False
        both = day in self.days.values, model.weekday_of(number) in self.weekdays.values
        return all(both) if self.needs_both else any(both)

    def matches_time(self, of_day):
        return of_day % 60 == 0 and of_day // 60 % 60 in self.minutes.values and of_day // 3600 in self.hours.values

    def is_scheduled(self, second):
        return self.matches_time(second % DAY) and self.matches_date(second // DAY)


def line_of(text, is_system):
    """What a line, without its line feed, is: its kind, and the job or the words of a refusal."""
    line = Bytes(text)
    line.skip(BLANKS)
    if line.now() == LINE_FEED:
        return "blank", None
    if line.now() == b"#":
        return "comment", None
    if b"\0" in text:
        return "refused", "byte 0"
    if is_setting(text[line.at:]):
        return "setting", None
    try:
        return "job", job_at(line, is_system)
    except Refused as refused:
        return "refused", str(refused)


def lines_of(data):
    """The lines of a file, and whether each has its line feed."""
    lines = data.split(LINE_FEED)
    return [(line, True) for line in lines[:-1]] + [(line, False) for line in lines[-1:] if line]


def told_line(text, is_fed, is_system):
    """A line for JSON."""
    kind, what = line_of(text, is_system)
    told = {"kind": kind, "has line feed": is_fed}
    if kind == "refused":
        told["why"] = what
    if kind == "job":
        told |= {"schedule": what.schedule.decode("latin-1"), "command": what.command.decode("latin-1")}
        if what.user is not None:
            told["user"] = what.user.decode("latin-1")
        if what.fields is None:
            told["reboot"] = True
        else:
            told["values"] = [sorted(field.values) for field in what.fields]
            told["both days"] = what.needs_both
    return told


# ---- zones


@functools.lru_cache(maxsize=None)
def rule_parts(text):
    """The standard offset, and, where there is one, the other offset and the two ends: a day and a time of the wall clock."""
    name = r"(?:[A-Za-z]{3,}|<[A-Za-z0-9+-]+>)"
    time = r"([+-]?\d+(?::\d+){0,2})"
    day = r"(M\d+\.\d+\.\d+|J\d+|\d+)(?:/" + time + ")?"
    found = re.fullmatch(f"{name}{time}(?:{name}{time}?,{day},{day})?", text)
    if found is None:
        raise ValueError(text)
    standard, other, begin, begin_time, end, end_time = found.groups()
    ahead = -seconds_of(standard)
    if begin is None:
        return ahead, None, None, None
    other = ahead + 3600 if other is None else -seconds_of(other)
    times = [7200 if it is None else seconds_of(it) for it in (begin_time, end_time)]
    return ahead, other, (begin, times[0]), (end, times[1])


def seconds_of(text):
    parts = [int(part) for part in text.lstrip("+-").split(":")] + [0, 0]
    total = parts[0] * 3600 + parts[1] * 60 + parts[2]
    return -total if text.startswith("-") else total


def rule_day(text, year):
    """The number of the day that an end of a rule names in a year."""
    if text.startswith("J"):
        place = int(text[1:])
        is_leap = model.month_at(year, 2)[1] == 29
        return model.day_number(year, 1, 1) + place - 1 + (is_leap and place >= 60)
    if not text.startswith("M"):
        return model.day_number(year, 1, 1) + int(text)
    month, week, weekday = (int(part) for part in text[1:].split("."))
    first, length = model.month_at(year, month)
    days = [day for day in range(first, first + length) if model.weekday_of(day) == weekday]
    return days[min(week, len(days)) - 1]


def rule_changes(text, first, last):
    """The changes that a rule makes in these years: instants, and the offsets from then on."""
    standard, other, begin, end = rule_parts(text)
    if other is None:
        return []
    found = []
    for year in range(first, last + 1):
        found.append((rule_day(begin[0], year) * DAY + begin[1] - standard, other))
        found.append((rule_day(end[0], year) * DAY + end[1] - other, standard))
    return sorted(found)


def is_rule(zone):
    return bool(re.search(r"\d", zone)) and zone not in zoneinfo.available_timezones()


def without_idle(first, changes):
    """A first offset and changes of which each changes it."""
    kept, offset = [], first
    for instant, after in changes:
        if after != offset:
            kept.append((instant, after))
        offset = after
    return first, kept


@functools.lru_cache(maxsize=None)
def spans_of(zone, start, end):
    """The spans of one offset from an instant to another: first instant, offset. The first span begins before the start."""
    years = model.year_of(start) - 1, model.year_of(end) + 1
    if is_rule(zone):
        first, changes = rule_parts(zone)[0], rule_changes(zone, *years)
    else:
        first, changes = named_changes(zone, start, years[1])
    offset = first
    for instant, after in changes:
        if instant <= start:
            offset = after
    inside = [(instant, after) for instant, after in changes if start < instant <= end]
    offset, inside = without_idle(offset, inside)
    return [(start, offset)] + inside


def named_changes(name, start, last_year):
    """The offset of a name's zone at the start, and its changes from there on: the table's, then those of its last line."""
    file = next(folder / name for folder in zones.FOLDERS if (folder / name).is_file())
    data, zone = file.read_bytes(), zoneinfo.ZoneInfo(name)
    table = zones.instants(data)
    changes = [(instant, zones.ahead(zone, instant)) for instant in table if instant > start]
    rule = data.rstrip(b"\n").rpartition(b"\n")[2].decode("ascii")
    last = max(table, default=start)
    year = max(model.year_of(last), model.year_of(start)) - 1
    changes += [change for change in rule_changes(rule, year, last_year) if change[0] > max(last, start)]
    return zones.ahead(zone, start), changes


class Clock:
    """The spans of a zone from three days before a start to a day after an end."""

    def __init__(self, zone, start, end):
        self.spans = spans_of(zone, start - 3 * DAY, end + DAY)
        self.instants = [instant for instant, _ in self.spans]
        self.offsets = {offset for _, offset in self.spans}

    def offset_at(self, instant):
        return self.spans[max(bisect.bisect_right(self.instants, instant) - 1, 0)][1]

    def reads(self, instant):
        return instant + self.offset_at(instant)

    def shows_earlier(self, second, instant):
        """Whether an earlier instant shows the same second."""
        tried = (second - offset for offset in self.offsets)
        return any(other < instant and self.reads(other) == second for other in tried)

    def changes(self):
        """Each change: its instant, the second that the old offset would show there, and the one that is shown."""
        pairs = zip(self.spans, self.spans[1:])
        return [(instant, instant + before, instant + after) for (_, before), (instant, after) in pairs]


# ---- runs


def is_carried(job, before, after):
    """Whether a run of the gap between two wall seconds is carried to its end."""
    if not (job.is_fixed and before < after and job.matches_date(after // DAY)):
        return False
    return any(job.is_scheduled(second) for second in minutes_between(before, after))


def minutes_between(first, end):
    """The wall seconds that begin a minute, from one to the last before another."""
    return range(first + -first % 60, end, 60)


def wall_minutes(job, first, end):
    """The scheduled seconds from one to the last before another: each minute of each date that is named."""
    for number in range(first // DAY, end // DAY + 1):
        if job.matches_date(number):
            for second in minutes_between(max(first, number * DAY), min(end, (number + 1) * DAY)):
                if job.matches_time(second % DAY):
                    yield second


def runs_of(job, clock, start, until):
    """The runs of a job after a start and up to an end, ascending."""
    if job.fields is None:
        return
    ends = clock.instants[1:] + [until + 1]
    before = clock.spans[0][1]
    for (instant, offset), end in zip(clock.spans, ends):
        if instant > until:
            return
        found = set()
        if is_carried(job, instant + before, instant + offset):
            found.add(instant)
        before = offset
        for second in wall_minutes(job, max(instant, start) + offset, min(end, until + 1) + offset):
            if not (job.is_fixed and clock.shows_earlier(second, second - offset)):
                found.add(second - offset)
        yield from sorted(at for at in found if start < at <= until)


def first_run(job, zone, start):
    """The first run after a start in the years up to 5000, or nothing."""
    if job.fields is None or not (job.minutes.values and job.hours.values):
        return None
    if not any(job.matches_date(number) for number in range(model.DAYS_OF_CYCLE)):
        return None
    last, first = model.wall(LAST_YEAR + 1) - 1, start
    for days in (2, 40, 400, 9 * 366, last // DAY):
        end = min(last, start + days * DAY)
        found = next(runs_of(job, Clock(zone, first, end), first, end), None)
        if found is not None or end == last:
            return found
        first = end
    return None


# ---- what cron starts

MINUTE_COUNT = 60


class Cron:
    """The main loop of cron.c, for one job, over the spans of a clock, each of which has a first instant and an offset."""

    def __init__(self, job, spans):
        self.job, self.spans = job, spans
        self.clock_time = self.time_running = self.virtual_time = self.gmt_off = None
        self.span, self.queue, self.first = 0, 0, None

    def set_time(self, start_time):
        """The minute that the clock shows at a second."""
        while self.span + 1 < len(self.spans) and self.spans[self.span + 1][0] <= start_time:
            self.span += 1
        self.gmt_off = self.spans[self.span][1]
        self.clock_time = (start_time + self.gmt_off) // 60

    def find_jobs(self, vtime, do_wild, do_non_wild):
        if not self.job.is_scheduled(vtime * 60):
            return
        is_wild = self.job.is_repeated_by_cron
        if do_non_wild and not is_wild or do_wild and is_wild:
            self.first = vtime if self.queue == 0 else self.first
            self.queue += 1

    def wake(self):
        """One turn of the loop, at a second at which another minute is shown than that of the last turn."""
        self.time_running = self.clock_time
        time_diff = self.time_running - self.virtual_time
        if time_diff == 1:
            self.virtual_time = self.time_running
            self.find_jobs(self.virtual_time, True, True)
            return
        wakeup_kind = -1
        if time_diff > -(3 * MINUTE_COUNT):
            wakeup_kind = 0
        if time_diff > 0:
            wakeup_kind = 1
        if time_diff > 5:
            wakeup_kind = 2
        if time_diff > 3 * MINUTE_COUNT:
            wakeup_kind = 3
        if wakeup_kind == 1:
            while True:
                self.virtual_time += 1
                self.find_jobs(self.virtual_time, True, True)
                if not self.virtual_time < self.time_running:
                    break
        elif wakeup_kind == 2:
            self.find_jobs(self.time_running, True, False)
            while True:
                self.virtual_time += 1
                self.find_jobs(self.virtual_time, False, True)
                if not (self.virtual_time < self.time_running and self.clock_time == self.time_running):
                    break
        elif wakeup_kind == 0:
            self.find_jobs(self.time_running, True, False)
        else:
            self.virtual_time = self.time_running
            self.find_jobs(self.time_running, True, True)

    def next_look(self, second):
        """The next second that is worth a look: the next whole minute, or the next change of the clock."""
        minute = second + 60 - (second + self.gmt_off) % 60
        changes = [first for first, _ in self.spans[self.span + 1:self.span + 2]]
        return min([minute] + changes)

    def starts(self, until):
        """The seconds at which the job is started, from the first span's on, how many times, and for which minute first."""
        second = self.spans[0][0]
        self.set_time(second)
        self.time_running = self.virtual_time = self.clock_time
        while (second := self.next_look(second)) <= until:
            self.set_time(second)
            if self.clock_time == self.time_running:
                continue
            self.queue = 0
            self.wake()
            if self.queue:
                yield second, self.queue, self.first

    def told(self, until):
        """The same; the minute as a clock shows it, where it is an earlier one than the clock shows then, and else nothing."""
        for second, count, minute in self.starts(until):
            yield second, count, f"{minute // 60 % 24:02}:{minute % 60:02}" if minute < self.clock_time else ""


def starts_of(job, spans, start, until):
    """What cron starts of a job after a start and up to an end."""
    return [(second, count) for second, count, _ in told_of(job, spans, start, until)]


def told_of(job, spans, start, until):
    """The same, each with the first minute that it makes up for."""
    if job.fields is None:
        return []
    return [told for told in Cron(job, spans).told(until) if start < told[0]]


# ---- warnings

ORDER = [
    "either-day", "uneven-step", "step-beyond", "range-down", "passed-over", "large-number", "whole-hour", "short-months", "gone", "never", "no-command", "looks-like-field", "user", "percent",
    "continued", "control-byte", "no-newline", "no-zone", "no-effect", "not-expanded", "no-mail", "carriage-return", "empty-item", "other-name",
]
# These stand after the others: what is told of a gap, and then what of a repeated range.
CHANGES = ["gap", "twice"]
FIELD_NAMES = ["seconds", "minutes", "hours", "days of the month", "months", "weekdays", "years"]
# The variables by which other crons start jobs.
OF_OTHERS = (b"RANDOM_DELAY", b"START_HOURS_RANGE", b"PERSISTENT", b"DELAY", b"BATCH")
# The most lines of a user's crontab that isn't installed, and the last one at which cron itself takes a job or a setting.
MOST_LINES, LAST_TAKEN = 10_000, 10_003
HALF_DAY, BESIDE = DAY // 2, 3 * 3600


class Times:
    """What is looked at of a line's times: a crontab's job, or a pattern."""

    def __init__(self, job, written, is_pattern):
        self.job, self.written, self.is_pattern = job, written, is_pattern
        self.minutes, self.hours = self.named("minutes"), self.named("hours")
        self.days, self.months, self.weekdays = self.named("days"), self.named("months"), self.named("weekdays")
        self.years = set(job.years.plain) if is_pattern else set(range(model.FIRST_YEAR, model.LAST_YEAR + 1))

    def named(self, name):
        field = getattr(self.job, name)
        return set(field.plain if self.is_pattern else field.values)

    def names_nothing(self):
        """No date or no time of day is named: what a crontab's job may be, and a pattern never is."""
        if self.is_pattern:
            return False
        days = self.days and self.weekdays if self.job.needs_both else self.days or self.weekdays
        return not (self.minutes and self.hours and self.months and days)

    def is_whole_hour(self):
        """All minutes, but not all hours of all dates; nothing where several hours are one range."""
        parts = parts_of_word(self.written["hours"], "hours")[0] if "hours" in self.written else []
        if len(parts) == 1 and not parts[0].is_star and parts[0].step == 1 and parts[0].first < parts[0].last:
            return False
        all_days, all_weekdays = len(self.days) == 31, len(self.weekdays) == 7
        days = all_days and all_weekdays if self.has_to_match_both() else all_days or all_weekdays
        is_each_date = days and len(self.months) == 12
        return len(self.minutes) == 60 and not (len(self.hours) == 24 and is_each_date)

    def has_to_match_both(self):
        """A day has to match both day fields, or one of them is a star."""
        if self.is_pattern:
            return self.job.days.is_star or self.job.weekdays.is_star or self.job.is_and
        return self.job.needs_both

    def is_either_day(self):
        """Either day field alone decides, and they aren't both of each day. A field that names nothing decides nothing."""
        if self.has_to_match_both() or not self.is_pattern and not (self.days and self.weekdays):
            return False
        return not (len(self.days) == 31 and len(self.weekdays) == 7)

    def has_short_months(self):
        """Each named day lies above 28, and a named month of a named year is over before one of them. February 29 alone is meant so."""
        if self.is_pattern and (self.job.days.has_last_day or self.job.days.has_last_weekday or self.job.days.near):
            return False
        if not self.days or min(self.days) <= 28 or (self.days, self.months) == ({29}, {2}):
            return False
        ends = {model.month_at(year, month)[1] for year in self.years for month in self.months}
        return min(ends, default=31) < max(self.days)

    def is_fixed(self):
        return self.job.is_fixed

    def second_in(self, first, end):
        """The first scheduled wall second from one to the last before another."""
        return next((second for second in range(first, end) if self.job.is_scheduled(second)), None)


def parts_of_word(word, place):
    """The parts of a field's word by cron's reader; none of a word that it refuses."""
    if place == "years":
        least, most, names = 1, LAST_YEAR, []
    else:
        at = ["minutes", "hours", "days of the month", "months", "weekdays"].index({"seconds": "minutes"}.get(place, place))
        least, most, names = FIELDS[at][1:]
    line, parts = Bytes(word), []
    try:
        parts.append(part_at(line, least, most, names))
        while line.now() == b",":
            line.step()
            parts.append(part_at(line, least, most, names))
    except Refused:
        return [], most
    return ([] if line.now() == END else parts), most


def warnings_of_steps(written):
    """A star's step that takes a second value and leaves a last piece of another length; a step that takes none."""
    uneven, beyond = [], []
    for name, word in written.items():
        parts, most = parts_of_word(word, name)
        turn = {"seconds": 60, "minutes": 60, "hours": 24}.get(name)
        is_short = name != "hours" and parts and parts[0].step <= 15
        if turn and len(parts) == 1 and parts[0].is_star and parts[0].step < turn and turn % parts[0].step and not is_short:
            uneven.append(f"uneven-step {name}")
        if any(1 < part.step and part.first <= part.last < part.first + part.step for part in parts):
            beyond.append(f"step-beyond {name}")
    return uneven + beyond


def warnings_of_fields(job):
    """Of the fields of a crontab's job: ranges that run down, what cron passes over, and numbers that it doesn't keep whole."""
    down, over, large = [], [], []
    for name, field in zip(FIELD_NAMES[1:], job.fields):
        if any(part.last < part.first for part in field.parts):
            down.append(f"range-down {name}")
        if field.passed_over:
            over.append(f"passed-over {name}")
        elif any(int(word) >= 2**32 for word in re.findall(rb"[0-9A-Za-z]+", field.text) if word.isdigit()):
            large.append(f"large-number {name}")
    is_command_within = not job.command and job.user is None
    return down + [said for said in over if not (is_command_within and said == "passed-over weekdays")] + large


def has_run(times, zone, start):
    """Whether a pattern has a run after a start: date after date, and second after second of each that is named."""
    job = times.job
    last = model.wall(LAST_YEAR + 1) - 1
    for first, end in ((start, min(last, start + 2 * WATCHED)), (start, last)):
        clock = Clock(zone, first, end)
        if any(is_met(times, clock, start, number) for number in dates_of(times, clock, start, end)):
            return True
        if job.is_fixed and any(is_carried_to(times, before, after) and start < at for at, before, after in clock.changes()):
            return True
    return False


def dates_of(times, clock, start, end):
    first, last = clock.reads(start) // DAY - 1, end // DAY + 1
    for year in sorted(times.years):
        if model.year_of(first * DAY) <= year <= min(model.year_of(last * DAY), LAST_YEAR):
            begin = model.day_number(year, 1, 1)
            yield from (number for number in range(max(begin, first), begin + 366) if times.job.matches_date(number))


def is_met(times, clock, start, number):
    """Whether the clock shows a scheduled second of a date after the start."""
    job = times.job
    for hour in job.hours.in_order():
        for minute in job.minutes.in_order():
            for second in job.seconds.in_order():
                wall = number * DAY + hour * 3600 + minute * 60 + second
                shown = sorted(wall - offset for offset in clock.offsets if clock.reads(wall - offset) == wall)
                if any(start < instant for instant in (shown[:1] if job.is_fixed else shown)):
                    return True
    return False


def is_carried_to(times, before, after):
    """Whether a run of a gap is moved to its end: that of a fixed time, where the date there fits."""
    job = times.job
    if not (before < after and job.is_fixed and job.matches_date(after // DAY)):
        return False
    return times.second_in(before, after) is not None


def warnings_of_changes(times, zone, start):
    """What is told of the first change after the start that puts the clock forward over a scheduled second, and of the first that
    repeats one: that a run is left out, or made twice, of a job that isn't due beside it; of one with all hours, that cron starts
    nothing of it while the clock shows minutes again. Nothing of a change of half a day or more."""
    found = {}
    has_all_hours = len(times.hours) == 24
    if has_all_hours and times.is_pattern:
        return []
    for instant, before, after in Clock(zone, start, start + WATCHED).changes():
        name = "gap" if before < after else "twice"
        if name in found or not start < instant <= start + WATCHED:
            continue
        if has_all_hours and name == "gap":
            continue
        second = times.second_in(min(before, after), max(before, after))
        if second is not None:
            told = warnings_of_pause if has_all_hours else warnings_of_change
            found[name] = told(times, name, instant, before, after, second)
    return found.get("gap", []) + found.get("twice", [])


def warnings_of_change(times, name, instant, before, after, second):
    """The same of one change that meets a job, first at this second."""
    if abs(after - before) >= HALF_DAY or is_due_beside(times, min(before, after), max(before, after)):
        return []
    if times.is_pattern:
        harmed = not is_carried_to(times, before, after) if name == "gap" else not times.is_fixed()
    else:
        made = made_by_cron(times.job, instant, before, after, second)
        harmed = made == 0 if name == "gap" else made > 1
    return [name] if harmed else []


def warnings_of_pause(times, name, instant, before, after, second):
    """The same of one that shows a second again, of a job with all hours: whether cron starts it for that only once."""
    if abs(after - before) >= HALF_DAY:
        return []
    return ["gap"] if made_by_cron(times.job, instant, before, after, second) == 1 else []


def is_due_beside(times, first, end):
    """Whether the job is due within three hours before a range, or within three hours after it."""
    return times.second_in(first - BESIDE, first) is not None or times.second_in(end, end + BESIDE) is not None


class OneMinute:
    """A job that names one minute of one date, and is starred as another."""

    def __init__(self, job, second):
        self.second, self.is_repeated_by_cron = second // 60 * 60, job.is_repeated_by_cron

    def is_scheduled(self, second):
        return second == self.second


def made_by_cron(job, instant, before, after, second):
    """How many times cron starts a job for the minute of a second, around one change of the clock."""
    spans = [(instant - DAY, before - instant), (instant, after - instant)]
    return sum(count for _, count, _ in Cron(OneMinute(job, second), spans).starts(instant + DAY))


def warnings_of_times(times, zone, start):
    found = warnings_of_steps(times.written)
    if times.names_nothing():
        return found + ["never"]
    found += ["either-day"] if times.is_either_day() else []
    found += ["whole-hour"] if times.is_whole_hour() else []
    if times.is_pattern:
        year = model.year_of(Clock(zone, start, start).reads(start))
        if all(named < year for named in times.years):
            return found + ["gone"]
        runs = has_run(times, zone, start)
    else:
        runs = first_run(times.job, zone, start) is not None
    if not runs:
        return found + ["never"]
    found += ["short-months"] if times.has_short_months() else []
    return found + warnings_of_changes(times, zone, start)


def has_open_percent(command):
    """Byte after byte as cron copies a command: what stands after a backslash is copied, and a percent sign else ends it."""
    at = 0
    while at < len(command):
        if command[at:at + 1] == b"%":
            return True
        at += 2 if command[at:at + 1] == b"\\" else 1
    return False


def warnings_of_command(user, command):
    """Nothing is left for a shell, or a comment."""
    is_comment = (user or b"").startswith(b"#") or command.lstrip(b" \t").startswith(b"#")
    found = ["no-command"] if is_comment or not command.strip(SPACES) else []
    found += ["percent"] if has_open_percent(command) else []
    found += ["continued"] if re.search(rb"(?<!\\)\\(\\\\)*\Z", command) else []
    return found + (["carriage-return"] if command.endswith(b"\r") else [])


def hides(data):
    """Whether some bytes have a control byte but the tab, or a character that nobody sees, or that turns the order of what is shown."""
    text = data.decode("utf-8", "surrogateescape")
    return any(re.match("[\\x01-\\x08\\x0a-\\x1f\\x7f\\u200b\\u202a-\\u202e\\u2066-\\u2069]", each) for each in text)


def value_in(text):
    """The value of a setting, with its quotes."""
    text = text.lstrip(b" \t")[:SETTING_BYTES]
    rest = text[quoted_or_bare(text, b"=" + SPACES, True):].lstrip(SPACES)
    return rest[1:].lstrip(SPACES)


def is_not_expanded(value):
    """A dollar, a home directory at the head of a path, or a comment outside quotes."""
    is_quoted = value[:1] in (b'"', b"'")
    paths = value[1:].split(b":") if is_quoted else value.split(b":")
    return b"$" in value or any(path.startswith(b"~/") for path in paths) or (not is_quoted and re.search(rb"[ \t]#", value) is not None)


def names_no_address(text):
    """A setting of MAILTO whose value cron takes for no address: it has other bytes than an address, or another first one."""
    value = value_in(text)
    value = value[1:].split(value[:1])[0] if value[:1] in (b'"', b"'") else value
    value = re.sub(rb"\A(['\"])(.*)\1\Z", rb"\2", value.rstrip(SPACES), flags=re.DOTALL)
    return variable_of(text) == b"MAILTO" and value != b"" and re.fullmatch(rb"[A-Za-z0-9][A-Za-z0-9@!:%.,_+=/-]*", value) is None


def is_sixth_field(user, command):
    """A sixth field is taken for the user where the crontab is the system's, and else for the front of the command."""
    word = (re.split(rb"[ \t]", command)[0] if user is None else user).decode("latin-1").lower()
    if not re.fullmatch(r"[0-9a-z*,/?+-][0-9a-z*,/?#+-]*", word):
        return False
    names = "|".join(WEEKDAYS)
    return all(re.fullmatch(rf"\d+|\d*l|({names})l?", run) for run in re.findall(r"[0-9a-z]+", word))


def variable_of(text):
    """The name of a setting, without its quotes."""
    text = text.lstrip(b" \t")
    name = text[:quoted_or_bare(text[:SETTING_BYTES], b"=" + SPACES, True)]
    return name[1:-1] if name[:1] in (b'"', b"'") and name else name


def in_order(found):
    """The warnings of a line in the order in which they are given."""
    return sorted(found, key=lambda said: len(ORDER) if said.split(" ")[0] in CHANGES else ORDER.index(said.split(" ")[0]))


def users_of_row(row):
    """The names of the users that a row has known, or None where it has none of them: each stands in front of a line's first colon."""
    if "users" not in row:
        return None
    return {line.partition(":")[0].encode("latin-1") for line in row["users"].split("\n") if ":" in line}


def is_refused(text, is_system, users):
    """A line is refused: cron doesn't take it, or its user is none of those that are known."""
    kind, what = line_of(text, is_system)
    return kind == "refused" or kind == "job" and users is not None and what.user is not None and what.user not in users


def has_no_user(job, users):
    """Where the user stands is none, or one stands where the command does."""
    if job.user is not None:
        return users is None and re.search(rb"[/=$*,]", job.user) is not None
    first = re.match(rb"([^ \t]+)[ \t]+/", job.command)
    return re.match(rb"root[ \t]", job.command) is not None or users is not None and first is not None and first[1] in users


def warnings_of_line(text, is_fed, is_system, zone, start, users=None):
    """What is to be said of a line of a crontab, where these users are known."""
    if is_refused(text, is_system, users):
        return []
    kind, job = line_of(text, is_system)
    found = ["no-newline"] if kind in ("setting", "job") and not is_fed else []
    if kind == "setting":
        found += ["no-zone"] if variable_of(text) in (b"CRON_TZ", b"TZ") else []
        found += ["no-effect"] if variable_of(text) in OF_OTHERS else []
        found += ["not-expanded"] if is_not_expanded(value_in(text)) else []
        found += ["no-mail"] if names_no_address(text) else []
        found += ["control-byte"] if hides(re.sub(rb"\r\Z", b"", text)) else []
    if kind == "job":
        words = [job.schedule] if job.schedule.startswith(b"@") else re.split(rb"[ \t]+", job.schedule)
        ends = [re.sub(rb"\r\Z", b"", word) for word in words + [job.command]]
        found += ["control-byte"] if any(hides(word) for word in ends + [job.user or b""]) else []
        found += warnings_of_command(job.user, job.command)
        if job.fields is not None:
            words = [] if job.schedule.startswith(b"@") else re.split(rb"[ \t]+", job.schedule)
            found += warnings_of_fields(job)
            if words and is_sixth_field(job.user, job.command):
                found.append("looks-like-field")
            found += warnings_of_times(Times(job, dict(zip(FIELD_NAMES[1:], words)), False), zone, start)
        if (job.user is None or "looks-like-field" not in found) and has_no_user(job, users):
            found.append("user")
    return in_order(found)


def pattern_of(text):
    """A pattern's job by the model of patterns, and its fields as they are written; nothing of what isn't one."""
    nickname = NICKNAMES.get(text[1:].lower().encode("ascii")) if text.startswith("@") else None
    read = (nickname or text).upper()
    for names, least in ((MONTHS, 1), (WEEKDAYS, 0)):
        for at, name in enumerate(names):
            read = read.replace(name.upper(), str(least + at))
    words = text.split()
    words = words if len(words) > 5 else ["0"] + words
    words = words if len(words) > 6 else words + ["*"]
    written = {} if nickname else {name: word.encode("ascii") for name, word in zip(FIELD_NAMES, words)}
    return model.Job(read), written


def warnings_of_pattern(text, zone, start):
    """What is to be said of a line of a file of patterns, which has to be one that the parser takes."""
    text = text.decode("ascii").strip(" \t\r\v\f")
    if not text or text.startswith("#"):
        return []
    job, written = pattern_of(text)
    found = ["empty-item"] if any(b"" in word.split(b",") for word in written.values()) else []
    for name, word in written.items():
        others = set(MONTHS + WEEKDAYS) - set({"months": MONTHS, "weekdays": WEEKDAYS}.get(name, []))
        found += [f"other-name {name}"] if others & set(re.findall("[0-9a-z]+", word.decode("ascii").lower())) else []
    return in_order(found + warnings_of_times(Times(job, written, True), zone, start))


def warnings_of_file(data, is_system, is_pattern, zone, start, users=None, is_installed=False):
    """The warnings of all lines of a file, one after another, and that of the file."""
    lines, found = lines_of(data), []
    for text, is_fed in lines:
        if is_pattern:
            found.append(warnings_of_pattern(text, zone, start))
        else:
            found.append(warnings_of_line(text, is_fed, is_system, zone, start, users))
    return found, [] if is_pattern or first_too_many(lines, is_system, is_installed) is None else ["many-lines"]


def first_too_many(lines, is_system, is_installed):
    """The first line for which a crontab is too long, from 0: of the system's, and of one that is installed, it is a job or a setting."""
    if not (is_system or is_installed):
        return MOST_LINES if len(lines) > MOST_LINES else None
    late = (at for at, (text, _) in enumerate(lines) if at >= LAST_TAKEN and line_of(text, is_system)[0] not in ("blank", "comment"))
    return next(late, None)


def data_of_row(row):
    """The file of a row: its text so many times, and what stands in front of these and after them."""
    return (row.get("front", "") + row["text"] * row.get("times", 1) + row.get("after", "")).encode("latin-1")


def told_of_row(row):
    """The warnings of the lines of a row of crontab_warnings.txt."""
    data = data_of_row(row)
    kinds = row.get("system", False), row.get("patterns", False)
    lines, file = warnings_of_file(data, *kinds, row["zone"], row["from"], users_of_row(row), row.get("installed", False))
    return [said for found in lines for said in found] + file


def counts_of_row(row):
    """How many lines of a row are refused, and how many are warned of. That of a file's length stands at the first line too many."""
    data, is_system, is_pattern = data_of_row(row), row.get("system", False), row.get("patterns", False)
    users = users_of_row(row)
    is_installed = row.get("installed", False)
    lines, file = warnings_of_file(data, is_system, is_pattern, row["zone"], row["from"], users, is_installed)
    warned = {at for at, found in enumerate(lines) if found}
    too_many = first_too_many(lines_of(data), is_system, is_installed)
    refused = sum(not is_pattern and is_refused(text, is_system, users) for text, _ in lines_of(data))
    return refused, len(warned | ({too_many} if file else set()))


# ---- the program


def told_runs(text, is_system, zone, start, until):
    kind, job = line_of(text, is_system)
    told = {"kind": kind}
    if kind == "job":
        told["runs"] = list(runs_of(job, Clock(zone, start, until), start, until))
    return told


def told_starts(text, is_system, zone, start, until):
    kind, job = line_of(text, is_system)
    told = {"kind": kind}
    if kind == "job":
        told["starts"] = starts_of(job, Clock(zone, start, until).spans, start, until)
    return told


def print_warnings(path, is_system, is_pattern, zone, start):
    """The warnings of each line of a file that has some, and those of the file."""
    data = pathlib.Path(path).read_bytes()
    lines, file = warnings_of_file(data, is_system, is_pattern, zone, start)
    for at, found in enumerate(lines, 1):
        if found:
            print(json.dumps({"line": at, "warnings": found}))
    if file:
        print(json.dumps({"warnings": file}))


def main(words):
    is_system, is_pattern = "--system" in words, "--patterns" in words
    words = [word for word in words if word not in ("--system", "--patterns")]
    if len(words) < 2:
        sys.exit(__doc__)
    if words[0] == "warnings" and len(words) == 4:
        print_warnings(words[1], is_system, is_pattern, words[2], int(words[3]))
        return
    for text, is_fed in lines_of(pathlib.Path(words[1]).read_bytes()):
        if words[0] == "lines" and len(words) == 2:
            told = told_line(text, is_fed, is_system)
        elif words[0] == "runs" and len(words) == 5:
            told = told_runs(text, is_system, words[2], int(words[3]), int(words[4]))
        elif words[0] == "starts" and len(words) == 5:
            told = told_starts(text, is_system, words[2], int(words[3]), int(words[4]))
        else:
            sys.exit(__doc__)
        print(json.dumps(told))


if __name__ == "__main__":
    main(sys.argv[1:])
