#!/usr/bin/env python3
"""The definitions of runs as a slow program that shares nothing with the library.

It makes up searches at the edges of clocks, answers them, and prints them as lines of the replay program:

    tools/model.py edges  SEED COUNT [LONGEST]     searches and iterators of one pattern
    tools/model.py tables SEED COUNT [LONGEST]     searches and iterators of tables of patterns
    tools/model.py ends   SEED COUNT [LONGEST]     the same about the first and the last of the searched years
    tools/model.py gaps   SEED COUNT [LONGEST]     searches of interval jobs from beside gaps of 17 seconds to LONGEST
    tools/model.py lists  SEED COUNT [LONGEST]     listings of tables, each in two lines: an iterator's items, and the
                                                   table's own searches, each from the run before
    tools/model.py held   SEED COUNT [LONGEST]     the same over backends that hold what lies between two instants

    tools/model.py edges 1 20000 >FILE
    crates/cronreplay/out/cronreplay <FILE

    tools/model.py held 1 2000 >FILE
    crates/cronreplay/out/cronreplay <FILE | tools/model.py judge FILE

LONGEST is the longest gap in seconds: 7200 where it is left out, and at most 86400. The same words give the same
lines. The last line, on standard error, says how many were printed, and how many of these met a run outside the span.

A backend that holds little may refuse, and which questions a search asks of it is no matter of the definitions. So the
lines of `held` want what the whole table answers, and the replay prints each that came to less. `judge` reads what it
printed, and says of each listing what it is (`verdict`): its items and the table's own searches are runs of the whole
table up to a refusal, and no item is refused that the search from the item before finds. An item may come where that
search is refused, since an iterator keeps what its searches found. Its status is 0 where there is no other difference.

How an answer comes about. The clock of a table shows at an instant i the second i + offset, and nothing else is known
of it. Whether a job runs at i is decided for i by itself (`runs_at`): what is shown is scheduled, and where the job
has one time of the day no earlier instant shows the same second; or i is the end of a gap that holds a scheduled
second, looked for one second after another, and the date that is shown at i matches. The instants that show a second
are found by trying each offset of the table, not by a rule about halves. Days are decided by counting over their
month. A search looks at one instant after another (`nearest`). It passes over instants only while the clock shows
years, a month, days, an hour or a minute in which nothing is scheduled, and never over a change by the time of the
day; what it stops at is decided by `runs_at` again. There is no second walk, no search for an edge, and no limit of
passes. In a table of patterns each place is decided by itself, at each instant by itself.

How the limit comes about. The search goes on to the end of the years 1 to 5000. Where it meets no run, the limit is
wanted. Where the run that it meets lies outside the span (`is_in_span`: in year 5000 or after an instant that shows
it; backward in year 1 or before an instant that shows it), the definitions allow that run and the limit, and no third
answer. Which of the two comes is a matter of the rule on steps (`comes_to`: none leads on in year 5000, backward in
year 1), so there, and only there, each pattern is walked along the wall clock (`walked`), over both halves of a
repeated range (`searched`). A table gives the run where no pattern's walk comes to the limit, and else the limit: an
unseen run might be nearer. Each of these answers has to be one of the two (`Untrue`). Patterns name dates around an
edge and mostly its year, so that few days are looked at.

What is drawn. A clock has one to four changes, forward or back by 1, 60, 1799, 3600, 7199 and 7200 seconds, and where
LONGEST allows it forward by 7201, 43200, 86399 and 86400. A gap or a repeated range begins at an edge, ends at it, or
lies about it: a midnight, the edge of a month, of February, of a year, of the searched years, or an hour. The next
change is just more than two days away (172801 seconds), or more. Patterns name seconds about the changes, for both
kinds of job. Searches start one second around each end of a gap and of both halves of a repeated range, in their
middle, and one and two days away. Tables have none to some thirty patterns, equal ones among them, and are asked in
civil time too.
"""
import bisect
import calendar
import datetime
import functools
import json
import pathlib
import random
import re
import sys

DAY = 86_400
DAYS_OF_CYCLE = 146_097  # of 400 years, a whole number of weeks
EPOCH = datetime.date(1970, 1, 1).toordinal()
FIRST_YEAR, LAST_YEAR = 1, 5000
LEAST_APART = 172_801
FORWARD, BACKWARD = 1, -1
LIMIT = "TimeSearchLimitExceeded"


class Untrue(Exception):
    """A walk came to neither of the two answers that the definitions allow."""


# ---- the calendar: that of Python, whose 400 years are repeated on both sides


def python_year(year):
    """A year that Python has, of the same place in the 400 years, and how many of these it is moved by."""
    return year % 400 + 400, year // 400 - 1


def day_number(year, month, day):
    """The days from 1970-01-01 to a date."""
    shown, cycles = python_year(year)
    return datetime.date(shown, month, day).toordinal() - EPOCH + cycles * DAYS_OF_CYCLE


def date_at(number):
    """The date of a number of days from 1970-01-01."""
    cycles, rest = divmod(number + EPOCH - 1, DAYS_OF_CYCLE)
    date = datetime.date.fromordinal(rest + 1)
    return date.year + 400 * cycles, date.month, date.day


def weekday_of(number):
    """From Sunday: the day numbered 0 was a Thursday."""
    return (number + 4) % 7


@functools.lru_cache(maxsize=1 << 16)
def month_at(year, month):
    """The number of the first day of a month, and its length."""
    return day_number(year, month, 1), calendar.monthrange(python_year(year)[0], month)[1]


def wall(year, month=1, day=1, hour=0, minute=0, second=0):
    """The wall second of a date and time."""
    return day_number(year, month, day) * DAY + hour * 3600 + minute * 60 + second


def parts(second):
    number, rest = divmod(second, DAY)
    return [*date_at(number), rest // 3600, rest // 60 % 60, rest % 60]


def year_of(second):
    return date_at(second // DAY)[0]


# ---- patterns


class Field:
    """What a field names: plain values, and values by their modifier."""

    def __init__(self, text, least, most):
        self.least, self.most = least, most
        self.is_star = text in ("*", "?")
        self.plain, self.last, self.near = set(), set(), set()
        self.nth = {n: set() for n in range(1, 6)}
        self.has_last_day = self.has_last_weekday = False
        self.step, self.has_star, self.ordered = 1, self.is_star, None
        if self.is_star:
            self.plain = set(range(least, most + 1))
        else:
            for part in text.split(","):
                self.read(part)

    def read(self, part):
        if part == "L":
            self.has_last_day = True
        elif part == "LW":
            self.has_last_weekday = True
        elif part.endswith("W"):
            self.near.add(self.number(part[:-1]))
        elif part.endswith("L"):
            self.last.update(self.span(part[:-1]))
        elif "#" in part:
            values, nth = part.split("#")
            self.nth[int(nth)].update(self.span(values))
        elif part:
            self.plain.update(self.span(part))

    def span(self, text):
        """The values of a number, of a range, and of either in steps."""
        text, slash, step = text.partition("/")
        if slash:
            self.step = int(step)
        if text == "*":
            self.has_star = True
            first, last = self.least, self.most
        elif "-" in text:
            first, last = (self.number(side) for side in text.split("-"))
        else:
            first = last = self.number(text)
        return range(first, last + 1, self.step if slash else 1)

    def number(self, text):
        value = int(text)
        if not self.least <= value <= self.most:
            raise ValueError(text)
        return value

    def in_order(self):
        if self.ordered is None:
            self.ordered = sorted(self.plain)
        return self.ordered

    def is_single(self):
        return self.step == 1 and not self.has_star and len(self.plain) == 1

    def sunday_as_0(self):
        for values in [self.plain, self.last, *self.nth.values()]:
            if 7 in values:
                values.remove(7)
                values.add(0)


def neighbours(ascending, value, least, most):
    """The members on both sides of a value that isn't one, or the outermost numbers."""
    at = bisect.bisect(ascending, value)
    return ascending[at - 1] if at > 0 else least, ascending[at] if at < len(ascending) else most


class Job:
    """A pattern of five to seven fields, as the default parser reads it."""

    def __init__(self, text):
        fields = text.split()
        fields = fields if len(fields) > 5 else ["0"] + fields
        fields = fields if len(fields) > 6 else fields + ["*"]
        self.is_and = fields[5].startswith("+")
        fields[5] = fields[5].removeprefix("+")
        bounds = [(0, 59), (0, 59), (0, 23), (1, 31), (1, 12), (0, 7), (FIRST_YEAR, LAST_YEAR)]
        fields = [Field(field, *bound) for field, bound in zip(fields, bounds, strict=True)]
        self.seconds, self.minutes, self.hours = fields[:3]
        self.days, self.months, self.weekdays, self.years = fields[3:]
        self.weekdays.sunday_as_0()
        self.is_fixed = all(field.is_single() for field in fields[:3])
        self.months_seen = {}

    def matches_date(self, number):
        """Whether the date matches: its year, its month, and its day by both day fields and the flag."""
        year, month, day = date_at(number)
        return year in self.years.plain and month in self.months.plain and day in self.days_of(year, month)

    def days_of(self, year, month):
        """The days of a month that match: the same for months of one length that begin with the same weekday."""
        first, length = month_at(year, month)
        kind = length, weekday_of(first)
        if kind not in self.months_seen:
            length, first = kind
            weekdays = {day: (first + day - 1) % 7 for day in range(1, length + 1)}
            self.months_seen[kind] = [day for day in weekdays if self.matches_day(day, weekdays)]
        return self.months_seen[kind]

    def matches_day(self, day, weekdays):
        """Whether a day matches, of a month whose days have these weekdays."""
        if self.days.is_star and self.weekdays.is_star:
            return True
        if self.days.is_star:
            return self.has_weekday(day, weekdays)
        if self.weekdays.is_star:
            return self.has_day(day, weekdays)
        both = [self.has_day(day, weekdays), self.has_weekday(day, weekdays)]
        return all(both) if self.is_and else any(both)

    def has_day(self, day, weekdays):
        work = [other for other in weekdays if 1 <= weekdays[other] <= 5]
        if self.days.has_last_weekday:
            is_last = day == max(work)
        else:
            is_last = self.days.has_last_day and day == max(weekdays)
        near = [min(work, key=lambda other: abs(other - n)) for n in self.days.near if n in weekdays]
        return day in self.days.plain or is_last or day in near

    def has_weekday(self, day, weekdays):
        weekday = weekdays[day]
        same = [other for other in weekdays if weekdays[other] == weekday]
        nth = sum(other <= day for other in same)
        return (
            weekday in self.weekdays.plain
            or weekday in self.weekdays.nth[nth]
            or weekday in self.weekdays.last and day == max(same)
        )

    def matches_time(self, of_day):
        return (
            of_day // 3600 in self.hours.plain
            and of_day // 60 % 60 in self.minutes.plain
            and of_day % 60 in self.seconds.plain
        )

    def is_scheduled(self, second):
        number, of_day = divmod(second, DAY)
        return self.matches_time(of_day) and self.matches_date(number)

    def quiet_date(self, second):
        """The first and the last wall second of the years or days about this one that don't match; or nothing."""
        year, month, day = date_at(second // DAY)
        if year not in self.years.plain:
            before, after = neighbours(self.years.in_order(), year, FIRST_YEAR - 2, LAST_YEAR + 2)
            return wall(before + 1), wall(after) - 1
        first, length = month_at(year, month)
        days = self.days_of(year, month) if month in self.months.plain else []
        if day in days:
            return None
        before, after = neighbours(days, day, 0, length + 1)
        return (first + before) * DAY, (first + after - 1) * DAY - 1

    def quiet_time(self, second):
        """The same of an hour or a minute that isn't named."""
        of_day = second % DAY
        if of_day // 3600 not in self.hours.plain:
            return second - second % 3600, second - second % 3600 + 3599
        if of_day // 60 % 60 not in self.minutes.plain:
            return second - second % 60, second - second % 60 + 59
        return None


# ---- clocks


class Clock:
    """A first offset and changes, each an instant and the offset from then on."""

    def __init__(self, first, changes):
        self.first, self.changes = first, changes
        self.instants = [instant for instant, _ in changes]
        self.offsets = [first] + [offset for _, offset in changes]

    def reads(self, instant):
        return instant + self.offsets[bisect.bisect_right(self.instants, instant)]

    def showing(self, second):
        """Each instant at which the clock shows the second."""
        tried = {second - offset for offset in self.offsets}
        return [instant for instant in tried if self.reads(instant) == second]

    def same_offset(self, instant):
        """The first and the last instant around this one with its offset; nothing on a side without a change."""
        after = bisect.bisect_right(self.instants, instant)
        first = self.instants[after - 1] if after > 0 else None
        last = self.instants[after] - 1 if after < len(self.instants) else None
        return first, last

    def gap_before(self, instant):
        """The wall seconds that are passed over from the second before to this instant."""
        return range(self.reads(instant - 1) + 1, self.reads(instant))

    def highest_to(self, instant):
        """The greatest second that is shown up to an instant."""
        return max([self.reads(instant)] + [self.reads(d - 1) for d in self.instants if d <= instant])

    def lowest_from(self, instant):
        """The least second that is shown from an instant on."""
        return min([self.reads(instant)] + [self.reads(d) for d in self.instants if d > instant])


CIVIL_TIME = Clock(0, [])


# ---- runs


def runs_itself(job, clock, instant):
    """Whether the job runs at an instant by the second that is shown."""
    second = clock.reads(instant)
    if not job.is_scheduled(second):
        return False
    return not (job.is_fixed and any(other < instant for other in clock.showing(second)))


def is_carried(job, clock, instant):
    """Whether a run of a gap is carried to an instant, its end."""
    gap = clock.gap_before(instant)
    return (
        job.is_fixed
        and job.matches_date(clock.reads(instant) // DAY)
        and any(job.is_scheduled(second) for second in gap)
    )


def runs_at(job, clock, instant):
    return runs_itself(job, clock, instant) or is_carried(job, clock, instant)


def counts_at(job, clock, start, instant, direction, inclusive):
    """Whether a search from the start counts a run of the job at an instant."""
    if instant == start:
        counted = runs_itself if direction == FORWARD else runs_at
        return inclusive and counted(job, clock, instant)
    return (instant - start) * direction > 0 and runs_at(job, clock, instant)


def next_to_look_at(job, clock, instant, direction):
    """The first instant from this one on at which the job may run, or nothing where no searched year is left."""
    while True:
        second = clock.reads(instant)
        if (second - wall(LAST_YEAR + 1)) > DAY and direction == FORWARD:
            return None
        if (wall(FIRST_YEAR) - second) > DAY and direction == BACKWARD:
            return None
        first, last = clock.same_offset(instant)
        quiet = job.quiet_date(second)
        if quiet is None:
            if instant == first:
                return instant
            quiet = job.quiet_time(second)
            first = None if first is None else first + 1
        if quiet is None:
            return instant
        if direction == FORWARD:
            end = instant + (quiet[1] - second)
            instant = (end if last is None else min(end, last)) + 1
        else:
            end = instant - (second - quiet[0])
            instant = (end if first is None else max(end, first)) - 1


def nearest(jobs, clock, start, direction, inclusive):
    """The first instant in the direction at which a run of some job counts, and the places of all such jobs."""
    ahead = {place: start for place in range(len(jobs))}
    instant = start
    while True:
        for place, due in list(ahead.items()):
            if (due - instant) * direction <= 0:
                due = next_to_look_at(jobs[place], clock, instant, direction)
                if due is None:
                    del ahead[place]
                else:
                    ahead[place] = due
        if not ahead:
            return None
        instant = min(ahead.values(), key=lambda due: due * direction)
        places = [p for p, job in enumerate(jobs) if counts_at(job, clock, start, instant, direction, inclusive)]
        if places:
            return instant, places
        instant += direction


def is_in_span(clock, instant, direction):
    if direction == FORWARD:
        return year_of(clock.highest_to(instant)) < LAST_YEAR
    return year_of(clock.lowest_from(instant)) > FIRST_YEAR


# ---- outside the span: which of the two allowed answers comes


def is_within(second, direction):
    return year_of(second) < LAST_YEAR if direction == FORWARD else year_of(second) > FIRST_YEAR


def next_scheduled(job, second, direction):
    """The nearest scheduled wall second from one on, or nothing where no searched year is left."""
    while True:
        second = next_to_look_at(job, CIVIL_TIME, second, direction)
        if second is None or job.is_scheduled(second):
            return second
        second += direction


def comes_to(job, second, direction):
    """The same where a walk comes to it. From a year of the span it steps on to the first day of the year after. From
    that year on it makes no step over a day, an hour or a minute: a named hour stays, and in it a named minute."""
    due = next_scheduled(job, second, direction)
    if due is None:
        return None
    if is_within(second, direction):
        edge = day_number(LAST_YEAR, 1, 1) if direction == FORWARD else day_number(FIRST_YEAR, 12, 31)
        return due if (due // DAY - edge) * direction <= 0 else None
    if due // DAY != second // DAY:
        return None
    (hour, minute), (to_hour, to_minute) = parts(second)[3:5], parts(due)[3:5]
    if to_hour != hour:
        return None if hour in job.hours.plain else due
    return None if to_minute != minute and minute in job.minutes.plain else due


def shown_on(clock, second, direction):
    """The nearest wall second that the clock shows."""
    while not clock.showing(second):
        second += direction
    return second


def met_at(job, clock, start, second, direction, inclusive):
    """What a walk meets at a scheduled second: a run, or nothing and the second from which it goes on."""
    showing = sorted(clock.showing(second))
    if not showing and job.is_fixed:
        end = shown_on(clock, second, FORWARD)
        carried = min(clock.showing(end))
        if job.matches_date(end // DAY) and (carried - start) * direction >= (0 if inclusive else 1):
            return carried, None
        return None, shown_on(clock, second, direction)
    runs = showing[:1] if job.is_fixed else showing[::direction]
    ahead = [run for run in runs if (run - start) * direction >= 0]
    return (ahead[0], None) if ahead else (None, second + direction)


def walked(job, clock, start, direction, inclusive):
    """The run that a walk along the wall clock meets, one scheduled second after another, or nothing."""
    second = clock.reads(start) + (0 if inclusive else direction)
    while (second := comes_to(job, second, direction)) is not None:
        run, second = met_at(job, clock, start, second, direction, inclusive)
        if run is not None:
            return run
    return None


def other_half(clock, start, direction):
    """From a start on the half of a repeated range that comes first: the first instant of the other half."""
    twins = [instant for instant in clock.showing(clock.reads(start)) if (instant - start) * direction > 0]
    if not twins:
        return None
    if direction == FORWARD:
        return next(instant for instant in clock.instants if instant > start)
    return next(instant for instant in reversed(clock.instants) if instant <= start) - 1


def searched(job, clock, start, direction, inclusive):
    """What the search of one pattern comes to: the run, or nothing for the limit. The other half is walked too."""
    first = walked(job, clock, start, direction, inclusive)
    edge = other_half(clock, start, direction)
    if edge is None or job.is_fixed and direction == FORWARD:
        return first
    if first is None:
        ends = [clock.reads(start), clock.reads(edge - direction)]
        return walked(job, clock, edge, direction, True) if all(is_within(end, direction) for end in ends) else None
    if (first - edge) * direction < 0:
        return first
    second = walked(job, clock, edge, direction, True)
    return None if second is None else min(first, second, key=lambda run: run * direction)


def is_met(run, jobs, clock, start, direction, inclusive):
    """Whether a run outside the span is given: where no pattern's search comes to the limit."""
    met = [searched(job, clock, start, direction, inclusive) for job in jobs]
    if None in met:
        return False
    first = min(met, key=lambda other: other * direction)
    if run != (first, [place for place, other in enumerate(met) if other == first]):
        raise Untrue(run, met)
    return True


# ---- answers


def answer(jobs, clock, start, direction, inclusive):
    """The nearest run with its places, or nothing where the limit is the answer; and whether a run was met outside."""
    found = nearest(jobs, clock, start, direction, inclusive)
    if found is None or is_in_span(clock, found[0], direction):
        return found, False
    return (found if is_met(found, jobs, clock, start, direction, inclusive) else None), True


def answers(jobs, clock, start, direction, inclusive, count):
    """At most so many runs one after another, and nothing after them where fewer are left; whether one was outside."""
    found, outside = [], False
    while len(found) < count:
        run, is_outside = answer(jobs, clock, start, direction, inclusive)
        found.append(run)
        outside |= is_outside
        if run is None:
            break
        start, inclusive = run[0], False
    return found, outside


# ---- what is asked


SIZES = [1, 60, 1_799, 3_600, 7_199, 7_200]
LONG_SIZES = [7_201, 43_200, 86_399, 86_400]
OFFSETS = [0, 0, 3_600, -18_000, 19_800, -36_000, 45_900, -43_200, 1, -1, 79_200, -79_200, -86_400]
COMMON_YEARS = [1969, 1970, 1999, 2000, 2023, 2024, 2024, 2100, 1600, 400, 3999]
EDGE_YEARS = [1, 2, 3, 4998, 4999, 5000]


def drawn_date(draw, ends):
    year = draw.choice(EDGE_YEARS if draw.random() < ends else COMMON_YEARS)
    kind = draw.randrange(4)
    if kind == 0:
        return year, 1, 1
    if kind == 1:
        return draw.choice([(year, 2, 1), (year, 2, 28), (year, 3, 1), (2024, 2, 29), (2000, 2, 29)])
    if kind == 2:
        return year, draw.randint(2, 12), 1
    return year, draw.randint(1, 12), draw.randint(1, 28)


def drawn_edge(draw, ends):
    """A wall second at which something ends; about the ends of the searched years so often."""
    times = [(0, 0, 0)] * 5 + [(2, 0, 0), (2, 0, 0), (3, 0, 0), (1, 30, 0), (23, 0, 0), (12, 0, 0), (0, 0, 1)]
    return wall(*drawn_date(draw, ends), *draw.choice(times))


def drawn_shift(draw, offset, longest):
    """By how many seconds the clock is moved, so that its offset stays within a day."""
    gaps = [size for size in SIZES if offset + size <= DAY]
    backs = [-size for size in SIZES if offset - size >= -DAY]
    long_gaps = [size for size in LONG_SIZES if size <= longest and offset + size <= DAY]
    return draw.choice(draw.choice([side for side in (gaps, backs, long_gaps, long_gaps) if side]))


def drawn_clock(draw, longest, ends=0.12):
    first = offset = draw.choice(OFFSETS)
    shift = drawn_shift(draw, offset, longest)
    about = draw.choice([0, 0, shift, shift, shift // 2])
    instant = drawn_edge(draw, ends) - about - offset
    changes = []
    for _ in range(draw.choice([1, 1, 2, 2, 3, 4])):
        offset += shift
        changes.append((instant, offset))
        apart = [0, 0, 0, 1, DAY, 20 * DAY, draw.randrange(200 * DAY)]
        instant += LEAST_APART + draw.choice(apart)
        shift = drawn_shift(draw, offset, longest)
    return Clock(first, changes)


def drawn_start(draw, clock):
    """A second around an edge of a change, or one and two days away."""
    at = draw.randrange(len(clock.changes))
    instant = clock.instants[at]
    size = abs(clock.offsets[at + 1] - clock.offsets[at])
    ends = [0] * 4 + [-size, size] * 3 + [size // 2, -size // 2, DAY, -DAY, 2 * DAY, -2 * DAY, 3600, -3600]
    return instant + draw.choice(ends) + draw.choice([-1, -1, 0, 0, 1])


def drawn_second(draw, clock):
    """A wall second about a change: skipped, shown once or shown twice."""
    at = draw.randrange(len(clock.changes))
    low, high = sorted([clock.reads(clock.instants[at] - 1), clock.reads(clock.instants[at])])
    middle = (low + high) // 2
    hour = middle - middle % 3600
    return draw.choice([low, high, low + 1, high - 1, low - 1, high + 1, middle, hour, hour + 1800, high + 3600])


def drawn_times(draw, hour, minute, second):
    """The fields of the time of the day that name this one: of both kinds of job."""
    kind = draw.randrange(8)
    if kind < 4:
        return f"{second} {minute} {hour}"
    seconds = draw.choice([f"{second}", "0", "0,30", f"{second}-59", "*", "*/15", f"{second}-{second}/7"])
    minutes = draw.choice([f"{minute}", "0", "0,30,59", "*/30", "*", f"{minute}-59/20"])
    hours = draw.choice([f"{hour}", "*", f"{hour},{(hour + 1) % 24}", f"0-{hour}", "*/2", "23,0", f"{hour}-{hour}/3"])
    return f"{seconds} {minutes} {hours}"


def drawn_dates(draw, year, month, day):
    """The fields of days, months and weekdays that mostly name this date."""
    tag = weekday_of(day_number(year, month, day))
    days = [f"{day}", f"{day}", f"{day},1", "1", "L", "LW", f"{day}W", "1W", "1-15", f"{day}-31", "?"]
    months = [f"{month}", f"{month}", f"{month},{month % 12 + 1}", "1,2", "1-12/3"]
    nth = f"{tag}#{(day + 6) // 7}"
    weekdays = [f"{tag}", f"{tag}", f"+{tag}", f"{(tag + 1) % 7}", nth, f"{tag}L", "1-5", "7", "6,7"]
    fields = [draw.choice(field if draw.random() < 0.5 else ["*"]) for field in (days, months, weekdays)]
    return " ".join(fields)


def drawn_pattern(draw, second):
    """A pattern that mostly names a second."""
    year, month, day, hour, minute, second = parts(second)
    years = ["", " *"] + [f" {y}" for y in (year, year + 1) if FIRST_YEAR <= y <= LAST_YEAR]
    if FIRST_YEAR < year < LAST_YEAR:
        years += [f" {year - 1}-{year + 1}"] * 2
    if draw.random() < 0.15 and FIRST_YEAR <= year <= LAST_YEAR:
        return f"{draw.choice(['0', '*/20'])} {draw.choice(['*/30', '*', minute])} {hour} {day} {month} ? {year}"
    text = f"{drawn_times(draw, hour, minute, second)} {drawn_dates(draw, year, month, day)}"
    if text.startswith("0 ") and draw.random() < 0.5:
        return text.removeprefix("0 ")
    return text + draw.choice(years)


HOW = {
    "from_forward": (FORWARD, True),
    "from_backward": (BACKWARD, True),
    "after": (FORWARD, False),
    "before": (BACKWARD, False),
}


def drawn_way(draw):
    """An operation: its name and its other members, the direction, and whether the start counts."""
    if draw.random() < 0.25:
        how = draw.choice(list(HOW))
        return "iter", ({"how": how, "count": draw.randint(1, 5)}, *HOW[how])
    op, direction = draw.choice([("next", FORWARD), ("prev", BACKWARD)])
    inclusive = draw.random() < 0.4
    return op, ({"inclusive": inclusive, "count": draw.choice([1, 1, 2, 3])}, direction, inclusive)


def wanted(question, found, shown):
    """What the replay wants: the runs, and after them the limit, or null for each further call of an iterator."""
    runs = [shown(run) for run in found if run is not None]
    missing = question["count"] - len(runs)
    if question["op"].endswith("iter"):
        return runs + [None] * missing
    return runs + [LIMIT] if missing else runs


def asked(question, jobs, clock, start, way, shown):
    """The question with its answers, each as it is shown; and whether a run outside the span was met."""
    members, direction, inclusive = way
    question = {**question, **members}
    found, outside = answers(jobs, clock, start, direction, inclusive, question["count"])
    return {**question, "want": wanted(question, found, shown)}, outside


def zone_of(clock):
    return {"first": clock.first, "changes": [list(change) for change in clock.changes]}


def edge_line(draw, clock):
    """A search of one pattern on a table of offsets."""
    text, start = drawn_pattern(draw, drawn_second(draw, clock)), drawn_start(draw, clock)
    op, way = drawn_way(draw)
    question = {"op": op, "text": text, "zone": zone_of(clock), "start": start}
    return asked(question, [Job(text)], clock, start, way, lambda run: run[0])


def drawn_patterns(draw, clock):
    """Patterns of a table: of many seconds, or all of one second, so that several run at once."""
    count = draw.choice([0, 1, 2, 2, 3, 3, 4, 5, 8, 13, 30])
    seconds = [drawn_second(draw, clock) for _ in range(count)]
    if draw.random() < 0.6:
        seconds = seconds[:1] * count
    patterns = [drawn_pattern(draw, second) for second in seconds]
    if patterns and draw.random() < 0.4:
        patterns.insert(draw.randint(0, count), draw.choice(patterns))
    return patterns


def civil_text(second):
    year, month, day, hour, minute, second = parts(second)
    return f"{year:04}-{month:02}-{day:02}T{hour:02}:{minute:02}:{second:02}"


def table_line(draw, clock):
    """A search of a table of patterns, on a table of offsets or in civil time."""
    texts, start = drawn_patterns(draw, clock), drawn_start(draw, clock)
    jobs = [Job(text) for text in texts]
    op, way = drawn_way(draw)
    question = {"op": f"table_{op}", "patterns": [{"text": text} for text in texts]}
    if draw.random() < 0.25:
        question["start"] = parts(start)
        return asked(question, jobs, CIVIL_TIME, start, way, lambda run: [civil_text(run[0]), run[1]])
    question |= {"zone": zone_of(clock), "start": start}
    return asked(question, jobs, clock, start, way, list)


def end_line(draw, clock):
    """The one or the other."""
    return draw.choice([edge_line, table_line])(draw, clock)


# ---- interval jobs beside gaps


LEAST_GAP = 17  # a walk goes across a gap at its sixteenth pass
GAPS = [17, 18, 32, 33, 60, 600, 1_799, 3_600, 7_200, 43_200, 86_399, 86_400]


def drawn_gap_clock(draw, longest, ends):
    """A clock with a gap, alone, or between two other changes."""
    size = draw.choice([gap for gap in GAPS if gap <= longest] + [draw.randint(LEAST_GAP, longest)] * 6)
    first = draw.choice([offset for offset in OFFSETS if offset + size <= DAY])
    edge = drawn_edge(draw, ends)
    instant = edge - draw.choice([0, 0, size, size // 2]) - first
    changes = [(instant, first + size)]
    if draw.random() < 0.5:
        apart = LEAST_APART + draw.choice([0, 0, 1, DAY])
        changes.append((instant + apart, first + size + drawn_shift(draw, first + size, longest)))
    return Clock(first, changes)


def drawn_interval(draw, clock):
    """An interval job: many seconds, or some, about the gap."""
    second = drawn_second(draw, clock)
    year, month, day, hour, minute, second = parts(second)
    times = draw.choice([
        "* * *", "* * *", "*/2 * *", "*/10 * *", "0 * *", "0 */5 *", f"{second} * *", f"{second} {minute} *",
        f"0,{second} {minute} *", f"* {minute} *", f"* {minute} {hour}", f"*/7 * {hour}", f"0 0,30 {hour}", "0 0 */3",
    ])
    dates = f"{drawn_dates(draw, year, month, day)}" if draw.random() < 0.4 else "* * *"
    years = draw.choice(["", "", f" {year}"]) if FIRST_YEAR <= year <= LAST_YEAR else ""
    return f"{times} {dates}{years}"


def gap_line(draw, clock):
    """A search of an interval job that comes to a gap, from a few seconds or a few minutes beside it."""
    size = clock.offsets[1] - clock.offsets[0]
    beside = draw.choice([0, 1, draw.randint(0, 20), draw.randint(0, 20), draw.randint(0, 900)])
    text = drawn_interval(draw, clock)
    op, direction = draw.choice([("next", FORWARD), ("prev", BACKWARD)])
    start = clock.instants[0] - 1 - beside if direction == FORWARD else clock.instants[0] + beside
    if draw.random() < 0.1:
        start += direction * draw.choice([size, DAY, 40])
    inclusive = draw.random() < 0.4
    way = {"inclusive": inclusive, "count": draw.choice([1, 1, 2])}, direction, inclusive
    question = {"op": op, "text": text, "zone": zone_of(clock), "start": start}
    return asked(question, [Job(text)], clock, start, way, lambda run: run[0])


# ---- listings, and searches from the run before


def drawn_listed(draw, clock):
    """The patterns of a table of which some run on every day."""
    patterns = drawn_patterns(draw, clock)
    for place in range(len(patterns)):
        if draw.random() < 0.6:
            patterns[place] = f"{drawn_times(draw, *parts(drawn_second(draw, clock))[3:])} * * *"
    return patterns


def list_lines(draw, clock, drawn_texts=drawn_listed, held=None):
    """A listing of a table, and the table's own searches, each from the run before: both want the same runs."""
    texts, start = drawn_texts(draw, clock), drawn_start(draw, clock)
    how = draw.choice(list(HOW))
    direction, inclusive = HOW[how]
    count = draw.randint(3, 12)
    found, outside = answers([Job(text) for text in texts], clock, start, direction, inclusive, count)
    zone = zone_of(clock)
    if held is not None:
        zone["held"] = held(draw, start, [run[0] for run in found if run is not None])
    question = {"patterns": [{"text": text} for text in texts], "zone": zone, "start": start, "count": count}
    search = "table_next" if direction == FORWARD else "table_prev"
    lines = [{"op": "table_iter", "how": how, **question}, {"op": search, "inclusive": inclusive, **question}]
    return [{**line, "want": wanted(line, found, list)} for line in lines], outside


def drawn_held(draw, start, runs):
    """The first and the last instant that are held: somewhat beyond the start, and at one of the runs or beyond."""
    about = draw.choice(runs) if runs else start
    near = [0, 0, 1, 60, 1_800, 3_600, 7_200, DAY, 2 * DAY, 3 * DAY]
    ends = [start, about, start - draw.choice(near), start + draw.choice(near), about - draw.choice(near), about + draw.choice(near)]
    return [min(ends), max(ends)]


def drawn_once(draw, clock):
    """The patterns of a table of which many run on one day, so that their searches come to an end."""
    patterns = drawn_listed(draw, clock)
    for place in range(len(patterns)):
        if draw.random() < 0.6:
            year, month, day, hour, minute, second = parts(drawn_second(draw, clock) + draw.randint(-6, 6) * 1_800)
            if FIRST_YEAR <= year <= LAST_YEAR:
                patterns[place] = f"{draw.choice(['0', second])} {draw.choice([minute, f'{minute}-59'])} {hour} {day} {month} * {year}"
    return patterns


def held_lines(draw, clock):
    return list_lines(draw, clock, drawn_once, drawn_held)


REFUSED = ("InvalidTime", "InvalidDate")


def until_refused(answered):
    """The answers before the first refusal or the end of the runs, that end included, and whether a refusal is next."""
    before = []
    for one in answered:
        if one in REFUSED:
            return before, True
        before.append(one)
        if one is None or one == LIMIT:
            break
    return before, False


def verdict(listing, items, runs):
    """What a listing is: its line, the items that came, and what came of the table's own searches."""
    whole, _ = until_refused(listing["want"])
    items, is_refused = until_refused(items)
    runs, is_search_refused = until_refused([None if run == LIMIT else run for run in runs])
    if items != whole[:len(items)] or runs != whole[:len(runs)] or len(items) < len(runs):
        return "other"
    if len(items) > len(runs):
        return "longer than its searches" if is_search_refused else "other"
    if not is_refused:
        return "whole" if len(items) == len(whole) else "other"
    return "refused with its searches" if is_search_refused else "other"


def judge(questions, printed):
    """Counts the listings of a file of lines by what they are, from what the replay printed of them."""
    lines = [json.loads(line) for line in questions]
    got = {}
    for line in printed:
        differs = re.fullmatch(r"line (\d+): got (.*), want .*", line)
        if differs:
            got[int(differs[1])] = json.loads(differs[2])
    counts = {}
    for at in range(0, len(lines), 2):
        listing, search = lines[at : at + 2]
        what = verdict(listing, got.get(at + 1, listing["want"]), got.get(at + 2, search["want"]))
        counts[what] = counts.get(what, 0) + 1
        if what == "other":
            print(f"lines {at + 1} and {at + 2}: {got.get(at + 1)} and {got.get(at + 2)}")
    print(", ".join(f"{what}: {count}" for what, count in sorted(counts.items())))
    return 1 if "other" in counts else 0


# What is drawn, on which clocks, and how often about the ends of the searched years.
MODES = {
    "edges": (edge_line, drawn_clock, 0.12),
    "tables": (table_line, drawn_clock, 0.12),
    "ends": (end_line, drawn_clock, 1),
    "gaps": (gap_line, drawn_gap_clock, 0.12),
    "lists": (list_lines, drawn_clock, 0.12),
    "held": (held_lines, drawn_clock, 0.12),
}


def main(words):
    if len(words) == 2 and words[0] == "judge":
        sys.exit(judge(pathlib.Path(words[1]).read_text(encoding="utf-8").splitlines(), sys.stdin.read().splitlines()))
    if len(words) not in (3, 4) or words[0] not in MODES:
        sys.exit(__doc__)
    line, clock, ends = MODES[words[0]]
    seed, count = int(words[1]), int(words[2])
    longest = int(words[3]) if len(words) == 4 else SIZES[-1]
    draw, printed, outside = random.Random(seed), 0, 0
    for _ in range(count):
        questions, is_outside = line(draw, clock(draw, longest, ends))
        for question in questions if isinstance(questions, list) else [questions]:
            print(json.dumps(question, separators=(",", ":")))
            printed += 1
        outside += is_outside
    print(f"{printed} printed, of which {outside} met a run outside the span", file=sys.stderr)


if __name__ == "__main__":
    main(sys.argv[1:])
