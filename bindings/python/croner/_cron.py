"""Patterns and their runs."""
from ctypes import byref, c_int32, c_int64, c_size_t, sizeof
from datetime import datetime, timezone
from functools import total_ordering
from itertools import repeat
from math import inf
from operator import index

from . import _library as lib
from ._zones import FIRST_OF_DATES, NEVER, check_start, shown, zone_of

EPOCH = datetime(1970, 1, 1, tzinfo=timezone.utc)
SECONDS_PER_DAY = 86_400
CHUNK = 64  # how many runs a call lists
FIELDS = ("second", "minute", "hour", "day", "month", "weekday", "year")
PRESENCE = ("optional", "required", "disallowed")
DESCRIPTIONS = {"en": 0, "sv": 1}
SUMMARIES = {"en": 2, "sv": 3}
DAY_AND_WEEKDAY, QUARTZ_WEEKDAYS, SLOPPY_RANGES = 16, 32, 64


class CronError(ValueError):
    """A pattern is refused. `pattern[begin:end]` is at fault; `field` is its field, or None."""

    def __init__(self, message, pattern, begin, end, field):
        super().__init__(message, pattern, begin, end, field)
        self.message, self.pattern, self.begin, self.end, self.field = message, pattern, begin, end, field

    def __str__(self):
        return self.message


def bytes_of(pattern):
    """A pattern's bytes. A surrogate, which has none, becomes bytes that the library refuses."""
    if not isinstance(pattern, str):
        raise TypeError(f"a pattern is a str, and not of {type(pattern).__name__}")
    return pattern.encode(errors="surrogatepass")


def characters(text):
    """How many characters bytes of UTF-8 begin."""
    return sum(it & 0xC0 != 0x80 for it in text)


def presence(name, value):
    if value not in PRESENCE:
        raise ValueError(f"{name} is one of {', '.join(PRESENCE)}, and not {value!r}")
    return PRESENCE.index(value)


def form_of(forms, language):
    if language not in forms:
        raise ValueError(f"language is one of {', '.join(forms)}, and not {language!r}")
    return forms[language]


def start_of(time):
    """A time's clocks, its whole second, and whether a fraction is left."""
    if not isinstance(time, datetime):
        raise TypeError(f"a time is a datetime with a zone, and not of {type(time).__name__}")
    zone = zone_of(time.tzinfo)
    since = datetime.__sub__(time, EPOCH)  # also of a class with another difference
    return zone, since.days * SECONDS_PER_DAY + since.seconds, time.microsecond != 0


def clock_of(zone, time, second):
    """The clock for a search from a time, at a second, which shows what the time's zone shows there."""
    clock = zone.clock_at(second)
    if not zone.is_fixed:
        ahead, _ = clock.part_at(second)
        if time.utcoffset() != ahead:
            check_start(time, second, ahead)
    return clock


def time_of(second, clock, start):
    """The time at the second of a run, in the zone of the start."""
    if type(start.tzinfo) is timezone and second >= FIRST_OF_DATES:
        return datetime.fromtimestamp(second, start.tzinfo)
    return shown(second, clock.part_at(second)[0], start.tzinfo)


def until_of(until):
    """The last second that counts."""
    return NEVER if until is None else start_of(until)[1]


def is_left(status):
    """Whether a search found something: the widest clock has all the years that are searched, so nothing is left outside."""
    return status == lib.OK or (status not in (lib.LIMIT, lib.OUTSIDE) and lib.fail(status))


def nearest(find, cron, start, zone, second, inclusive, is_forward):
    """The nearest run, by wider and wider clocks as long as it lies outside; None where none is left."""
    text, length, bits, clock, run, end = cron._text, cron._length, cron._bits, zone.clock_at(second), c_int64(), second
    if not zone.is_fixed:
        ahead, end = clock.part_at(second)
        if start.utcoffset() != ahead:
            check_start(start, second, ahead)
    status = find(text, length, bits, clock.reference, second, inclusive, byref(run))
    if status == lib.OUTSIDE:
        for clock in zone.wider(second, is_forward):
            status = find(text, length, bits, clock.reference, second, inclusive, byref(run))
            if status != lib.OUTSIDE:
                break
    if status and not is_left(status):
        return None
    # (a run before the clock's next change is as far ahead as the start)
    return shown(run.value, ahead, start.tzinfo) if second <= run.value < end else time_of(run.value, clock, start)


def most_of(count):
    """How many items a list may have."""
    if count is None:
        return inf
    if index(count) < 0:
        raise ValueError(f"count is {count}")
    return index(count)


def listed(find, zone, clock, second, inclusive, until, most, kind):
    """Lists in chunks: `find` is handed a clock, a second, whether it counts, the last second, an array and its length, and where to put
    how many it has written there. Gives clocks with lists of these."""
    count = c_size_t()
    while most > 0:
        room = min(CHUNK, most)
        chunk = (kind * room)()
        rest = second, inclusive, until, chunk, room, byref(count)
        status = find(clock.reference, *rest)
        if status == lib.OUTSIDE and not count.value:
            for clock in zone.wider(second, True):
                status = find(clock.reference, *rest)
                if status != lib.OUTSIDE or count.value:
                    break
        is_left(status)
        found = chunk[: count.value]
        yield clock, found
        if not found or (len(found) < room and status != lib.OUTSIDE):
            return
        most -= len(found)
        second, inclusive = found[-1] if kind is c_int64 else found[-1].second, False
        clock = zone.clock_at(second)


def times_of(chunks, start):
    """The times of runs, which come in lists, in the zone of the start."""
    zone, at = start.tzinfo, datetime.fromtimestamp
    for clock, seconds in chunks:
        if type(zone) is timezone and seconds and seconds[0] >= FIRST_OF_DATES:
            yield from map(at, seconds, repeat(zone))
            continue
        end = None
        for second in seconds:
            if end is None or second >= end:
                ahead, end = clock.part_at(second)
            yield shown(second, ahead, zone)


@total_ordering
class Cron:
    """A pattern: `Cron("0 9 * * MON-FRI")`."""

    __slots__ = ("_bits", "_length", "_pattern", "_text", "__weakref__")

    def __init__(
        self,
        pattern,
        *,
        seconds="optional",
        year="optional",
        dom_and_dow=False,
        alternative_weekdays=False,
        sloppy_ranges=False,
    ):
        self._pattern, self._text = pattern, bytes_of(pattern)
        self._length = len(self._text)
        self._bits = presence("seconds", seconds) | presence("year", year) << 2
        self._bits |= DAY_AND_WEEKDAY * bool(dom_and_dow) | QUARTZ_WEEKDAYS * bool(alternative_weekdays)
        self._bits |= SLOPPY_RANGES * bool(sloppy_ranges)
        fault = lib.Fault(sizeof(lib.Fault))
        message = lib.text_of(lambda *out: lib.explain(*self._words(), fault, *out), lib.REFUSED)
        if message is not None:
            begin, end = (characters(self._text[:it]) for it in (fault.begin, fault.end))
            field = FIELDS[fault.field] if fault.field >= 0 else None
            raise CronError(message, pattern, begin, end, field)

    def _words(self):
        return self._text, self._length, self._bits

    @property
    def pattern(self):
        return self._pattern

    @property
    def settings(self):
        bits = self._bits
        return {
            "seconds": PRESENCE[bits & 3],
            "year": PRESENCE[bits >> 2 & 3],
            "dom_and_dow": bits & DAY_AND_WEEKDAY != 0,
            "alternative_weekdays": bits & QUARTZ_WEEKDAYS != 0,
            "sloppy_ranges": bits & SLOPPY_RANGES != 0,
        }

    def next(self, start, *, inclusive=False):
        zone, second, has_fraction = start_of(start)
        # (a whole second that a fraction follows lies before the start)
        return nearest(lib.find_next, self, start, zone, second, bool(inclusive) and not has_fraction, True)

    def previous(self, start, *, inclusive=False):
        zone, second, has_fraction = start_of(start)
        second = min(second, lib.LAST_SECOND)  # years after the last run
        return nearest(lib.find_previous, self, start, zone, second, bool(inclusive) or has_fraction, False)

    def runs(self, start, *, count=None, until=None, inclusive=False):
        zone, second, has_fraction = start_of(start)
        bounds = bool(inclusive) and not has_fraction, until_of(until), most_of(count)
        clock = clock_of(zone, start, second)
        return times_of(listed(self._find_runs, zone, clock, second, *bounds, c_int64), start)

    def _find_runs(self, *words):
        return lib.find_runs(self._text, self._length, self._bits, *words)

    def __iter__(self):
        return self.runs(datetime.now(timezone.utc))

    def matches(self, time):
        zone, second, _ = start_of(time)
        if second > lib.LAST_SECOND:  # no pattern names a year after 5000
            return False
        is_match = c_int32()
        status = lib.matches(*self._words(), clock_of(zone, time, second).reference, second, byref(is_match))
        return is_match.value == 1 if status == lib.OK else lib.fail(status)

    def describe(self, language="en"):
        return self._said(form_of(DESCRIPTIONS, language))

    def summary(self, language="en"):
        return self._said(form_of(SUMMARIES, language))

    def _said(self, form):
        return lib.text_of(lambda *out: lib.describe(*self._words(), form, *out), lib.OK)

    def __eq__(self, other):
        return self._key() == other._key() if isinstance(other, Cron) else NotImplemented

    def __lt__(self, other):
        return self._key() < other._key() if isinstance(other, Cron) else NotImplemented

    def __hash__(self):
        return hash(self._key())

    def _key(self):
        return self._pattern, self._bits

    def __reduce__(self):
        return read_again, (type(self), self._pattern, self.settings)

    def __str__(self):
        return self._pattern

    def __repr__(self):
        given = [f"{name}={value!r}" for name, value in self.settings.items() if value not in ("optional", False)]
        return f"Cron({', '.join([repr(self._pattern), *given])})"


def read_again(kind, pattern, settings):
    """A pattern that was pickled."""
    return kind(pattern, **settings)
