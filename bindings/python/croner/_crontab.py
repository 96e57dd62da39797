"""Lines of crontabs, as Debian's cron reads and starts them."""
from ctypes import sizeof
from datetime import datetime
from typing import NamedTuple

from . import _library as lib
from ._cron import CronError, clock_of, listed, most_of, start_of, time_of, until_of

KINDS = ("blank", "comment", "setting", "job", "reboot", "never")
# Why cron refuses a line: the field, and what is said.
FAULTS = {
    1: (None, "cron refuses a line with a byte 0"),
    2: ("minute", "cron refuses the minutes"),
    3: ("hour", "cron refuses the hours"),
    4: ("day", "cron refuses the days of the month"),
    5: ("month", "cron refuses the months"),
    6: ("weekday", "cron refuses the weekdays"),
    7: (None, "cron knows no such nickname"),
    8: (None, "a user's name and a blank are missing before the command"),
    9: (None, "cron refuses a command that begins with *"),
    10: (None, "cron refuses a command of more than 998 bytes"),
}


class Start(NamedTuple):
    """A second at which cron starts a job, and how often it does."""

    time: datetime
    times: int


class CrontabLine:
    """A line of a crontab: `CrontabLine("0 9 * * 1 backup")`."""

    __slots__ = ("_bytes", "_command", "_kind", "_schedule", "_system", "_text", "_user", "__weakref__")

    def __init__(self, text, *, system=False):
        if not isinstance(text, str):
            raise TypeError(f"a line is a str, and not of {type(text).__name__}")
        self._text, self._system = text.removesuffix("\n"), bool(system)
        if "\n" in self._text:
            raise ValueError("a line has no line feed but its last character")
        self._bytes = bytes_of(self._text)
        line = lib.Line(sizeof(lib.Line))
        status = lib.crontab_line(self._bytes, len(self._bytes), self._system, line)
        if status == lib.REFUSED:
            field, message = FAULTS[line.fault]
            begin, end = (len(self._piece(0, it)) for it in (line.fault_begin, line.fault_end))
            raise CronError(message, self._text, begin, end, field)
        if status != lib.OK:
            lib.fail(status)
        self._kind = KINDS[line.kind]
        self._schedule = self._piece(line.schedule_begin, line.schedule_end)
        self._user = self._piece(line.user_begin, line.user_end)
        self._command = self._piece(line.command_begin, line.command_end)

    def _piece(self, begin, end):
        return self._bytes[begin:end].decode(errors="surrogateescape")

    @property
    def text(self):
        return self._text

    @property
    def system(self):
        return self._system

    @property
    def kind(self):
        return self._kind

    @property
    def schedule(self):
        return self._schedule

    @property
    def user(self):
        return self._user

    @property
    def command(self):
        return self._command

    def starts(self, start, *, count=None, until=None):
        zone, second, _ = start_of(start)
        bounds = False, until_of(until), most_of(count), lib.Start
        if self._kind != "job":
            return iter(())
        return starts_of(listed(self._find_starts, zone, clock_of(zone, start, second), second, *bounds), start)

    def _find_starts(self, clock, second, _, *rest):
        return lib.crontab_starts(self._bytes, len(self._bytes), self._system, clock, second, *rest)

    def __eq__(self, other):
        return self._key() == other._key() if isinstance(other, CrontabLine) else NotImplemented

    def __hash__(self):
        return hash(self._key())

    def _key(self):
        return self._text, self._system

    def __reduce__(self):
        return read_again, (type(self), self._text, self._system)

    def __str__(self):
        return self._text

    def __repr__(self):
        return f"CrontabLine({self._text!r}{', system=True' if self._system else ''})"


def bytes_of(text):
    """A line's bytes, some of which may be no UTF-8. A surrogate that stands for none of these is refused."""
    try:
        return text.encode(errors="surrogateescape")
    except UnicodeEncodeError as error:
        raise CronError("a line has a surrogate that is no byte of a file", text, error.start, error.end, None) from None


def starts_of(chunks, start):
    """Cron's starts, which come in lists, in the zone of the time from which on they are listed."""
    for clock, starts in chunks:
        for it in starts:
            yield Start(time_of(it.second, clock, start), it.times)


def read_again(kind, text, system):
    """A line that was pickled."""
    return kind(text, system=system)
