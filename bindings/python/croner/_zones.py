"""The clocks of datetimes' zones, as the library wants them."""
import zoneinfo
from bisect import bisect_right
from ctypes import byref, c_int32, c_size_t, sizeof
from datetime import datetime, timedelta, timezone
from importlib import resources
from pathlib import Path, PurePosixPath

from . import _library as lib

# Each call copies and tests its clock, so a clock has few changes. That of a search is for the block of 2 ** 27 seconds (four years) that
# has its start, and the blocks on both sides. A search that leaves it gets wider ones: of larger blocks, and at last of all years.
BLOCK, WIDER_BLOCKS = 27, (31, 34)
# Where the zone isn't calm there, a clock has the days about the start, and wider ones reach this far from it (six days at first).
NEAR_BLOCKS = (19, 22, 24, 26, 27, 28, 29, 30, 31, 34)
DAYS_ABOUT = 200_000
# The years in which each run is found, 1 to 4999, and some days.
FIRST_SEARCHED, LAST_SEARCHED = -62135596800 - 200_000, 95617584000 + 200_000
FIRST_OF_DATES, LAST_OF_DATES = -62135596800, 253402300799
MOST_CLOCKS, MOST_ZONES = 200, 2_000
EPOCH, NEVER = datetime(1970, 1, 1), 2**63 - 1


class ClockError(ValueError):
    """A zone's clock changes in a way that the library doesn't follow, or isn't that of the file of its key."""


class Clock:
    """A clock of the library: `reference` is what its calls are handed."""

    def __init__(self, first, last, ahead, changes, count):
        self.changes = changes  # which has to live as long
        self.clock = lib.Clock(sizeof(lib.Clock), first, last, changes, count, ahead)
        self.reference = byref(self.clock)
        self.parts = None

    def part_at(self, second):
        """How far the clock is ahead of UTC at a second, and the second from which on that is no longer so."""
        seconds, aheads = self.parts or self.new_parts()
        place = bisect_right(seconds, second)
        return aheads[place], seconds[place]

    def new_parts(self):
        changes = self.changes[: self.clock.count] if self.clock.count else ()
        aheads = [timedelta(seconds=it) for it in (self.clock.ahead, *(it.ahead for it in changes))]
        self.parts = [*(it.second for it in changes), NEVER], aheads
        return self.parts


class FixedZone:
    """A zone whose clock never changes."""

    is_fixed = True

    def __init__(self, ahead):
        self.clock = Clock(lib.FIRST_SECOND, lib.LAST_SECOND, ahead, None, 0)

    def clock_at(self, second):
        return self.clock

    def wider(self, second, is_forward):
        return ()


class NamedZone:
    """A zone of a time zone file."""

    is_fixed = False

    def __init__(self, key, data):
        self.key, self.data, self.clocks = key, data, {}

    def clock_at(self, second):
        """The clock for a search from a second."""
        return self.clocks.get(second >> BLOCK) or self.new_clock_at(second)

    def new_clock_at(self, second):
        clock = self.clock_of(*window(BLOCK, second))
        if clock:
            return self.kept(second >> BLOCK, clock)
        return self.clock_of(second - DAYS_ABOUT, second + DAYS_ABOUT) or self.refuse(second)

    def wider(self, second, is_forward):
        """Wider and wider clocks for a search from a second, which reach back, or forward, no farther than they have to."""
        first, last = window(BLOCK, second)
        for bits in (*WIDER_BLOCKS, None):
            ends = (FIRST_SEARCHED, LAST_SEARCHED) if bits is None else window(bits, second)
            wide = (first, max(last, ends[1])) if is_forward else (min(first, ends[0]), last)
            clock = self.clocks.get(wide) or self.clock_of(*wide)
            if clock is None:
                yield from self.wider_of_few(second, is_forward)
                return
            yield self.kept(wide, clock)

    def wider_of_few(self, second, is_forward):
        """The same where the zone isn't calm so far away."""
        for first, last in [(second - (1 << it), second + (1 << it)) for it in NEAR_BLOCKS] + [(FIRST_SEARCHED, LAST_SEARCHED)]:
            wide = (second - DAYS_ABOUT, max(last, second)) if is_forward else (min(first, second), second + DAYS_ABOUT)
            yield self.clock_of(*wide) or self.refuse(second)

    def kept(self, name, clock):
        if len(self.clocks) >= MOST_CLOCKS:
            self.clocks.clear()
        self.clocks[name] = clock
        return clock

    def clock_of(self, first, last):
        """The clock for a window; None where the zone isn't calm there."""
        first, last = max(first, lib.FIRST_SECOND), min(last, lib.LAST_SECOND)
        room, ahead, count = 64, c_int32(), c_size_t()
        while True:
            changes = (lib.Change * room)()
            status = lib.clock_of_tzif(self.data, len(self.data), first, last, changes, room, ahead, count)
            if status == lib.OK:
                return Clock(first, last, ahead.value, changes, count.value)
            if status == lib.NOT_CALM:
                return None
            if status != lib.TOO_SMALL:
                self.refuse_file() if status == lib.BAD_ZONE else lib.fail(status)
            room = count.value

    def refuse(self, second):
        raise ClockError(f"the clock of {self.key} isn't followed from {date_of(second)}: it changes too often, or too far")

    def refuse_file(self):
        raise ClockError(f"the file of {self.key} is no time zone file")


def date_of(second):
    """The date of a second in UTC, for a message; the nearest one that a date can have."""
    return (EPOCH + timedelta(seconds=min(max(second, FIRST_OF_DATES), LAST_OF_DATES))).date()


def shown(second, ahead, zone):
    """The time of a zone at a second, where its clock is so far ahead of UTC: its own, or a ClockError."""
    try:
        time = datetime.fromtimestamp(second, zone)
    except (ValueError, OverflowError):  # UTC shows a year before 1 there
        time = (EPOCH + (timedelta(seconds=second) + ahead)).replace(tzinfo=zone)
    if time.utcoffset() != ahead:
        raise ClockError(
            f"the clock of this ZoneInfo isn't that of the file of its key, {zone.key}: they differ on {date_of(second)}"
        )
    return time


def check_start(time, second, ahead):
    """Raises ClockError where a time's zone isn't so far ahead of UTC at its second, though the time itself may seem so: a time that the clock
    skips is shown with the offset from before the change. No clock goes on after LAST_SECOND."""
    if second <= lib.LAST_SECOND:
        shown(second, ahead, time.tzinfo)


def window(bits, second):
    """The first and the last second of the block of a second and those on both sides."""
    block = second >> bits
    return (block - 1) << bits, ((block + 2) << bits) - 1


def bytes_of(key):
    """The bytes of a zone's file: in the folders of zoneinfo.TZPATH, else of the package tzdata."""
    parts = PurePosixPath(key).parts
    if not parts or key.startswith("/") or any(it in ("..", ".") for it in parts) or "\0" in key:
        raise ValueError(f"{key!r} is no name of a time zone")
    for folder in zoneinfo.TZPATH:
        path = Path(folder, *parts)
        if is_file(path):
            return checked(key, path.read_bytes())
    try:
        return checked(key, resources.files(".".join(["tzdata.zoneinfo", *parts[:-1]])).joinpath(parts[-1]).read_bytes())
    except (ImportError, OSError, UnicodeEncodeError):
        raise zoneinfo.ZoneInfoNotFoundError(f"no time zone file of {key}") from None


def is_file(path):
    """Whether a path leads to a file; not so where it is too long for one."""
    try:
        return path.is_file()
    except OSError:
        return False


def checked(key, data):
    if len(data) > lib.MOST_ZONE_BYTES:
        raise ClockError(f"the file of {key} is larger than {lib.MOST_ZONE_BYTES} bytes")
    return data


def fixed_zone(offset):
    if offset.microseconds:
        raise ValueError(f"the offset {offset} is no whole number of seconds")
    return FixedZone(offset // timedelta(seconds=1))


def named_zone(key):
    """The zone of a name, whose file is read for each object of that name. Those of the same file share their clocks."""
    data = bytes_of(key)
    if len(NAMED) >= MOST_ZONES:
        NAMED.clear()
    return NAMED.get((key, data)) or NAMED.setdefault((key, data), NamedZone(key, data))


def new_zone(zone):
    if isinstance(zone, zoneinfo.ZoneInfo):
        if zone.key is None:
            raise TypeError("a ZoneInfo without a key, as of ZoneInfo.from_file, can't be looked up: take ZoneInfo(NAME)")
        return named_zone(zone.key)
    if isinstance(zone, timezone):
        return fixed_zone(zone.utcoffset(None))
    if zone is None:
        raise ValueError("the datetime is naive: give it a zone, as in datetime.now(ZoneInfo('Europe/Paris'))")
    raise TypeError(f"zones are of zoneinfo.ZoneInfo or datetime.timezone, and not of {type(zone).__name__}")


def zone_of(zone):
    """The clocks of a datetime's zone."""
    found = ZONES.get(zone)
    if found is None:
        if len(ZONES) >= MOST_ZONES:
            ZONES.clear()
        found = ZONES[zone] = new_zone(zone)
    return found


NAMED, ZONES = {}, {}
