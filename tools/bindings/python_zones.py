#!/usr/bin/env python3
"""Compares the clocks of the Python package with zoneinfo's: python_zones.py FOLDER, over all zones that zoneinfo has.

Around each change from 1970 to 2100 a pattern of what zoneinfo's clock shows has to match there, and not a second later; and the first of
the instants that show it is the pattern's only run within three hours. Three zones aren't calm, and are left out.

The last line is 'N passed, M failed'; the status is 0 where none failed.
"""
import sys
import zoneinfo
from datetime import datetime, timedelta, timezone
from pathlib import Path

sys.path.insert(0, str(Path(sys.argv[1]).resolve()))
import croner  # noqa: E402

NOT_CALM = {"Antarctica/Casey", "Antarctica/Rothera", "Antarctica/Vostok"}
FIRST, LAST, STEP = 0, 4102444800, 86_400
SECOND, HOUR = timedelta(seconds=1), timedelta(hours=1)


def changes_of(zone):
    """The seconds at which a zone's clock changes, to be found by halves between days."""
    def ahead(second):
        return datetime.fromtimestamp(second, zone).utcoffset()

    shown = ahead(FIRST)
    for second in range(FIRST, LAST, STEP):
        if ahead(second + STEP) != shown:
            low, high = second, second + STEP
            while high - low > 1:
                middle = (low + high) // 2
                low, high = (middle, high) if ahead(middle) == shown else (low, middle)
            yield high
            shown = ahead(second + STEP)


def moved(time, by):
    """So much later, and not on the clock."""
    return (time.astimezone(timezone.utc) + by).astimezone(time.tzinfo)


def fault_at(second, zone):
    """What is said of a second whose clock differs; else nothing."""
    time = datetime.fromtimestamp(second, zone)
    job = croner.Cron(time.strftime("%-S %-M %-H %-d %-m * ") + str(time.year))
    if not job.matches(time):
        return "isn't matched"
    if job.matches(moved(time, SECOND)):
        return "and the next second are matched"
    first = time.replace(fold=0)
    begin, end = (moved(first, it * 3 * HOUR) for it in (-1, 1))
    runs = list(job.runs(begin, until=end))
    if [(it, it.fold) for it in runs] != [(first, 0)]:
        return f"has the runs {[str(it) for it in runs]}"
    return ""


def main():
    names = sorted(zoneinfo.available_timezones() - {"localtime"} - NOT_CALM)
    passed, failed, zones = 0, 0, 0
    for name in names:
        zone, zones = zoneinfo.ZoneInfo(name), zones + 1
        for change in changes_of(zone):
            for second in (change - 3600, change - 1, change, change + 1, change + 3599, change + 3600):
                try:
                    fault = fault_at(second, zone)
                except croner.ClockError as error:
                    fault = str(error)
                passed, failed = passed + (not fault), failed + bool(fault)
                if fault:
                    print(f"{name}: {second} {fault}")
    print(f"{zones} zones' clocks beside zoneinfo, at {passed + failed:,} seconds about their changes")
    print(f"{int(not failed)} passed, {failed} failed")
    return min(failed, 1)


sys.exit(main())
