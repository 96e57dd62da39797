#!/usr/bin/env python3
"""How long calls of the Python package take, beside croniter's, in one run: python_times.py FOLDER.

Each figure is the least of five. Of all calls the start and what is answered are datetimes of Paris.
"""
import sys
import time
from datetime import datetime, timedelta, timezone
from itertools import islice
from pathlib import Path
from zoneinfo import ZoneInfo

sys.path.insert(0, str(Path(sys.argv[1]).resolve()))
import croner  # noqa: E402

try:
    from croniter import croniter
except ImportError:
    croniter = None
PARIS = ZoneInfo("Europe/Paris")
PATTERN = "30 9 * * MON-FRI"
ADDITIONS = 20_000_000


def least(times, call, *starts):
    """The microseconds of a call."""
    found = []
    for _ in range(5):
        begin = time.process_time()
        for it in range(times):
            call(starts[it % len(starts)])
        found.append((time.process_time() - begin) / times * 1e6)
    return min(found)


def main():
    starts = [datetime(2024, 1, 1, tzinfo=PARIS) + timedelta(hours=7 * it) for it in range(1000)]
    in_utc = [it.astimezone(timezone.utc) for it in starts]
    job, each = croner.Cron(PATTERN), croner.Cron("*/15 * * * *")
    figures = [
        ("next in Paris", least(20_000, job.next, *starts)),
        ("next in UTC", least(20_000, job.next, *in_utc)),
        ("previous in Paris", least(20_000, job.previous, *starts)),
        ("matches in Paris", least(20_000, job.matches, *starts)),
        ("a run of runs(count=64) in Paris, each quarter of an hour", least(2_000, lambda it: list(each.runs(it, count=64)), *starts) / 64),
        ("the same by days", least(2_000, lambda it: list(job.runs(it, count=64)), *starts) / 64),
        ("the same in UTC", least(2_000, lambda it: list(job.runs(it, count=64)), *in_utc) / 64),
        ("Cron(pattern)", least(20_000, lambda _: croner.Cron(PATTERN), 0)),
        ("summary", least(10_000, lambda _: job.summary(), 0)),
    ]
    if croniter:
        figures += [
            ("croniter, made and asked in Paris", least(1_000, lambda it: croniter(PATTERN, it).get_next(datetime), *starts)),
            ("croniter, made and asked in UTC", least(1_000, lambda it: croniter(PATTERN, it).get_next(datetime), *in_utc)),
            ("a run of croniter's list in UTC", least(50, lambda it: list(islice(croniter(PATTERN, it, ret_type=datetime), 64)), *in_utc) / 64),
        ]
    begin, total = time.process_time(), 0
    for it in range(ADDITIONS):
        total += it
    figures.append((f"{ADDITIONS:,} additions, in seconds", time.process_time() - begin))
    for name, figure in figures:
        print(f"{figure:9.2f}  {name}")


main()
