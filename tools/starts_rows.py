#!/usr/bin/env python3
"""Rows of what Debian's cron starts, as questions of cronreplay with the answers of cron's own main loop.

    tools/starts_rows.py                   the rows on starts of crates/cronreplay/stdin, one a line
    tools/starts_rows.py made PAIRS SEED   that many made-up pairs of a job and a calm clock, those of tools/starts_test: what is started from
                                           the clock's begin up to a day after its last change, as a listing, and backward from there.
                                           On standard error it says how many starts these are
    tools/starts_rows.py beside COUNT      so many starts of a line, and so many of croner's runs of the same text, on the clock of Paris up to
                                           year 5000, forward and backward; of five lines. What they take is measured (docs/PERFORMANCE.md)

Each row has a clock, a line of a crontab, and a stretch of time about a change of the clock. The answers are those of the loop in
tools/crontab_model.py, which has cron.c's variables and its four cases, and shares nothing with the library. A row asks forward from
the stretch's begin, backward from its end, or for a listing up to its end. The last four rows are worked out by hand: a line that is
never started, and a listing of no start.
"""
import importlib.machinery
import importlib.util
import json
import pathlib
import random
import sys

import crontab_model

MINUTE, HOUR, DAY = 60, 3_600, 86_400

# A name of the machine's database, a day of UTC on which its clock changes, in seconds since 1970, and the lines that are asked there.
NAMED = [
    ("Europe/Paris", "2027-03-28", ["0,30 2 * * *", "*/30 2 * * *", "30 2 * * *", "15 2-4 * * *", "@hourly", "0 0-23 * * *", "0 0-23/2 * * *", "5 */2 * * *"]),
    ("Europe/Paris", "2027-10-31", ["0,30 2 * * *", "*/30 2 * * *", "30 2 * * *", "15 2-4 * * *", "@hourly", "0 0-23 * * *", "0 0-23/2 * * *", "0 3 * * *"]),
    ("America/New_York", "2027-03-14", ["30 2 * * *", "*/20 2 * * *", "0 3 * * *", "59 1,2 * * 0", "30 2 1,14 * 0"]),
    ("America/New_York", "2027-11-07", ["30 1 * * *", "*/20 1 * * *", "0 2 * * *", "59 1,2 * * 0", "15 1 7 11 *"]),
    ("Australia/Lord_Howe", "2027-10-02", ["15 2 * * *", "*/10 2 * * *", "29,30 2 * * *"]),
    ("Australia/Lord_Howe", "2027-04-03", ["45 1 * * *", "*/10 1 * * *", "29,30 1,2 * * *"]),
    ("Pacific/Apia", "2011-12-30", ["0 0 * * *", "0 12 30 12 *", "0 0 31 12 *", "*/30 0,23 * * *"]),
    ("America/Danmarkshavn", "1996-01-01", ["30 1 * * *", "*/30 1 * * *", "0 3 * * *", "0 0 1 1 *"]),
    ("Africa/Monrovia", "1972-01-07", ["0 0 * * *", "30 0 * * *", "*/15 0 * * *", "44,45 * * * *"]),
]

# A clock of UTC that is put forward or back by so many minutes at 02:00 on 2027-06-02, and the lines that are asked there.
JUMPS = [
    (4, ["1 2 * * *", "*/2 2 * * *", "0-4 2 * * *"]),
    (5, ["1 2 * * *", "*/2 2 * * *", "0-5 2 * * *"]),
    (6, ["1 2 * * *", "*/2 2 * * *"]),
    (60, ["30 2 * * *", "*/30 2 * * *", "0-59/20 2 * * *"]),
    (179, ["30 2-4 * * *", "*/30 2-4 * * *", "59 4 * * *"]),
    (180, ["30 2-4 * * *", "*/30 2-4 * * *", "0 5 * * *"]),
    (181, ["30 2-4 * * *", "1 5 * * *"]),
    (-30, ["45 1 * * *", "*/15 1 * * *", "15 1,2 * * *"]),
    (-60, ["30 1 * * *", "*/30 1 * * *", "0 2 * * *"]),
    (-120, ["30 0,1 * * *", "*/30 0,1 * * *", "0 2 * * *"]),
]
JUMP_DAY = "2027-06-02"

# A clock that is put forward from 23:30 to 00:30, and back from 00:30 to 23:30.
OVER_MIDNIGHT = ["45 23 * * *", "15 0 * * *", "45 23 2 6 *", "15 0 3 6 *", "*/15 23 * * *"]


def second_of(day):
    year, month, number = map(int, day.split("-"))
    return crontab_model.model.day_number(year, month, number) * DAY


def job_of(line):
    return crontab_model.line_of(f"{line} x".encode(), False)[1]


class Clock:
    """The spans of a clock, each its first second and its offset."""

    def __init__(self, name, spans):
        self.name, self.spans = name, spans
        self.zone = {"first": spans[0][1], "changes": [list(span) for span in spans[1:]]}

    def starts(self, line, after, until):
        return [list(start) for start in crontab_model.starts_of(job_of(line), self.spans, after, until)]

    def first(self, line, after):
        """The first start after a second, within five years."""
        return next(start[0] for days in (2, 400, 1_900) if (start := self.starts(line, after, after + days * DAY)))


def question(clock, line, start, **members):
    return {"op": "starts", "note": clock.name, "line": f"{line} x", "zone": clock.zone, "start": start, **members}


def forward(clock, line, start, until, most=6):
    found = clock.starts(line, start, until)[:most]
    return question(clock, line, start, direction="forward", count=len(found), want=found)


def backward(clock, line, start, until, most=6):
    found = clock.starts(line, start, until)[::-1][:most]
    return question(clock, line, until, direction="backward", count=len(found), want=found)


def listing(clock, line, start, until, most=12):
    """The starts up to a second, and the next after them; or as many as were asked for."""
    inside = clock.starts(line, start, until)[:most]
    end = "Full" if len(inside) == most else clock.first(line, until)
    return question(clock, line, start, until=until, count=most, want=[inside, end])


def rows_of(clock, lines, change):
    """Each line forward over a change; in turn a listing there, and backward over it. Then from within the hour after it."""
    for at, line in enumerate(lines):
        start, until = change - 2 * HOUR, change + 3 * HOUR
        yield forward(clock, line, start, change + 30 * HOUR)
        yield backward(clock, line, change - 30 * HOUR, until) if at % 2 else listing(clock, line, start, until)
    yield forward(clock, lines[0], change + 20 * MINUTE, change + 2 * DAY, 2)
    yield backward(clock, lines[1], change - 2 * DAY, change + 40 * MINUTE, 3)


def named_clock(name, day):
    start = second_of(day)
    spans = crontab_model.spans_of(name, start - 3 * DAY, start + 3 * DAY)
    change = next(first for first, _ in spans[1:] if abs(first - start) <= 36 * HOUR)
    return Clock(f"{name}, {day}", spans), change


def jump_clock(minutes):
    change = second_of(JUMP_DAY) + 2 * HOUR
    ways = f"by {abs(minutes)} minutes"
    return Clock(f"put forward {ways}" if minutes > 0 else f"put back {ways}", [(change - 3 * DAY, 0), (change, minutes * MINUTE)]), change


def over_midnight():
    forward_at = second_of(JUMP_DAY) + 23 * HOUR + 30 * MINUTE
    back_at = forward_at + 10 * DAY
    spans = [(forward_at - 3 * DAY, 0), (forward_at, HOUR), (back_at, 0)]
    return Clock("put forward over midnight, and back", spans), [forward_at, back_at]


def repeated(clock, change):
    """Forward and backward from each quarter of an hour within a repeated hour."""
    for minute in range(-60, 61, 15):
        yield forward(clock, "*/30 2 * * *", change + minute * MINUTE + 1, change + DAY, 1)
        yield backward(clock, "30 2 * * *", change - 2 * DAY, change + minute * MINUTE, 1)


def by_hand():
    """A line that is never started, and a listing of no start."""
    clock = Clock("none is left", [(0, 0)])
    yield question(clock, "0 0 30 2 *", 0, direction="forward", count=1, want=[None])
    yield question(clock, "0 0 30 2 *", 0, direction="backward", count=1, want=[None])
    yield question(clock, "0 0 30 2 *", 0, until=DAY, count=2, want=[[], "Over"])
    yield question(clock, "* * * * *", 0, until=DAY, count=0, want=[[], "Full"])


def asked():
    """The rows that have a start, and those by hand."""
    yield from (row for row in rows() if row["count"] > 0)
    yield from by_hand()


def rows():
    for name, day, lines in NAMED:
        clock, change = named_clock(name, day)
        yield from rows_of(clock, lines, change)
    for minutes, lines in JUMPS:
        clock, change = jump_clock(minutes)
        yield from rows_of(clock, lines, change)
    clock, changes = over_midnight()
    for change in changes:
        yield from rows_of(clock, OVER_MIDNIGHT, change)
    clock, change = named_clock("Europe/Paris", "2027-10-31")
    yield from repeated(clock, change)


# ---- made up


def starts_test():
    """The script of that name, which makes jobs and clocks."""
    path = str(pathlib.Path(__file__).resolve().parent / "starts_test")
    loader = importlib.machinery.SourceFileLoader("starts_test", path)
    module = importlib.util.module_from_spec(importlib.util.spec_from_loader("starts_test", loader))
    loader.exec_module(module)
    return module


def is_calm(spans):
    """No change back by more than two hours or forward by more than a day, two of them more than two days apart, and no offset of more than a day."""
    pairs = list(zip(spans, spans[1:]))
    apart = all(later - first > 2 * DAY for (first, _), (later, _) in pairs[1:])
    near = all(abs(offset) <= DAY for _, offset in spans)
    return apart and near and all(-2 * HOUR <= after - before <= DAY for (_, before), (_, after) in pairs)


def made(pairs, seed):
    maker = starts_test()
    random.seed(seed)
    answers = 0
    while pairs:
        line, spans = maker.made_job(), maker.made_clock()
        if not is_calm(spans):
            continue
        pairs -= 1
        clock = Clock("made up", spans)
        start, until = spans[0][0], spans[-1][0] + DAY
        found, later = clock.starts(line, start, until), clock.starts(line, until, until + 3 * DAY)
        answers += 2 * len(found)
        # One more is asked for than there are, where the next one is known: then the listing ends at that.
        yield question(clock, line, start, until=until, count=len(found) + len(later[:1]), want=[found, later[0] if later else "Full"])
        yield question(clock, line, until, direction="backward", count=len(found), want=found[::-1])
    print(f"{answers} starts", file=sys.stderr)


# ---- beside croner's runs

BESIDE = ["30 2 * * *", "*/30 2 * * *", "0 0 29 2 *", "0 0 30 2 *", "* * * * *"]
PARIS = "CET-1CEST,M3.5.0,M10.5.0/3"


def beside(count):
    clock = Clock("Paris", crontab_model.spans_of(PARIS, second_of("1996-01-01"), second_of("4999-12-31")))
    start = second_of("3000-01-01")
    for line in BESIDE:
        for direction, croners in (("forward", "next"), ("backward", "prev")):
            yield question(clock, line, start, direction=direction, count=count, want=0)
            yield {"op": croners, "text": line, "zone": clock.zone, "start": start, "inclusive": direction == "backward", "count": count, "want": 0}


def rows_by(words):
    if words[:1] == ["made"]:
        return made(int(words[1]), int(words[2]))
    if words[:1] == ["beside"]:
        return beside(int(words[1]))
    return asked()


def main(words):
    for row in rows_by(words):
        print(json.dumps(row, separators=(",", ":")))


if __name__ == "__main__":
    sys.exit(main(sys.argv[1:]))
