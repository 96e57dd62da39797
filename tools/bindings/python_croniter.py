#!/usr/bin/env python3
"""Compares the Python package with croniter on made-up questions in UTC: python_croniter.py FOLDER [QUESTIONS [SEED]].

A pattern has five fields, without L and #, which croniter doesn't have or reads otherwise. Of each the next three runs after a start and the
two before it are asked. Where the two differ, that is of a kind that `kinds_of` knows and shows, or it has failed.

The last line is 'N passed, M failed'; the status is 0 where none failed.
"""
import random
import sys
from collections import Counter
from datetime import datetime, timedelta, timezone
from itertools import compress, islice, product
from pathlib import Path

sys.path.insert(0, str(Path(sys.argv[1]).resolve()))
import croner  # noqa: E402
from croniter import CroniterBadDateError, croniter  # noqa: E402

UTC = timezone.utc
BOUNDS = [(0, 59), (0, 23), (1, 31), (1, 12), (0, 7)]
NAMES = {3: "JAN FEB MAR APR MAY JUN JUL AUG SEP OCT NOV DEC".split(), 4: "SUN MON TUE WED THU FRI SAT".split()}
FIRST, LAST = datetime(1971, 1, 1, tzinfo=UTC), datetime(2090, 1, 1, tzinfo=UTC)
AFTER, BEFORE = 3, 2


def value(made, place, number):
    names = NAMES.get(place)
    low = BOUNDS[place][0]
    return names[number - low] if names and number - low < len(names) and made.random() < 0.3 else str(number)


def part(made, place):
    low, high = BOUNDS[place]
    kind = made.random()
    if kind < 0.45:
        return value(made, place, made.randint(low, high))
    if kind < 0.6:
        return f"*/{made.randint(1, high)}"
    first, last = sorted(made.sample(range(low, high + 1), 2))
    text = f"{value(made, place, first)}-{value(made, place, last)}"
    return text if kind < 0.8 else f"{text}/{made.randint(1, last - first)}"


def field(made, place):
    if made.random() < (0.15, 0.3, 0.5, 0.55, 0.5)[place]:
        return "*"
    return ",".join(part(made, place) for _ in range(made.choice((1, 1, 1, 2, 3))))


def answers(job, start, is_after=None, is_before=None):
    """The answers to the questions of a pattern, of the runs that are kept."""
    return filled(filter(is_after, job.runs(start)), AFTER) + filled(filter(is_before, backward(job, start)), BEFORE)


def backward(job, time):
    while True:
        time = job.previous(time)
        if time is None:
            return
        yield time


def filled(found, count):
    return (list(islice(found, count)) + [None] * count)[:count]


def theirs(pattern, start):
    found = []
    for name, count in (("get_next", AFTER), ("get_prev", BEFORE)):
        it = croniter(pattern, start)
        for _ in range(count):
            try:
                found.append(getattr(it, name)(datetime))
            except CroniterBadDateError:
                found.append(None)
    return found


# ---- why the two differ: with each kind the package's answers, changed by it, have to be croniter's

def is_no_leap_day(run):
    return (run.month, run.day) != (2, 29)


def without_march(days):
    """Whether a run isn't one of the first so many days of March."""
    return lambda run: run.month != 3 or run.day > days


def with_star(pattern):
    """The pattern with a star for each day field that names every value."""
    fields, values = pattern.split(" "), croniter.expand(pattern)[0]
    return " ".join("*" if place in (2, 4) and values[place] == ["*"] else it for place, it in enumerate(fields))


def by_days_alone(pattern):
    fields = pattern.split(" ")
    return " ".join([*fields[:4], "*"])


STAR = "a day field that names every value, as */1 or 0-7, is a star to croniter, so that only the other one counts"
LEAP = "croniter passes over 29 February on its way back"
MARCH = "from February, where the days have a 29, 30 or 31, croniter passes over the first days of March"
NONE = "croniter finds nothing where no month has the days, though weekdays are given"


def kinds_of(pattern, start, wanted):
    """Why the two differ, or None."""
    if wanted == [None] * (AFTER + BEFORE) and croner.Cron(by_days_alone(pattern)).next(start) is None:
        return (NONE,)
    for has_star, days_of_march, passes_leap in product((False, True), range(4), (False, True)):
        job = croner.Cron(with_star(pattern) if has_star else pattern)
        is_after, is_before = without_march(days_of_march), is_no_leap_day if passes_leap else None
        if answers(job, start, is_after, is_before) == wanted:
            return tuple(compress((STAR, MARCH, LEAP), (has_star, days_of_march, passes_leap)))
    return None


def main():
    questions = int(sys.argv[2]) if len(sys.argv) > 2 else 100_000
    made = random.Random(int(sys.argv[3]) if len(sys.argv) > 3 else 84)
    same, kinds, failed = 0, Counter(), 0
    for _ in range(questions // (AFTER + BEFORE)):
        pattern = " ".join(field(made, it) for it in range(5))
        start = FIRST + timedelta(seconds=made.randrange((LAST - FIRST) // timedelta(seconds=1)))
        found, wanted = answers(croner.Cron(pattern), start), theirs(pattern, start)
        why = () if found == wanted else kinds_of(pattern, start, wanted)
        if why is not None:
            same += AFTER + BEFORE if not why else sum(a == b for a, b in zip(found, wanted))
            kinds[why] += sum(a != b for a, b in zip(found, wanted))
        else:
            failed += 1
            print(pattern, start.isoformat(), *("none" if it is None else it.isoformat() for it in [*found, *wanted]))
    print(f"{questions:,} questions beside croniter: {same:,} the same")
    for why, count in kinds.most_common():
        if why:
            print(f"{count:,} others: {'; and '.join(why)}")
    print(f"{int(not failed)} passed, {failed} failed")
    return min(failed, 1)


sys.exit(main())
