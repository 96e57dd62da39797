"""The table of docs/PEERS.md: tools/peers/table.txt has its lines, and the words of its cells, each with a line of plain values that means
the same. Whose cell is which is found by the answers alone: a program's cell is the one whose line starts at the times that it answered.
"""
from datetime import datetime, timedelta, timezone
from functools import lru_cache
from pathlib import Path

import answers as stored
from programs import END

FILE = Path(__file__).resolve().parent / "table.txt"


def rows():
    """The lines with their cells: words and the line that means the same."""
    found = {}
    for row in FILE.read_text(encoding="utf-8").splitlines():
        if row.startswith("= "):
            cells = found.setdefault(row[2:], {})
        elif not row.startswith("#"):
            words, line = row.split(": ", 1)
            cells[words] = line
    return found


def lines():
    return list(rows())


@lru_cache(None)
def values(field, low, high):
    """The values of a field of plain values."""
    found = set()
    for part in field.split(","):
        span, _, step = part.partition("/")
        first, _, last = span.partition("-")
        first, last = (low, high) if span == "*" else (int(first), int(last or first))
        found.update(range(first, last + 1, int(step or 1)))
    return found


def fits_days(field, day):
    """Whether a day fits a field of days: plain values, or L, the last day of the month."""
    if field == "L":
        return (day + timedelta(days=1)).day == 1
    return day.day in values(field, 1, 31)


def fits_weekdays(field, day):
    """Whether a day fits a field of weekdays: plain values, or as 5L, the last Friday of the month, or as 1#2, its second Monday."""
    weekday = day.isoweekday() % 7
    if field.endswith("L"):
        return weekday == int(field[:-1]) and (day + timedelta(days=7)).month != day.month
    if "#" in field:
        return [weekday, (day.day + 6) // 7] == [int(it) for it in field.split("#")]
    return weekday in values(field, 0, 6)


def next_start(line, second):
    """The next start of such a line after a moment, by trying each day, and each of its minutes."""
    minute, hour, days, month, weekdays, *both = line.split()
    has_both = both == ["both"] or "*" in (days, weekdays)
    minutes, hours, months = (sorted(values(*it)) for it in ((minute, 0, 59), (hour, 0, 23), (month, 1, 12)))
    at = datetime.fromtimestamp(second, timezone.utc)
    day = at.replace(hour=0, minute=0, second=0)
    while day.timestamp() < END:
        fits = [fits_days(days, day), fits_weekdays(weekdays, day)]
        if day.month in months and (all(fits) if has_both else any(fits)):
            for start in (day.replace(hour=hour, minute=minute) for hour in hours for minute in minutes):
                if start > at:
                    return str(int(start.timestamp()))
        day += timedelta(days=1)
    return "never"


@lru_cache(None)
def expected(line):
    """The text of the answers that a line of plain values would get, or what follows a '=' in its place."""
    if line.startswith("= "):
        return line[2:]
    return stored.ask_all(lambda questions: [next_start(it, second) for second, it in questions], [line], END)[line]


def cell_of(answer, known):
    """The words of an answer. One that breaks off, since the program gives up its search, has those of the answer that it begins."""
    begin = answer.removesuffix(" never")
    longer = [text for it, text in known.items() if begin != answer and it.startswith(begin)]
    if answer in known or not longer:
        return known.get(answer, answer if answer in stored.WORDS else None)
    return f"{longer[0]}, until it gives up"


def cells():
    """Of each line the words of each program's cell, and what is wrong: answers for which no cell stands there."""
    answers, _ = stored.read()
    table, faults = {}, []
    for line, words in rows().items():
        known = {expected(it): text for text, it in words.items()}
        table[line] = {}
        for name, given in answers.items():
            cell = cell_of(given[line], known) if line in given else stored.UNASKED
            if cell is None:
                faults.append(f"tools/peers/table.txt has no cell for `{line}` and {name}: {given[line]}")
            table[line][name] = cell or "?"
    return table, faults
