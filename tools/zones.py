#!/usr/bin/env python3
"""Holds the tables of the machine's time zones against Python's reading of them, and against the zones themselves.

    tools/zones.py [FIRST LAST]     the years of the window: 1970 2100 where they are left out
    tools/zones.py whole            from the first second that the library has to 2100
    tools/zones.py rules            one name of each rule that changes the clock, 2300 to 3110, where half a table is a copy
    tools/zones.py ten              ten names of as many kinds, 1970 to 2100, which takes seconds
    tools/zones.py .. --unproved    the same by the program that tools/try has compiled

Each name of the machine's database (its folders posix and right are left out) is read here by `zoneinfo`, which shares
nothing with the library: where the zone's clock changes in the window, from the first second of FIRST to the first of
LAST, and whether the clock is calm there. The program `cronreplay` is asked for the zone's table. Where the zone is
calm here, the table has to read what `zoneinfo` reads at the two ends of the window, and at each change and one second
before it; where it is not, InvalidTime is wanted. Then 200 searches and 20 listings at the changes are asked in both
directions, over the table and in the zone itself.

It prints each name that is not calm with the change that makes it so, each answer that is not the one that is wanted,
each difference, and a summary. The last line is 'N passed, M failed': the readings and the comparisons of the zones, and
those with a wrong answer or a difference among them. The status is 0 where none failed. `cronreplay` is built first, by
`rt run` or `rt ci`. Where the machine has no database, that is told as skipped.
"""
import calendar
import collections
import datetime
import json
import pathlib
import random
import struct
import subprocess
import sys
import zoneinfo

import programs

DAY = 86_400
FIRST_SECOND, LAST_SECOND = -377_705_023_201, 253_402_207_200
EARLIEST = calendar.timegm((2, 1, 1, 0, 0, 0))  # the first that Python is asked for, and the last
LATEST = calendar.timegm((9999, 1, 1, 0, 0, 0))
MARGIN = 180_000
APART, FORWARD, BACK = 2 * DAY, DAY, 7_200
SEARCHES, LISTINGS, ITEMS = 200, 20, 12
FOLDERS = [pathlib.Path(path) for path in zoneinfo.TZPATH]
BEGINNING = datetime.datetime(1970, 1, 1, tzinfo=datetime.timezone.utc)

# Summer time of an hour, of half an hour and of two hours; a clock that goes back by three hours; a day that is skipped; four
# changes a year; a change within a minute; none since long ago, and none at all.
TEN = ("Africa/Casablanca", "Africa/Monrovia", "America/New_York", "Antarctica/Casey", "Antarctica/Troll", "Asia/Kathmandu",
       "Australia/Lord_Howe", "Europe/Paris", "Pacific/Apia", "UTC")

Change = collections.namedtuple("Change", "second before after")
Place = collections.namedtuple("Place", "names file first last changes fault")


def ahead(zone, second):
    """How many seconds the zone's clock is ahead of UTC: what it shows at an instant, and not the offset of that text."""
    at = BEGINNING + datetime.timedelta(seconds=second)
    return int((at.astimezone(zone).replace(tzinfo=None) - at.replace(tzinfo=None)).total_seconds())


def shown(zone, second):
    """What the clock shows, as a text."""
    at = BEGINNING + datetime.timedelta(seconds=second + ahead(zone, second))
    return f"{at.year:04}-{at:%m-%dT%H:%M:%S}"


def instants(data):
    """The instants of a TZif file's table."""
    def counts(at):
        return struct.unpack(">6l", data[at + 20:at + 44])
    isut, isstd, leaps, times, types, chars = counts(0)
    if data[4:5] < b"2":
        return struct.unpack(f">{times}l", data[44:44 + 4 * times])
    at = 44 + 5 * times + 6 * types + chars + 8 * leaps + isstd + isut
    times = counts(at)[3]
    return struct.unpack(f">{times}q", data[at + 44:at + 44 + 8 * times])


def questions(data, first, last):
    """Seconds, ascending, of which one or none is a change from one to the next: a table's, and then each day."""
    table = [second for second in instants(data) if first < second <= last]
    near = {second + step for second in table for step in (-1, 0)}
    days = range(max(table[-1:] + [first]), last, DAY)
    return sorted({first, last} | {second for second in near | set(days) if first <= second <= last})


def changes_of(zone, data, first, last):
    """The changes of the zone's clock after the first second, up to the last."""
    found = []
    asked = questions(data, first, last)
    before, offset = first, ahead(zone, first)
    for second in asked[1:]:
        after = ahead(zone, second)
        if after != offset:
            found.append(Change(edge(zone, before, second), offset, after))
        before, offset = second, after
    return found


def edge(zone, before, after):
    """The first second that reads another offset."""
    offset = ahead(zone, before)
    while after - before > 1:
        middle = (before + after) // 2
        before, after = (middle, after) if ahead(zone, middle) == offset else (before, middle)
    return after


def fault_of(changes):
    """The first change that a calm clock does not make, and why. None for a calm clock."""
    earlier = None
    for change in changes:
        step = change.after - change.before
        if step > FORWARD:
            return change, "forward by more than a day"
        if step < -BACK:
            return change, "back by more than two hours"
        if earlier is not None and change.second - earlier.second <= APART:
            return change, "no more than two days after the change before"
        earlier = change
    return None


def files():
    """The files of the database, each once, with all its names."""
    names = collections.defaultdict(list)
    for name in sorted(zoneinfo.available_timezones() - {"localtime"}):
        file = next(folder / name for folder in FOLDERS if (folder / name).is_file())
        names[file.read_bytes()].append((name, file))
    return names


def of_each_rule(names):
    """Of these files the first of each rule that changes the clock. A rule is a file's last line."""
    found = {}
    for data, named in names.items():
        rule = data.rstrip(b"\n").rpartition(b"\n")[2]
        if b"," in rule:
            found.setdefault(rule, (data, named))
    return dict(found.values())


def of_ten(names):
    """Of these files those of the ten names."""
    found = {data: [it for it in named if it[0] in TEN] for data, named in names.items()}
    return {data: named for data, named in found.items() if named}


def places(names, first, last):
    """The zones of the files."""
    start, end = max(first, EARLIEST), min(last, LATEST)
    for data, named in names.items():
        zone = zoneinfo.ZoneInfo(named[0][0])
        changes = changes_of(zone, data, start, end)
        yield Place([name for name, _ in named], named[0][1], first, last, changes, fault_of(changes)), zone


def ask(place, op, want, **members):
    """A line for the program."""
    zone = {"file": str(place.file), "window": [place.first, place.last]}
    return json.dumps({"op": op, "zone": zone, **members, "want": want})


def readings(place, zone):
    """The line that asks for the readings, or wants the refusal."""
    if place.fault is not None:
        return ask(place, "readings", "InvalidTime", seconds=[])
    seconds = [max(place.first, EARLIEST), min(place.last, LATEST)]
    seconds += [change.second + step for change in place.changes for step in (-1, 0)]
    return ask(place, "readings", [shown(zone, second) for second in seconds], seconds=seconds)


def wall_parts(draw, second):
    """Date and time of a wall second near the one given."""
    near = second + draw.choice((-7201, -3600, -1800, -60, -1, 0, 0, 1, 60, 900, 1800, 3599, 3600, 7200))
    return BEGINNING + datetime.timedelta(seconds=near)


def pattern(draw, change):
    """A pattern that names seconds about a change, of either kind of job."""
    at = wall_parts(draw, change.second + draw.choice((change.before, change.after)))
    days = draw.choice(("* * *", "* * *", f"{at.day} {at.month} *", f"{at.day} * *", f"* {at.month} {at.isoweekday() % 7}", "L * *"))
    times = draw.choice((
        f"{at.second} {at.minute} {at.hour}", f"{at.minute} {at.hour}", f"0 {at.hour}", f"{at.minute} *",
        "*/15 *", f"*/20 {at.hour}", "0 */6", f"0,30 {(at.hour - 1) % 24},{at.hour}", f"* {at.hour}", "0 0"))
    return f"{times} {days}"


def drawn(draw, place):
    """A pattern and a start about a change, well in the window; anywhere in it, where no change is."""
    least, most = max(place.first, EARLIEST) + MARGIN, min(place.last, LATEST)
    changes = [change for change in place.changes if change.second > least]
    if not changes:
        second = draw.randrange(least, most)
        changes = [Change(second, 0, 0)]
    change = draw.choice(changes)
    step = change.after - change.before
    away = draw.choice((0, 0, -1, 1, step, -step, step - 1, 1800, -1800, 3600, -3600, 43_200, -43_200, DAY, -DAY, 90 * DAY, -90 * DAY))
    return pattern(draw, change), min(max(change.second + away, least), most)


def comparison(place):
    """The line that asks for searches and listings; it wants nothing, so that its answer is printed."""
    draw = random.Random(place.names[0])
    asked = [[*drawn(draw, place), draw.random() < 0.5] for _ in range(SEARCHES)]
    asked += [[*drawn(draw, place), ITEMS] for _ in range(LISTINGS)]
    return asked, ask(place, "zone_compare", None, asked=asked)


def told(place):
    """A zone that is not calm, with its change."""
    change, why = place.fault
    return (f"not calm: {' '.join(place.names)}: at {change.second} "
            f"from {change.before} to {change.after}, {why}")


def answers(lines):
    """What the program prints, by the number of the line."""
    ran = subprocess.run([programs.built("cronreplay")], input="\n".join(lines) + "\n", capture_output=True, text=True, check=False)
    found = {}
    for line in ran.stdout.splitlines()[:-1]:
        number, text = line.removeprefix("line ").split(": ", 1)
        found[int(number)] = text
    return found, ran.stderr


def print_differences(place, asked, answer):
    """Prints the differences of a comparison, and answers how many there are, and the runs that were compared."""
    found = json.loads(answer.removeprefix("got ").removesuffix(", want null"))
    if isinstance(found, str):
        print(f"wrong: {place.names[0]}: {found}")
        return 1, 0
    for at, forward, table, zone in found["differences"]:
        towards = "next" if forward else "previous"
        print(f"difference: {place.names[0]}: {asked[at]}, {towards}: table {table}, zone {zone}")
    return len(found["differences"]), found["runs"]


def window(words):
    """The first and the last second."""
    if words == ["whole"]:
        return FIRST_SECOND, calendar.timegm((2100, 1, 1, 0, 0, 0))
    first, last = (2300, 3110) if words == ["rules"] else map(int, words if words and words != ["ten"] else ("1970", "2100"))
    return calendar.timegm((first, 1, 1, 0, 0, 0)), calendar.timegm((last, 1, 1, 0, 0, 0))


def main(words):
    """Asks all, and prints what came."""
    lines, asked, names = [], {}, {}
    choose = {"rules": of_each_rule, "ten": of_ten}.get(" ".join(words), dict)
    names_of = choose(files())
    if not names_of:
        print("skipped: this machine has no database of time zones (Debian's package tzdata)", "0 passed, 0 failed", sep="\n")
        return 0
    for place, zone in places(names_of, *window(words)):
        lines.append(readings(place, zone))
        names[len(lines)] = place
        if place.fault is None:
            wanted, line = comparison(place)
            lines.append(line)
            asked[len(lines)] = place, wanted
    found, errors = answers(lines)
    wrong = {number: text for number, text in found.items() if number not in asked}
    for place in names.values():
        if place.fault is not None:
            print(told(place))
    for number, text in wrong.items():
        print(f"wrong: {' '.join(names[number].names)}: {text[:400]}")
    counts = [print_differences(place, wanted, found[number]) for number, (place, wanted) in asked.items()]
    calm = [place for place in names.values() if place.fault is None]
    print(f"{sum(len(place.names) for place in names.values())} names of {len(names)} files, "
          f"{sum(len(place.names) for place in calm)} of {len(calm)} files calm, with {sum(len(p.changes) for p in calm)} changes")
    print(f"{2 * SEARCHES * len(calm)} searches and {2 * LISTINGS * len(calm)} listings: {sum(runs for _, runs in counts)} runs, "
          f"{sum(count for count, _ in counts)} differences, {len(wrong)} wrong answers", errors.strip())
    differing = len(wrong) + sum(count > 0 for count, _ in counts)
    failed = differing + bool(errors)
    print(f"{len(lines) - differing} passed, {failed} failed")
    return 1 if failed else 0


if __name__ == "__main__":
    sys.exit(main(programs.WORDS))
