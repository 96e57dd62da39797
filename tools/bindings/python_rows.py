#!/usr/bin/env python3
"""Puts the rows of crates/cronreplay/stdin that fit to the Python package: python_rows.py FOLDER, the one that has the package.

A row fits where the package can be asked, and can show what is wanted: searches, lists, matches, texts, faults and cron's starts, from times
that a datetime has. A row's table, or its rule, becomes a time zone file that zoneinfo reads, so Python's own clock is compared too.

The last line is 'N passed, M failed'; the status is 0 where none failed.
"""
import json
import struct
import sys
import tempfile
import zoneinfo
from collections import Counter
from datetime import datetime, timedelta, timezone
from itertools import islice
from pathlib import Path

TOP = Path(__file__).resolve().parent.parent.parent
sys.path.insert(0, str(Path(sys.argv[1]).resolve()))
import croner  # noqa: E402

UTC = timezone.utc
EPOCH = datetime(1970, 1, 1, tzinfo=UTC)
# Seconds that a datetime of any zone has, and the library's clocks.
FIRST, LAST = -62135596800 + 86_400, 253307692799
LAST_YEAR = 9996
WELL_INSIDE = 180_000
LIMIT = "TimeSearchLimitExceeded"
REFUSALS = ("EmptyPattern", "InvalidPattern", "IllegalCharacters", "ComponentError")
OF_NOTHING = ("CronPattern cannot be an empty string.", "At character 1: expected a pattern.")
MOST_OFFSET = 86_399
LANGUAGES = {"english": "en", "swedish": "sv"}


class NoFit(Exception):
    """The row can't be put to the package; the text says why."""


# ---- zones

room = tempfile.TemporaryDirectory()
files = {}


def tzif(first, changes, rule=""):
    """A time zone file of a table, or of a rule."""
    offsets = list(dict.fromkeys([first, *(it for _, it in changes)]))
    block = b"TZif2" + bytes(15) + struct.pack(">6l", 0, 0, 0, 0, 1, 4) + struct.pack(">lBB", 0, 0, 0) + b"UTC\0"
    block += b"TZif2" + bytes(15) + struct.pack(">6l", 0, 0, 0, len(changes), len(offsets), 4)
    block += b"".join(struct.pack(">q", it) for it, _ in changes)
    block += bytes(offsets.index(it) for _, it in changes)
    block += b"".join(struct.pack(">lBB", it, 0, 0) for it in offsets)
    return block + b"XXX\0\n" + rule.encode() + b"\n"


def changes_of(rows):
    """The changes of a table; one that is short for many as these."""
    for it in rows:
        if isinstance(it, dict):
            for number in range(it["count"]):
                yield it["from"] + number * it["apart"], it["offsets"][number % 2]
        else:
            yield tuple(it)


def zone_of(row):
    """The zone of a row."""
    zone = row.get("zone")
    if zone is None:
        return UTC
    if "file" in zone and set(zone) <= {"file", "window"}:
        if row["start"] - zone["window"][0] < WELL_INSIDE:
            raise NoFit("a table that begins at the start")
        return zoneinfo.ZoneInfo(f"files/{zone['file']}")
    if set(zone) == {"rule"}:
        first, changes, rule = 0, [], zone["rule"]
    elif set(zone) == {"first", "changes"}:
        first, changes, rule = zone["first"], list(changes_of(zone["changes"])), ""
    else:
        raise NoFit("a clock of another kind")
    if any(abs(it) > MOST_OFFSET for _, it in [(0, first), *changes]):
        raise NoFit("an offset of a day, which no datetime has")
    if any(a >= b for (a, _), (b, _) in zip(changes, changes[1:])):
        raise NoFit("a table that isn't calm")
    key = json.dumps(zone)
    if key not in files:
        files[key] = f"rows/{len(files)}"
        path = Path(room.name, files[key])
        path.parent.mkdir(exist_ok=True)
        path.write_bytes(tzif(first, changes, rule))
    try:
        return zoneinfo.ZoneInfo(files[key])
    except ValueError:
        raise NoFit("a rule that zoneinfo doesn't read") from None


# ---- times

def time_at(second, zone):
    if not isinstance(second, int):
        raise NoFit("a start between two seconds")
    if not FIRST <= second <= LAST:
        raise NoFit("a year that no datetime has")
    return datetime.fromtimestamp(second, zone)


def start_of(row, zone):
    start = row["start"]
    if not isinstance(start, list):
        return time_at(start, zone)
    if len(start) != 6:
        raise NoFit("a start between two seconds")
    if not 1 <= start[0] <= LAST_YEAR:
        raise NoFit("a year that no datetime has")
    return datetime(*start, tzinfo=zone)


def shown(row, time):
    """A time as a row has it: by its clock, or its second."""
    if time is None:
        return None
    return time.replace(tzinfo=None).isoformat() if isinstance(row["start"], list) else (time - EPOCH) // timedelta(seconds=1)


def check_wanted(wanted):
    """Whether the package can show it."""
    for it in wanted:
        if isinstance(it, str) and it[0].isupper() and it != LIMIT:
            raise NoFit("a refusal that the package doesn't have")
        if isinstance(it, int):
            time_at(it, UTC)


# ---- questions

def text_of(row):
    text = row["text"]
    return text if isinstance(text, str) else "".join(piece * times for piece, times in text)


def cron_of(row):
    return croner.Cron(text_of(row), **row.get("settings", {}))


def accepts(text, settings):
    try:
        croner.Cron(text, **settings)
    except croner.CronError:
        return False
    return True


def search(row):
    check_wanted(row["want"])
    job, time = cron_of(row), start_of(row, zone_of(row))
    find, found = job.next if row["op"] == "next" else job.previous, []
    for number in range(row["count"]):
        time = find(time, inclusive=row["inclusive"] and number == 0)
        found.append(LIMIT if time is None else shown(row, time))
        if time is None:
            break
    return found, row["want"]


def backward(job, time, inclusive):
    while True:
        time = job.previous(time, inclusive=inclusive)
        if time is None:
            return
        inclusive = False
        yield time


def listing(row):
    if {"copied", "before", "after", "message"} & set(row):
        raise NoFit("a copy of an iterator")
    check_wanted(it for it in row["want"] if it is not None)
    job, start = cron_of(row), start_of(row, zone_of(row))
    how = row["how"]
    if how in ("from_forward", "after"):
        runs = job.runs(start, inclusive=how == "from_forward")
    else:
        runs = backward(job, start, how == "from_backward")
    found = [shown(row, it) for it in islice(runs, row["count"])]
    return found + [None] * (row["count"] - len(found)), row["want"]


def matching(row):
    if "at" in row:
        row = {**row, "start": row["at"]}
    return cron_of(row).matches(start_of(row, zone_of(row))), row["want"]


def reading(row):
    return accepts(text_of(row), row.get("settings", {})), not isinstance(row["want"], str)


def value(row):
    if not isinstance(row["value"], str):
        raise NoFit("a value of JSON that is no text")
    return accepts(row["value"], {}), not isinstance(row["want"], str)


def description(row):
    if row["language"] not in LANGUAGES:
        raise NoFit("a language of one's own")
    return cron_of(row).describe(LANGUAGES[row["language"]]), row["want"]


def summary(row):
    job = cron_of(row)
    return {it: job.summary(LANGUAGES[it]) for it in LANGUAGES}, {it: row["want"][it] for it in LANGUAGES}


def fault(row):
    text = text_of(row)
    try:
        cron_of(row)
    except croner.CronError as error:
        begin, end = (len(text[:it].encode()) for it in (error.begin, error.end))
        # (a row's message begins with the kind of the refusal, and ends with what was found)
        wanted, message = row["want"], str(error)
        is_same = isinstance(wanted, dict) and (
            wanted["message"].partition(": ")[2].startswith(message) or (wanted["message"], message) == OF_NOTHING
        )
        return {"start": begin, "end": end, "message": wanted["message"] if is_same else message}, wanted
    return "accepted", row["want"]


def starts(row):
    if row.get("direction") == "backward":
        raise NoFit("starts backward")
    zone = zone_of(row)
    check_wanted([row["start"]])
    until = time_at(row["until"], zone) if "until" in row else None
    found = croner.CrontabLine(row["line"]).starts(time_at(row["start"], zone), count=row["count"], until=until)
    pairs = [[shown(row, it.time), it.times] for it in found]
    return pairs, row["want"][0] if until else [it for it in row["want"] if it is not None]


QUESTIONS = {
    "next": search, "prev": search, "iter": listing, "match": matching, "parse": reading, "from_json": value,
    "describe": description, "summary": summary, "explain": fault, "starts": starts,
}


def main():
    Path(room.name, "files").symlink_to(TOP / "crates/cronreplay/data")
    zoneinfo.reset_tzpath([room.name])
    fit, left_out, failed, lines = Counter(), Counter(), 0, 0
    for number, line in enumerate((TOP / "crates/cronreplay/stdin").read_text(encoding="utf-8").split("\n")[:-1], 1):
        row, lines = json.loads(line), lines + 1
        if row["op"] not in QUESTIONS:
            left_out["another question"] += 1
            continue
        try:
            found, wanted = QUESTIONS[row["op"]](row)
        except NoFit as why:
            left_out[str(why)] += 1
            continue
        except croner.CronError:
            found, wanted = "refused", "refused" if row["want"] in REFUSALS else row["want"]
        except Exception as error:
            found, wanted = f"{type(error).__name__}: {error}", row["want"]
        fit[row["op"]] += 1
        if found != wanted:
            failed += 1
            print(f"line {number}: got {str(found)[:300]}, want {str(wanted)[:300]}")
    print(f"{sum(fit.values()):,} of cronreplay's {lines:,} rows fit: {', '.join(f'{it} {count}' for it, count in fit.most_common())}")
    print(f"the others: {', '.join(f'{it} {count}' for it, count in left_out.most_common())}")
    print(f"{int(not failed)} passed, {failed} failed")
    return min(failed, 1)


sys.exit(main())
