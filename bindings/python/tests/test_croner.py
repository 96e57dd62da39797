"""The calls of the package, each on its happy path, and its errors: python3 -m unittest, or pytest."""
import copy
import io
import os
import pickle
import shutil
import struct
import subprocess
import sys
import tempfile
import threading
import unittest
import zipfile
import zoneinfo
from datetime import date, datetime, timedelta, timezone, tzinfo
from itertools import islice
from pathlib import Path
from zoneinfo import ZoneInfo

import croner
from croner import ClockError, Cron, CronError, CrontabLine

UTC = timezone.utc
PARIS = ZoneInfo("Europe/Paris")
PACKAGE = Path(croner.__file__).parent


class Zone(tzinfo):
    """A zone of another kind."""

    def utcoffset(self, _):
        return timedelta(hours=1)

    def dst(self, _):
        return None

    def tzname(self, _):
        return "own"


def shown(runs):
    return [it.isoformat() for it in runs]


class Searches(unittest.TestCase):
    def test_next_and_previous(self):
        job = Cron("0 9 * * MON-FRI")
        start = datetime(2024, 7, 6, tzinfo=PARIS)
        run = job.next(start)
        self.assertEqual(run.isoformat(), "2024-07-08T09:00:00+02:00")
        self.assertIs(run.tzinfo, PARIS)
        self.assertEqual(job.next(run), datetime(2024, 7, 9, 9, tzinfo=PARIS))
        self.assertEqual(job.next(run, inclusive=True), run)
        self.assertEqual(job.previous(run), datetime(2024, 7, 5, 9, tzinfo=PARIS))
        self.assertEqual(job.previous(run, inclusive=True), run)
        self.assertTrue(job.matches(run))
        self.assertFalse(job.matches(start))

    def test_a_fraction_counts(self):
        job, run = Cron("0 9 * * *"), datetime(2024, 7, 8, 9, tzinfo=UTC)
        before, after = run - timedelta(microseconds=1), run + timedelta(microseconds=1)
        for inclusive in (False, True):
            self.assertEqual(job.next(before, inclusive=inclusive), run)
            self.assertEqual(job.previous(after, inclusive=inclusive), run)
            self.assertEqual(job.next(after, inclusive=inclusive), run + timedelta(days=1))
            self.assertEqual(job.previous(before, inclusive=inclusive), run - timedelta(days=1))
            self.assertEqual(next(job.runs(after, inclusive=inclusive)), run + timedelta(days=1))
        self.assertEqual(list(job.runs(before, until=after)), [run])
        self.assertEqual(list(job.runs(before, until=before)), [])

    def test_any_value_is_true_or_false(self):
        job, run = Cron("0 9 * * *"), datetime(2024, 7, 8, 9, tzinfo=UTC)
        for value in (1, 2, -1, 1 << 32, 0.5, "yes", [0]):
            found = job.next(run, inclusive=value), job.previous(run, inclusive=value), next(job.runs(run, inclusive=value))
            self.assertEqual(found, (run,) * 3)
        for value in (0, 0.0, "", [], None):
            found = job.next(run, inclusive=value), job.previous(run, inclusive=value), next(job.runs(run, inclusive=value))
            self.assertEqual(found, (run + timedelta(days=1), run - timedelta(days=1), run + timedelta(days=1)))

    def test_no_run_is_left(self):
        job, start = Cron("0 0 0 1 1 * 2020"), datetime(2024, 1, 1, tzinfo=PARIS)
        self.assertIsNone(job.next(start))
        self.assertIsNone(job.previous(datetime(2019, 1, 1, tzinfo=PARIS)))
        self.assertEqual(list(job.runs(start)), [])
        self.assertEqual(shown(job.runs(datetime(2001, 1, 1, tzinfo=PARIS))), ["2020-01-01T00:00:00+01:00"])
        self.assertIsNone(Cron("0 12 30 FEB *").next(start))

    def test_far_away(self):
        for zone in (UTC, PARIS, timezone(timedelta(hours=-7))):
            start = datetime(2024, 3, 1, tzinfo=zone)
            for year in (2029, 2060, 2400, 4999):
                run = datetime(year, 6, 1, tzinfo=zone)
                job = Cron(f"0 0 0 1 6 * {year}")
                self.assertEqual(job.next(start), run)
                self.assertEqual(next(job.runs(start)), run)
                self.assertEqual(job.previous(datetime(4999, 12, 31, tzinfo=zone)), run)
            for year in (2, 400, 1899, 1950):
                self.assertEqual(Cron(f"0 0 0 1 6 * {year}").previous(start), datetime(year, 6, 1, tzinfo=zone))
        for zone in (UTC, PARIS):
            for year in (7000, 9996, 9999):
                start = datetime(year, 12, 31, tzinfo=zone)
                self.assertEqual(Cron("0 0 * * *").previous(start), datetime(5000, 12, 31, tzinfo=zone))
                self.assertIsNone(Cron("0 0 * * *").next(start))
                self.assertEqual(list(Cron("0 0 * * *").runs(start)), [])
                self.assertIs(Cron("0 0 * * *").matches(start), False)

    def test_the_years_that_are_searched(self):
        for zone in (UTC, PARIS, timezone(timedelta(hours=-7))):
            start, end = datetime(2024, 3, 1, tzinfo=zone), datetime(5000, 1, 1, tzinfo=zone)
            self.assertEqual(Cron("0 0 0 1 1 * 5000").next(start), end)
            self.assertEqual(list(Cron("0 0 0 1 1 * 5000").runs(start)), [end])
            self.assertIsNone(Cron("0 0 0 2 1 * 5000").next(start))
            self.assertEqual(Cron("59 59 23 31 12 * 4999").next(start), datetime(4999, 12, 31, 23, 59, 59, tzinfo=zone))
            self.assertTrue(Cron("0 0 0 2 1 * 5000").matches(datetime(5000, 1, 2, tzinfo=zone)))
            self.assertEqual(Cron("0 0 0 1 1 * 2").previous(start), datetime(2, 1, 1, tzinfo=zone))
            self.assertIsNone(Cron("0 0 0 1 1 * 1").previous(start))

    def test_the_first_and_the_last_day_of_a_datetime(self):
        """UTC shows the year 0 at the one, or 10000 at the other, in a zone that is far enough from it."""
        job, line = Cron("* * * * *"), CrontabLine("* * * * * x")
        for zone in (UTC, PARIS, ZoneInfo("Asia/Tokyo"), *(timezone(timedelta(hours=it)) for it in (-14, 14, 23))):
            first, last = datetime(1, 1, 1, tzinfo=zone), datetime(9999, 12, 31, 23, 59, tzinfo=zone)
            runs = [first.replace(minute=it) for it in (1, 2, 3)]
            self.assertEqual([it.isoformat() for it in job.runs(first, count=3)], [it.isoformat() for it in runs])
            self.assertEqual(job.next(first).isoformat(), runs[0].isoformat())
            self.assertEqual(job.next(first, inclusive=True).isoformat(), first.isoformat())
            self.assertEqual([it.time.isoformat() for it in line.starts(first, count=3)], [it.isoformat() for it in runs])
            self.assertEqual(list(job.runs(first, until=runs[1])), runs[:2])
            self.assertIsNone(job.previous(first))
            self.assertTrue(job.matches(first))
            self.assertIsNone(job.next(last))
            self.assertEqual(job.previous(last), datetime(5000, 12, 31, 23, 59, tzinfo=zone))
            self.assertEqual(list(job.runs(last)), [])
            self.assertEqual(list(line.starts(last)), [])
            self.assertIs(job.matches(last), False)
            self.assertEqual(next(job.runs(datetime(2024, 1, 1, tzinfo=UTC), until=last)), datetime(2024, 1, 1, 0, 1, tzinfo=UTC))

    def test_times_of_other_classes(self):
        class Moment(datetime):
            def __sub__(self, _):
                return timedelta(0)

        job, run = Cron("0 9 * * *"), datetime(2024, 7, 8, 9, tzinfo=UTC)
        start = Moment(2024, 7, 8, tzinfo=UTC)
        self.assertEqual((job.next(start), type(job.next(start))), (run, datetime))
        self.assertEqual(job.previous(Moment(2024, 7, 8, 10, tzinfo=UTC)), run)

    def test_runs(self):
        job, start = Cron("*/7 * * * *"), datetime(2024, 10, 26, tzinfo=PARIS)
        for count in (0, 1, 63, 64, 65, 700):
            runs = list(job.runs(start, count=count))
            self.assertEqual(len(runs), count)
            time = start
            for run in runs:
                time = job.next(time)
                self.assertEqual((run, run.fold), (time, time.fold))
        end = datetime(2024, 10, 28, tzinfo=PARIS)
        until = list(job.runs(start, until=end, inclusive=True))
        self.assertEqual((until[0], until[-1], len(until)), (start, end, 49 * 9 + 1))
        self.assertEqual(list(job.runs(start, until=end, count=3)), until[1:4])
        self.assertEqual(list(job.runs(end, until=start)), [])
        with self.assertRaises(ValueError):
            job.runs(start, count=-1)
        for count in (1.5, "3"):
            with self.assertRaisesRegex(TypeError, "integer"):
                job.runs(start, count=count)
        years = list(Cron("0 0 29 2 *").runs(datetime(1890, 1, 1, tzinfo=PARIS), count=60))
        self.assertEqual([it.year for it in years], [it for it in range(1892, 2137, 4) if it not in (1900, 2100)][:60])

    def test_iteration(self):
        before = datetime.now(UTC)
        runs = list(islice(Cron("* * * * * *"), 3))
        self.assertTrue(before < runs[0] < before + timedelta(seconds=60))
        self.assertEqual([it - runs[0] for it in runs], [timedelta(seconds=it) for it in range(3)])


class Zones(unittest.TestCase):
    def test_spring(self):
        start = datetime(2024, 3, 30, 12, tzinfo=PARIS)
        wanted = ["2024-03-31T03:00:00+02:00", "2024-04-01T02:30:00+02:00"]
        self.assertEqual(shown(Cron("30 2 * * *").runs(start, count=2)), wanted)
        wanted = ["2024-03-31T01:30:00+01:00", "2024-03-31T03:00:00+02:00"]
        self.assertEqual(shown(islice(Cron("*/30 * * * *").runs(datetime(2024, 3, 31, 1, 15, tzinfo=PARIS)), 2)), wanted)

    def test_autumn(self):
        start = datetime(2024, 10, 27, 1, 59, tzinfo=PARIS)
        runs = list(Cron("*/30 2 * * *").runs(start, count=4))
        self.assertEqual([(it.hour, it.minute, it.fold) for it in runs], [(2, 0, 0), (2, 30, 0), (2, 0, 1), (2, 30, 1)])
        first, second = (datetime(2024, 10, 27, 2, 30, tzinfo=PARIS, fold=it) for it in (0, 1))
        job = Cron("*/30 * * * *")
        self.assertEqual([job.next(it).fold for it in (first, second)], [1, 0])
        self.assertEqual(job.next(second), datetime(2024, 10, 27, 3, tzinfo=PARIS))
        self.assertEqual(job.previous(second).utcoffset(), timedelta(hours=1))
        self.assertEqual(Cron("30 2 * * *").next(first).day, 28)

    def test_a_start_that_the_clock_skips(self):
        job = Cron("* * * * *")
        for fold, run in ((0, "2024-03-31T03:31:00+02:00"), (1, "2024-03-31T01:31:00+01:00")):
            start = datetime(2024, 3, 31, 2, 30, tzinfo=PARIS, fold=fold)
            self.assertEqual(job.next(start).isoformat(), run)
            self.assertEqual(shown(job.runs(start, count=1)), [run])
            self.assertTrue(job.matches(start))

    def test_fixed_offsets(self):
        for minutes in (0, 330, -570, 24 * 60 - 1, 1 - 24 * 60):
            zone = timezone(timedelta(minutes=minutes))
            run = Cron("0 9 * * *").next(datetime(2024, 7, 6, tzinfo=zone))
            self.assertEqual((run, run.tzinfo), (datetime(2024, 7, 6, 9, tzinfo=zone), zone))
        odd = timezone(timedelta(hours=1, seconds=7))
        self.assertEqual(Cron("0 9 * * *").next(datetime(2024, 7, 6, tzinfo=odd)), datetime(2024, 7, 6, 9, tzinfo=odd))
        with self.assertRaises(ValueError):
            Cron("0 9 * * *").next(datetime(2024, 7, 6, tzinfo=timezone(timedelta(microseconds=1))))

    def test_refused_times(self):
        job, aware = Cron("0 9 * * *"), datetime(2024, 7, 6, tzinfo=UTC)
        for find in (job.next, job.previous, job.matches, job.runs, lambda it: job.runs(aware, until=it)):
            with self.assertRaisesRegex(ValueError, "naive"):
                find(datetime(2024, 7, 6))
            for other in (date(2024, 7, 6), 0, "2024-07-06"):
                with self.assertRaises(TypeError):
                    find(other)
            with self.assertRaisesRegex(TypeError, "Zone"):
                find(datetime(2024, 7, 6, tzinfo=Zone()))

    def test_a_zone_without_a_key(self):
        data = next(it for it in (Path(it, "Europe/Paris") for it in zoneinfo.TZPATH) if it.is_file()).read_bytes()
        job = Cron("0 9 * * *")
        with self.assertRaisesRegex(TypeError, "key"):
            job.next(datetime(2024, 7, 6, tzinfo=ZoneInfo.from_file(io.BytesIO(data))))
        for key in ("/etc/passwd", "../../etc/passwd", "", ".", "Europe/Nowhere", "Europe", "a\0b", "\udc80", "\ud800", "a" * 300):
            with self.assertRaises((ValueError, KeyError), msg=repr(key)):
                job.next(datetime(2024, 7, 6, tzinfo=ZoneInfo.from_file(io.BytesIO(data), key=key)))

    def test_a_zone_of_another_file_than_its_key(self):
        def file_of(name):
            return next(it for it in (Path(it, name) for it in zoneinfo.TZPATH) if it.is_file()).read_bytes()

        def zone_of(data):
            return ZoneInfo.from_file(io.BytesIO(data), key="Europe/Paris")

        job, line = Cron("0 9 1 * *"), CrontabLine("0 9 1 * * x")
        self.assertEqual(job.next(datetime(2024, 7, 6, tzinfo=zone_of(file_of("Europe/Paris")))), datetime(2024, 8, 1, 9, tzinfo=PARIS))
        other = datetime(2024, 7, 6, tzinfo=zone_of(file_of("America/New_York")))
        for find in (job.next, job.previous, job.matches, lambda it: list(job.runs(it, count=1)), lambda it: list(line.starts(it, count=1))):
            with self.assertRaisesRegex(ClockError, "Europe/Paris.* 2024-07-06"):
                find(other)
        # As far ahead as Paris in winter, and not in summer: a file of one offset.
        winter = b"TZif" + bytes(16) + struct.pack(">6l", 0, 0, 0, 0, 1, 4) + struct.pack(">lbb", 3600, 0, 0) + b"CET\0"
        start = datetime(2024, 1, 6, tzinfo=zone_of(winter))
        for find in (job.runs, line.starts):
            found = []
            with self.assertRaisesRegex(ClockError, "2024-04-01"):
                for it in find(start, count=5):
                    found.append(it)
            self.assertEqual(len(found), 2)
        self.assertEqual(job.next(start).month, 2)
        with self.assertRaises(ClockError):
            Cron("0 9 1 7 *").next(start)
        with self.assertRaises(ClockError):
            Cron("0 9 1 7 *").previous(start)

    def test_a_file_that_is_changed(self):
        paths = zoneinfo.TZPATH
        paris, india = (next(it for it in (Path(it, name) for it in paths) if it.is_file()) for name in ("Europe/Paris", "Asia/Kolkata"))
        with tempfile.TemporaryDirectory() as room:
            zoneinfo.reset_tzpath([room])
            try:
                Path(room, "Changed").write_bytes(paris.read_bytes())
                start, job = datetime(2024, 7, 6, tzinfo=ZoneInfo("Changed")), Cron("0 9 * * *")
                self.assertEqual(job.next(start).isoformat(), "2024-07-06T09:00:00+02:00")
                Path(room, "Changed").write_bytes(india.read_bytes())
                self.assertEqual(job.next(start).isoformat(), "2024-07-06T09:00:00+02:00")
                ZoneInfo.clear_cache()
                self.assertEqual(job.next(start.replace(tzinfo=ZoneInfo("Changed"))).isoformat(), "2024-07-06T09:00:00+05:30")
                old = ZoneInfo.no_cache("Changed")
                Path(room, "Changed").write_bytes(paris.read_bytes())
                with self.assertRaises(ClockError):
                    job.next(start.replace(tzinfo=old))
            finally:
                zoneinfo.reset_tzpath(paths)
                ZoneInfo.clear_cache()

    def test_where_files_are_looked_for(self):
        paths = zoneinfo.TZPATH
        data = next(it for it in (Path(it, "Asia/Kolkata") for it in paths) if it.is_file()).read_bytes()
        with tempfile.TemporaryDirectory() as room:
            Path(room, "Own").mkdir()
            Path(room, "Own/Zone").write_bytes(data)
            Path(room, "packages/tzdata/zoneinfo/Own").mkdir(parents=True)
            for folder in ("tzdata", "tzdata/zoneinfo", "tzdata/zoneinfo/Own"):
                Path(room, "packages", folder, "__init__.py").touch()
            Path(room, "packages/tzdata/zoneinfo/Own/Package").write_bytes(data)
            Path(room, "large").write_bytes(bytes(1_000_001))
            Path(room, "broken").write_bytes(b"TZif")
            sys.path.insert(0, f"{room}/packages")
            zoneinfo.reset_tzpath([room])
            try:
                for key in ("Own/Zone", "Own/Package"):
                    run = Cron("0 9 * * *").next(datetime(2024, 7, 6, tzinfo=ZoneInfo(key)))
                    self.assertEqual(run.isoformat(), "2024-07-06T09:00:00+05:30")
                for key in ("large", "broken"):
                    with self.assertRaises(ClockError):
                        zone = ZoneInfo.from_file(io.BytesIO(data), key=key)
                        Cron("0 9 * * *").next(datetime(2024, 7, 6, tzinfo=zone))
            finally:
                zoneinfo.reset_tzpath(paths)
                sys.path.remove(f"{room}/packages")
                for it in [it for it in sys.modules if it.split(".")[0] == "tzdata"]:
                    del sys.modules[it]

    def test_a_clock_that_is_not_followed(self):
        """It was put back by three hours on 2010-03-05 and 2012-02-22."""
        casey, job = ZoneInfo("Antarctica/Casey"), Cron("0 9 * * *")
        with self.assertRaisesRegex(ClockError, "Casey"):
            job.next(datetime(2010, 3, 5, tzinfo=casey))
        for year in (2007, 2009, 2011, 2012, 2013, 2019):
            start = datetime(year, 7, 6, tzinfo=casey)
            self.assertEqual(job.next(start), start.replace(hour=9))
            self.assertEqual(job.previous(start), start.replace(day=5, hour=9))
            self.assertTrue(job.matches(start.replace(hour=9)))
            self.assertEqual(len(list(job.runs(start, count=100))), 100)
            self.assertEqual(Cron("0 9 1 8 *").next(start), start.replace(month=8, day=1, hour=9))
        with self.assertRaises(ClockError):
            list(job.runs(datetime(2007, 7, 6, tzinfo=casey), count=2_000))


    def test_far_away_on_a_clock_that_is_not_followed_nearby(self):
        count = 0
        for name in ("Antarctica/Casey", "Antarctica/Vostok", "Antarctica/Rothera"):
            try:
                zone = ZoneInfo(name)
            except zoneinfo.ZoneInfoNotFoundError:
                continue
            for year in range(1940, 2040):
                start = datetime(year, 7, 1, tzinfo=zone)
                for find, run in (
                    (Cron("0 0 0 1 6 * 4900").next, datetime(4900, 6, 1, tzinfo=zone)),
                    (Cron("0 0 0 1 6 * 30").previous, datetime(30, 6, 1, tzinfo=zone)),
                ):
                    try:
                        self.assertEqual(find(start), run, start)
                        count += 1
                    except ClockError:
                        pass
        self.assertGreater(count, 50)


class Patterns(unittest.TestCase):
    def test_refusals(self):
        for pattern, text, field in [
            ("60 * * * *", "60", "minute"),
            ("0 9 * * MONDAY", "MONDAY", "weekday"),
            ("0 9 * 13 *", "13", "month"),
            ("ä 9 * * *", "ä", "minute"),
            ("0 9 ää, * *", "ää", "day"),
            ("0 9 * *", "0 9 * *", None),
        ]:
            with self.assertRaises(CronError) as caught:
                Cron(pattern)
            error = caught.exception
            self.assertIn(error.pattern[error.begin : error.end] or " ", text, pattern)
            self.assertEqual((error.pattern, error.field), (pattern, field))
            self.assertGreater(len(str(error)), 20)
            again = pickle.loads(pickle.dumps(error))
            self.assertEqual((str(again), again.begin, again.end, again.field), (str(error), error.begin, error.end, field))
        for pattern in ("", " ", "0 9 * * \ud800", "0 9 * * *\0", "9" * 100_000):
            with self.assertRaises(CronError):
                Cron(pattern)
        for pattern in (None, 5, b"0 9 * * *"):
            with self.assertRaises(TypeError):
                Cron(pattern)

    def test_settings(self):
        self.assertEqual(Cron("0 0 9 * * 2", alternative_weekdays=True).next(datetime(2024, 7, 6, tzinfo=UTC)).day, 8)
        self.assertEqual(Cron("0 0 13 * FRI", dom_and_dow=True).next(datetime(2024, 7, 6, tzinfo=UTC)).month, 9)
        self.assertEqual(Cron("5/10 * * * *", sloppy_ranges=True).next(datetime(2024, 7, 6, tzinfo=UTC)).minute, 5)
        for pattern, settings in [
            ("0 9 * * *", {"seconds": "required"}),
            ("0 0 9 * * *", {"seconds": "disallowed"}),
            ("0 0 9 * * *", {"year": "required"}),
            ("0 0 9 * * * 2024", {"year": "disallowed"}),
            ("5/10 * * * *", {}),
        ]:
            with self.assertRaises(CronError):
                Cron(pattern, **settings)
        for settings in ({"seconds": True}, {"year": "never"}):
            with self.assertRaises(ValueError):
                Cron("0 9 * * *", **settings)

    def test_words(self):
        job = Cron("5 9 * * MON")
        self.assertEqual(job.describe(), "At 09:05, on Monday.")
        self.assertEqual(job.describe("sv"), "Klockan 09:05, på måndag.")
        job = Cron("0-20/3 9 * * *")
        self.assertEqual(job.summary(), "Every 3 minutes from 09:00 to 09:18")
        self.assertEqual(job.summary("sv"), "Var 3:e minut från kl. 09:00 till 09:18")
        self.assertGreater(len(Cron(f"{','.join(map(str, range(0, 60, 2)))} {','.join(map(str, range(24)))} 1,2,5,9 * 3 *").describe()), 100)
        years = ",".join(map(str, range(1, 4999, 2)))
        self.assertGreater(len(Cron(f"0 0 9 * * * {years}").describe()), 10_000)
        for say in (job.describe, job.summary):
            with self.assertRaises(ValueError):
                say("fr")

    def test_values(self):
        job, same, other = Cron("0 9 * * *"), Cron("0 9 * * *"), Cron("0 9 * * *", seconds="disallowed")
        self.assertEqual((job, hash(job)), (same, hash(same)))
        self.assertNotEqual(job, other)
        self.assertNotEqual(job, "0 9 * * *")
        self.assertEqual(len({job, same, other}), 2)
        self.assertEqual([str(it) for it in sorted([Cron("1 * * * *"), Cron("0 * * * *")])], ["0 * * * *", "1 * * * *"])
        self.assertTrue(job <= same and job < other)
        with self.assertRaises(TypeError):
            job < "0"  # noqa: B015
        for it in (job, other, Cron("0 0 ? * 1", alternative_weekdays=True, dom_and_dow=True, sloppy_ranges=True)):
            self.assertEqual(pickle.loads(pickle.dumps(it)), it)
            self.assertEqual(copy.deepcopy(it), it)
            self.assertEqual(eval(repr(it)), it)  # noqa: S307
        with self.assertRaises(AttributeError):
            job.pattern = "* * * * *"


class Lines(unittest.TestCase):
    def test_kinds(self):
        for text, system, wanted in [
            ("", False, ("blank", "", "", "")),
            ("# a comment", False, ("comment", "", "", "")),
            ("MAILTO=root", False, ("setting", "", "", "")),
            ("0 9 * * 1  backup é\n", False, ("job", "0 9 * * 1", "", "backup é")),
            ("0 9 * * 1 root backup", True, ("job", "0 9 * * 1", "root", "backup")),
            ("@daily backup", False, ("job", "@daily", "", "backup")),
            ("@reboot backup", False, ("reboot", "@reboot", "", "backup")),
        ]:
            line = CrontabLine(text, system=system)
            self.assertEqual((line.kind, line.schedule, line.user, line.command), wanted)
            self.assertEqual(pickle.loads(pickle.dumps(line)), line)
            self.assertEqual(eval(repr(line)), line)  # noqa: S307
        raw = b"0 9 * * 1 caf\xe9".decode(errors="surrogateescape")
        self.assertEqual(CrontabLine(raw).command, raw[10:])

    def test_refusals(self):
        for text, field, fault in [("60 9 * * 1 x", "minute", "60"), ("0 9 * * MONDAY x", "weekday", "MONDAY"), ("@noon x", None, "@noon")]:
            with self.assertRaises(CronError) as caught:
                CrontabLine(text)
            error = caught.exception
            self.assertEqual(error.field, field)
            self.assertIn(text[error.begin : error.end], fault)
        for text in ("a\nb", 5, b"0 9 * * 1 x"):
            with self.assertRaises((ValueError, TypeError)):
                CrontabLine(text)
        for text, fault in [("0 9 * * 1 \ud800", "\ud800"), ("é9 \udbff* * * 1 x\n", "\udbff"), ("0 9 * * 1 \0", "\0"), ("0 é9 * * 1 x", "é9")]:
            with self.assertRaises(CronError) as caught:
                CrontabLine(text)
            error = caught.exception
            self.assertEqual(error.pattern[error.begin : error.end], fault)

    def test_starts(self):
        start = datetime(2027, 3, 28, tzinfo=PARIS)
        starts = list(CrontabLine("0,30 2 * * * x").starts(start, count=3))
        self.assertEqual([(it.time.isoformat(), it.times) for it in starts], [
            ("2027-03-28T03:00:00+02:00", 2),
            ("2027-03-29T02:00:00+02:00", 1),
            ("2027-03-29T02:30:00+02:00", 1),
        ])
        line = CrontabLine("*/5 * * * * x")
        times = [it.time for it in line.starts(start, until=start + timedelta(days=1))]
        self.assertEqual((len(times), times[-1]), (23 * 12, start + timedelta(days=1)))
        self.assertEqual(list(CrontabLine("@reboot x").starts(start)), [])


class Threads(unittest.TestCase):
    def test_twelve(self):
        job, zones = Cron("*/30 2 * * *"), ["Europe/Paris", "America/New_York", "Australia/Lord_Howe", "Asia/Kolkata"]

        def listed(number):
            start = datetime(2020 + number, 1, 1, tzinfo=ZoneInfo(zones[number % 4]))
            return [*job.runs(start, count=300), job.next(start), job.previous(start), job.describe()]

        alone, together, threads = [listed(it) for it in range(12)], {}, []
        for number in range(12):
            work = lambda it=number: together.update({it: [listed(it) for _ in range(10)]})  # noqa: E731
            threads.append(threading.Thread(target=work))
        for it in threads:
            it.start()
        for it in threads:
            it.join()
        for number in range(12):
            self.assertEqual(together[number], [alone[number]] * 10)


    def test_a_fork(self):
        job, start = Cron("0 9 * * *"), datetime(2024, 7, 6, tzinfo=PARIS)
        run = job.next(start)
        child = os.fork()
        if child == 0:
            os._exit(job.next(start) != run)
        self.assertEqual(os.waitpid(child, 0)[1], 0)


class Opening(unittest.TestCase):
    """In processes of their own, from copies of the package."""

    def opened(self, has_library, **environment):
        with tempfile.TemporaryDirectory() as room:
            shutil.copytree(PACKAGE, Path(room, "packages/croner"))
            library = Path(room, "packages/croner/libcroner.so.1")
            if not has_library:
                library.unlink(missing_ok=True)
            here = Path(room, "here")
            here.mkdir()
            for name in ("libcroner.so.1", "libcroner.so"):
                Path(here, name).write_bytes(b"no library")
            code = f"import sys; sys.path.insert(0, {str(library.parent.parent)!r}); import croner; print(croner.Cron('* * * * *'))"
            both = {"capture_output": True, "text": True, "check": False, "cwd": here}
            return subprocess.run([sys.executable, "-c", code], env=environment, **both)

    def test_from_its_own_folder(self):
        if not (PACKAGE / "libcroner.so.1").exists():
            self.skipTest("the library isn't in the package's folder")
        self.assertEqual(self.opened(True).stdout, "* * * * *\n")

    def test_by_no_variable_and_not_from_the_current_folder(self):
        found = self.opened(False, CRONER_SO="./libcroner.so.1", CRONER_LIB_DIR=".", CRONER_LIBRARY="libcroner.so.1")
        # (it may be installed)
        if found.returncode == 0:
            self.assertEqual(found.stdout, "* * * * *\n")
        else:
            self.assertIn("ImportError", found.stderr)
            self.assertNotIn("invalid ELF header", found.stderr)
            self.assertIn("libcroner.so.1", found.stderr)


class Wheel(unittest.TestCase):
    def test_it_has_the_package(self):
        with tempfile.TemporaryDirectory() as room:
            code = "import sys, wheel_backend; print(wheel_backend.build_wheel(sys.argv[1]))"
            words = [sys.executable, "-c", code, room]
            built = subprocess.run(words, cwd=PACKAGE.parent, capture_output=True, text=True, check=True)
            path = Path(room, built.stdout.strip())
            with zipfile.ZipFile(path) as wheel:
                wheel.extractall(Path(room, "installed"))
                names = {it.split("/")[-1] for it in wheel.namelist()}
            self.assertLessEqual({"__init__.py", "__init__.pyi", "py.typed", "METADATA", "WHEEL", "RECORD"}, names)
            self.assertEqual("libcroner.so.1" in names, (PACKAGE / "libcroner.so.1").exists())
            if "libcroner.so.1" in names:
                code = "import sys; sys.path.insert(0, sys.argv[1]); import croner; print(croner.Cron('* * * * *'))"
                words = [sys.executable, "-I", "-c", code, f"{room}/installed"]
                self.assertEqual(subprocess.run(words, capture_output=True, text=True, check=True).stdout, "* * * * *\n")


if __name__ == "__main__":
    unittest.main()
