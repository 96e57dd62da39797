"""The crontabs and the spans that `tools/plan_test` tries, a call of `croncheck plan` for each, and what passed.

What is wanted of a call is a plan of plan_model.py, over the same files and the same span.
"""
import functools
import itertools
import json
import os
import pathlib
import resource
import subprocess

import plan_model
import plan_texts

HERE = pathlib.Path(__file__).resolve().parent
CRONTABS = HERE / "plan_crontabs"
CALLS = {
    "debian": ["--system", *(f"debian/{it.name}" for it in sorted((CRONTABS / "debian").iterdir()))],
    **{name: [name] for name in ("nightly", "backups", "seldom", "nicknames", "one")},
    "mixed": ["mixed", "unended"],
    "changes": ["changes"],
}
STOCKHOLM, NEW_YORK, LORD_HOWE = "Europe/Stockholm", "America/New_York", "Australia/Lord_Howe"
MARCH = "2027-03-01", "2027-03-31"
SPANS = [
    (STOCKHOLM, "2027-03-01", None),
    (STOCKHOLM, "2027-03-26", "2027-04-01"),
    (STOCKHOLM, "2027-10-30T13:30:00", "2027-11-02T04:15:00"),
    (NEW_YORK, "2027-03-01", None),
    (NEW_YORK, "2027-03-12T05:00:00", "2027-03-15T02:30:00"),
    (NEW_YORK, "2027-11-05", "2027-11-08"),
]
HALF_HOURS = [(LORD_HOWE, "2027-04-01", "2027-04-06"), (LORD_HOWE, "2027-10-01T12:00:00", "2027-10-04")]


class Tally:
    """What passed, and what failed, which is printed."""

    def __init__(self):
        self.passed = self.failed = 0

    def take(self, what, got, wanted):
        if got == wanted:
            self.passed += 1
            return
        self.failed += 1
        if isinstance(got, list) and isinstance(wanted, list):
            self.print_lists(what, got, wanted)
        else:
            print(f"{what}: {str(got)[:400]}, not {str(wanted)[:400]}")

    def print_lists(self, what, got, wanted):
        """The first two pairs that differ."""
        pairs = enumerate(itertools.zip_longest(got, wanted, fillvalue="(none)"))
        for at, (here, there) in itertools.islice((it for it in pairs if it[1][0] != it[1][1]), 2):
            if isinstance(here, dict) and isinstance(there, dict):
                here, there = differing(here, there), differing(there, here)
            print(f"{what}: {at} of {len(wanted)}: {str(here)[:400]}, not {str(there)[:400]}")


def differing(found, other):
    return {name: value for name, value in found.items() if name not in other or other[name] != value}


class Ran:
    """A call of the program: its status, what it wrote, and its seconds of a processor."""

    def __init__(self, program, words, folder, locale="C", **how):
        env = {**os.environ, "LC_ALL": locale}
        before = resource.getrusage(resource.RUSAGE_CHILDREN)
        ran = subprocess.run([program, "plan", *words], cwd=folder, env=env, stdin=subprocess.DEVNULL, capture_output=True, check=False, **how)
        after = resource.getrusage(resource.RUSAGE_CHILDREN)
        self.status, self.out, self.errors = ran.returncode, ran.stdout, ran.stderr.decode("utf-8")
        self.seconds = after.ru_utime + after.ru_stime - before.ru_utime - before.ru_stime

    def text(self):
        return self.out.decode("utf-8")


def described(program, words, folder):
    """The objects of `show --json` of the lines of files, by file and line, and those of the files."""
    call = [program, "show", "--json", "--runs", "1", *words]
    ran = subprocess.run(call, cwd=folder, stdin=subprocess.DEVNULL, capture_output=True, check=False)
    objects = [json.loads(line) for line in ran.stdout.splitlines()]
    lines = {(it["file"], it["line"]): it for it in objects if it["kind"] != "file"}
    return lines, [it for it in objects if it["kind"] == "file"]


class Case:
    """Some crontabs over a span in a zone."""

    def __init__(self, program, folder, names, zone, start, until, is_system=False):
        self.program, self.folder, self.zone, self.start, self.until = program, folder, zone, start, until
        self.names, self.is_system = names, is_system
        self.files = plan_model.Files([(it, (folder / it).read_bytes()) for it in names], is_system)
        self.first, self.end = plan_model.span_of(zone, start, until)
        self.what = f"{' '.join(names)[:40]!r} in {zone} from {start}"

    def words(self):
        """What stands after the options of a call."""
        return ["--zone", self.zone, "--from", self.start, *(["--system"] if self.is_system else []), *self.names]

    def until_words(self):
        return [] if self.until is None else ["--until", self.until]

    def call(self, *options, locale="C"):
        return Ran(self.program, [*options, *self.until_words(), *self.words()], self.folder, locale)

    @functools.lru_cache(maxsize=None)
    def plan(self, most="12"):
        return plan_model.Plan(self.files.jobs, self.zone, self.first, self.end, None if most == "all" else int(most))

    @functools.lru_cache(maxsize=None)
    def described(self):
        return described(self.program, self.words(), self.folder)

    def meanings(self):
        """The words for the times of each job."""
        lines, _ = self.described()
        return [lines[job.file, job.line]["job"]["times"]["description"] for job in self.files.jobs]

    def status(self):
        return 1 if self.files.ignored else 0

    def tally(self):
        """How many files and jobs there are, and how many lines are refused."""
        jobs, refused = self.files.counts
        return f"{plan_texts.many(len(self.names), 'file')}, {plan_texts.many(jobs, 'job')}, {refused} refused"

    def ignored(self):
        """The end of that line: how many files cron ignores, where it does, and the zone."""
        files = len(self.files.ignored)
        ignored = f", {plan_texts.many(files, 'file')} ignored" if files else ""
        return f"{ignored}, zone {self.zone}\n"


def has_spring(case):
    """Of these cases, two for each crontab, the long files are read too."""
    return case.until is not None and case.start.startswith("2027-03")


def case_of(program, name, span):
    words = CALLS[name]
    return Case(program, CRONTABS, [it for it in words if it != "--system"], *span, is_system="--system" in words)


@functools.lru_cache(maxsize=None)
def cases(program):
    """Each crontab over each span, the months first, which have most spans in them."""
    found = [*months(program)]
    found += [case_of(program, name, span) for name in CALLS for span in SPANS + (HALF_HOURS if name == "changes" else [])]
    for case in found:
        case.plan()
    return [case for case in found if (case.start, case.until) != MARCH]


@functools.lru_cache(maxsize=None)
def months(program):
    return [case_of(program, name, (zone, *MARCH)) for name in CALLS for zone in (STOCKHOLM, NEW_YORK)]
