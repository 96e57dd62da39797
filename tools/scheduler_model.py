#!/usr/bin/env python3
"""A slow model of the scheduler: lists of calls, with what it answers, as lines of the replay program.

    tools/scheduler_model.py SEED COUNT >FILE
    crates/cronreplay/out/cronreplay <FILE

    tools/scheduler_model.py SEED COUNT short       lists of a few calls each, over whole calm clocks alone

The same words give the same lines. The last line, on standard error, says how many lists, calls and runs there are, and of
what kinds.

The model has no order of runs, no set and no heap. It holds a plain list of jobs, each with its position and with what a
single search from there answers, and looks through all of them for whatever is asked. Single searches are those of
`model.py`, which shares nothing with the library. Where a zone isn't calm, or a backend holds only what lies between two
instants, the definitions don't say what a search answers: there the program is asked for single searches (`next`), in bulk.
Of these each run that it gives in a calm zone has to be the model's (`Untrue`), and only those of a zone that isn't calm
are taken as they are.

What is drawn. The clocks of a list are of one kind: tables of offsets (UTC, the changes of a rule with summer time, of New
York, of Lord Howe with its half-hour, of Apia, which skips a day), rules (UTC, one with summer time, Lord Howe's, one
that goes back by three hours, which isn't calm), the same tables over a backend that holds what lies between two instants,
and civil time. A list goes on for some days about a change of one of its clocks. Jobs run every half a minute to never,
many at the same instants. Their positions lie about the time of the list, far behind it and ahead of it. The time that a
call is told goes on, jumps to a run or one second before it, and goes back. Jobs are taken out and put back where they
stood, also at an id's end. Over the backend that holds little some jobs refuse their first searches near an end of what
is held, and go on when they are asked again.
"""
import datetime
import functools
import inspect
import json
import pathlib
import random
import subprocess
import sys

import model
import zone_rows

DAY, HOUR = 86_400, 3_600
LAST_ID = 2**64 - 1
PROGRAM = pathlib.Path(__file__).resolve().parent.parent / "crates" / "cronreplay" / "out" / "cronreplay"
SEARCHED = 60  # runs one after another that the program is asked for at a time
NEVER = ("0 0 30 2 *", "0 0 31 4,6 *")
REFUSALS = [0, 0, 1, 1, 2, 5]  # how many searches of a job are refused
WAYS = {"next": (model.FORWARD, False), "prev": (model.BACKWARD, True)}

SUMMER_TIME = "CET-1CEST,M3.5.0,M10.5.0/3"
HALF_HOUR = "<+1030>-10:30<+11>-11,M10.1.0,M4.1.0"
NOT_CALM = "AAA0BBB-3,M3.2.0,M11.1.0/3"


class Zone:
    """A zone: how a line names it, its clock where it is calm, and what is held of it."""

    def __init__(self, member, clock, window=None, held=None):
        self.member, self.clock, self.window, self.held = member, clock, window, held
        self.key = json.dumps(member)
        self.is_asked = clock is None or held is not None

    def holds(self, second):
        return self.held is None or self.held[0] <= second <= self.held[1]


def at(year, month, day, hour=0):
    return int(datetime.datetime(year, month, day, hour, tzinfo=datetime.timezone.utc).timestamp())


def window_of(second):
    return second - 500 * DAY, second + 3_700 * DAY


@functools.cache
def clock_of(name, second):
    """The clock of a zone about a second: of a file of cronreplay, or of a rule."""
    source = zone_rows.of_file(name) if (zone_rows.DATA / name).is_file() else zone_rows.of_rule(name)
    return zone_rows.table(source, *window_of(second))


def table_of(name, second):
    clock = clock_of(name, second)
    return Zone(model.zone_of(clock), clock)


def rule_of(text, second):
    member = {"rule": text}
    if text == NOT_CALM:
        return Zone(member, None)
    return Zone(member, clock_of(text, second), window_of(second))


# The zones of tables, each with seconds about which a list may lie: changes of its clock, and where it has none, any.
TABLES = [
    ("UTC", [at(2024, 2, 28), at(2024, 12, 31), at(1970, 1, 1)]),
    (SUMMER_TIME, [at(2024, 3, 31, 1), at(2024, 10, 27, 1)]),
    ("America_New_York", [at(2024, 3, 10, 7), at(2024, 11, 3, 6)]),
    ("Australia_Lord_Howe", [at(2024, 4, 6, 15), at(2024, 10, 5, 15)]),
    ("Pacific_Apia", [at(2011, 12, 30, 10)]),
]

RULES = [
    ("UTC0", [at(2024, 2, 28)]),
    (SUMMER_TIME, [at(2024, 3, 31, 1), at(2024, 10, 27, 1)]),
    (HALF_HOUR, [at(2024, 4, 6, 15), at(2024, 10, 5, 15)]),
    (NOT_CALM, [at(2024, 3, 10, 2), at(2024, 11, 3)]),
]


# ---- single searches


class Job(model.Job):
    """A pattern whose search passes over the seconds of a minute that aren't named as well, or a long list takes minutes."""

    def quiet_time(self, second):
        of_minute = second % 60
        quiet = super().quiet_time(second)
        if quiet is not None or of_minute in self.seconds.plain:
            return quiet
        before, after = model.neighbours(self.seconds.in_order(), of_minute, -1, 60)
        return second - of_minute + before + 1, second - of_minute + after - 1


class Searches:
    """What single searches answer, after a second, or backward from one that counts: a run, the limit or a refusal."""

    def __init__(self):
        self.found, self.missing, self.jobs, self.runs = {}, set(), {}, {}

    def answer(self, op, text, zone, second):
        """Waits for the program where it has to be asked. In a calm zone what it gives has to be the model's run, or the limit."""
        key = op, text, zone.key, second
        if key not in self.found and not zone.is_asked:
            self.found[key] = self.modelled(op, text, zone, second)
        while key not in self.found:
            self.missing.add((op, text, zone, second))
            yield
        found = self.found[key]
        if zone.is_asked and zone.clock is not None and found not in model.REFUSED:
            if found != self.modelled(op, text, zone, second):
                raise model.Untrue(*key, found)
        return found

    def last_until(self, text, zone, run, second):
        """The last run up to a second, where one is known: in a whole calm zone by runs after one another."""
        if zone.is_asked:
            return (yield from self.answer("prev", text, zone, second))
        following = run
        while isinstance(following, int) and following <= second:
            run, following = following, (yield from self.answer("next", text, zone, following))
        return run

    def modelled(self, op, text, zone, second):
        key = op, text, id(zone.clock), second
        if key not in self.runs:
            self.runs[key] = self.nearest(op, text, zone.clock, second)
        run = self.runs[key]
        if zone.window is not None and isinstance(run, int) and not zone.window[0] < run < zone.window[1]:
            raise ValueError(f"{text}: a run after the window")
        return run

    def nearest(self, op, text, clock, second):
        if text in NEVER:
            return model.LIMIT
        if text not in self.jobs:
            self.jobs[text] = Job(text)
        run = model.nearest([self.jobs[text]], clock, second, *WAYS[op])
        return model.LIMIT if run is None else run[0]

    def ask(self):
        """Asks the program for what is missing, and for the runs after it."""
        asked = sorted(self.missing, key=lambda each: (*each[:2], each[2].key, each[3]))
        lines = [json.dumps({"op": op, "text": text, "zone": zone.member, "start": second, "inclusive": WAYS[op][1],
                             "count": SEARCHED if op == "next" else 1, "want": None}) for op, text, zone, second in asked]
        ran = subprocess.run([PROGRAM], input="\n".join(lines) + "\n", capture_output=True, text=True, check=False)
        answered = [line for line in ran.stdout.splitlines() if ": got " in line]
        for (op, text, zone, second), line in zip(asked, answered, strict=True):
            for found in json.loads(line.partition(": got ")[2].removesuffix(", want null")):
                self.found[op, text, zone.key, second] = found
                second = found
        self.missing.clear()


# ---- the model


class Standing:
    """A job, its position, what comes next: a run, None where none is left, or why it is stopped; and how many of its searches near
    an end of what is held are refused still."""

    def __init__(self, text, zone, position, refusals):
        self.text, self.zone, self.position, self.next, self.refusals = text, zone, position, None, refusals

    def refuses(self):
        return self.refusals > 0 and not (self.zone.holds(self.position - DAY) and self.zone.holds(self.position + DAY))

    def search(self, searches):
        if self.refuses():
            self.refusals -= 1
            self.next = "InvalidTime"
            return
        found = yield from searches.answer("next", self.text, self.zone, self.position)
        if found == model.LIMIT:
            self.next = None
        elif isinstance(found, int) and found <= self.position:
            self.next = "NotLater"
        else:
            self.next = found

    def is_due(self, now):
        return isinstance(self.next, int) and self.next <= now

    def is_stopped(self):
        return isinstance(self.next, str)


class Model:
    """Jobs by their ids, and nothing else. A call that searches is a generator, which waits for searches."""

    def __init__(self, searches, patterns, refusals, places, first_id):
        self.searches, self.patterns, self.refusals, self.zones = searches, patterns, refusals, places
        self.jobs, self.next_id = {}, first_id

    def standing(self, pattern, zone, second):
        job = Standing(self.patterns[pattern], self.zones[zone], second, self.refusals[pattern])
        yield from job.search(self.searches)
        return job

    def given_back(self, job):
        return [job.text, job.position]

    def refused(self, error, pattern, second):
        """Why a job isn't added, with what is handed back."""
        return [error, [self.patterns[pattern], second]]

    def told(self, answer, job):
        """An answer of a call that may stop a job, which tells it."""
        return [answer, "stopped"] if job.is_stopped() else answer

    def add(self, pattern, zone, second):
        if not self.zones[zone].holds(second):
            return "no such second"
        if self.next_id == LAST_ID:
            return self.refused("NoIdLeft", pattern, second)
        job = yield from self.standing(pattern, zone, second)
        self.next_id += 1
        self.jobs[self.next_id - 1] = job
        return self.told(self.next_id - 1, job)

    def add_from(self, pattern, zone, second):
        if not self.zones[zone].holds(second):
            return "no such second"
        if self.next_id == LAST_ID:
            return self.refused("NoIdLeft", pattern, second)
        if not self.zones[zone].holds(second - 1):
            return self.refused("SecondBeforeNotHeld", pattern, second)
        return (yield from self.add(pattern, zone, second - 1))

    def replace(self, key, pattern, zone, second):
        if not self.zones[zone].holds(second):
            return "no such second"
        if key not in self.jobs:
            return self.refused("NoJob", pattern, second)
        job = self.jobs[key]
        self.jobs[key] = yield from self.standing(pattern, zone, second)
        return self.told(self.given_back(job), self.jobs[key])

    def replace_job(self, key, pattern):
        """Another job where the one of the id stands."""
        if key not in self.jobs:
            return ["NoJob", self.patterns[pattern]]
        job = self.jobs[key]
        other = Standing(self.patterns[pattern], job.zone, job.position, self.refusals[pattern])
        yield from other.search(self.searches)
        self.jobs[key] = other
        return self.told(self.given_back(job), other)

    def into_jobs(self):
        """All jobs, which are gone then; the next id stays."""
        jobs = [[key, self.given_back(job)] for key, job in sorted(self.jobs.items())]
        self.jobs = {}
        return jobs

    def pause_until(self, now, most):
        """How long a program sleeps: until the next wake-up, at most so many seconds."""
        wake_up = self.next_wake_up()
        return most if wake_up is None else min(max(wake_up - now, 0), most)

    def remove(self, key):
        job = self.jobs.pop(key, None)
        return None if job is None else self.given_back(job)

    def take_latest_due(self, key, now):
        job = self.jobs.get(key)
        if job is None:
            return "NoJob"
        if not job.is_due(now):
            return "NothingDue"
        if not job.zone.holds(now):
            return "NotHeld"
        last = yield from self.searches.last_until(job.text, job.zone, job.next, now)
        if last in model.REFUSED:
            return last
        job.position = last if isinstance(last, int) and job.next < last <= now else job.next
        yield from job.search(self.searches)
        return self.told(job.position, job)

    def skip_to(self, key, now):
        job = self.jobs.get(key)
        if job is None:
            return "NoJob"
        if now <= job.position:
            return "AlreadyThere"
        if job.next == "Paused":
            return "Paused"
        if not job.zone.holds(now):
            return "NotHeld"
        job.position = now
        if not isinstance(job.next, int) or job.next <= now:
            yield from job.search(self.searches)
        return self.told("Moved", job)

    def skip_all_to(self, now):
        """Each job that stands before now and isn't paused, where its zone holds now, stands at now. Whether one of these is stopped."""
        behind = [key for key in sorted(self.jobs) if self.jobs[key].position < now and self.jobs[key].next != "Paused"]
        moved = [key for key in behind if self.jobs[key].zone.holds(now)]
        for key in moved:
            yield from self.skip_to(key, now)
        return any(self.jobs[key].is_stopped() for key in moved)

    def ask_again(self, key):
        job = self.jobs.get(key)
        if job is None or not job.is_stopped() or job.next == "Paused":
            return "NotStopped"
        yield from job.search(self.searches)
        return "StillStopped" if job.is_stopped() else "GoesOn"

    def pause(self, key):
        if key in self.jobs:
            self.jobs[key].next = "Paused"
        return key in self.jobs

    def resume(self, key, second):
        """The job goes on from where it stands, or from a later second."""
        job = self.jobs.get(key)
        if job is None:
            return "NoJob"
        if job.next != "Paused":
            return "NotPaused"
        if not job.zone.holds(max(job.position, second)):
            return "NotHeld"
        job.position = max(job.position, second)
        yield from job.search(self.searches)
        return self.told("GoesOn", job)

    def take_due(self, now, most):
        given = []
        while len(given) < most:
            due = [(job.next, key) for key, job in self.jobs.items() if job.is_due(now)]
            if not due:
                break
            second, key = min(due)
            self.jobs[key].position = second
            yield from self.jobs[key].search(self.searches)
            given.append(self.told([key, second], self.jobs[key]))
        return given

    def next_wake_up(self):
        return min((job.next for job in self.jobs.values() if isinstance(job.next, int)), default=None)

    def standings(self):
        return [[key, self.jobs[key].position, self.jobs[key].next] for key in sorted(self.jobs)]

    def stopped(self):
        return [[key, self.jobs[key].next] for key in sorted(self.jobs) if self.jobs[key].is_stopped()]

    def stopped_len(self):
        return sum(job.is_stopped() for job in self.jobs.values())


# ---- what is drawn


OFTEN = ["*/10 * * * *", "*/15 * * * *", "5,35 * * * *", "0 * * * *", "30 * * * *", "*/30 0 0-3 * * *", "0 */20 * * * *"]
DAILY = ["0 0 * * *", "30 2 * * *", "0 2 * * *", "15 1,2,3 * * *", "0 12 * * 1-5", "0 */6 * * *", "0 3 * * *", "30 1 * * *",
         "59 59 23 * * *", "45 1 * * 0,6", "0 10 * * *", "0 0 0 * * *"]
SELDOM = ["0 0 1 * *", "0 0 L * *", "0 9 * * 1#2", "0 0 29 2 *", "0 0 * * 5L"]


def dated(draw, about):
    """A pattern that names a few moments about a second."""
    year, month, day = model.parts(about + draw.randint(-3, 3) * DAY)[:3]
    return draw.choice([f"0 0,30 */4 {day} {month} * {year}", f"0 0 2 {day} {month} * {year}", f"0 */5 1-3 {day} {month} *"])


def drawn_patterns(draw, about, often):
    patterns = [draw.choice(OFTEN) for _ in range(often)]
    patterns += draw.sample(DAILY, draw.randint(2, 4)) + [dated(draw, about)]
    patterns += [draw.choice(patterns), draw.choice(SELDOM), draw.choice(NEVER)]
    draw.shuffle(patterns)
    return patterns


def drawn_zones(draw, kind):
    """The clocks of a list, and a second about which it lies."""
    if kind == "civil":
        return [Zone(None, model.CIVIL_TIME)], at(2024, draw.randint(1, 12), draw.randint(1, 28))
    places = draw.sample(RULES if kind == "rules" else TABLES, draw.randint(1, 3))
    about = draw.choice(places[0][1])
    if kind == "rules":
        return [rule_of(text, about) for text, _ in places], about
    found = [table_of(name, about) for name, _ in places]
    return [held(draw, zone, about) for zone in found] if kind == "held" else found, about


def held(draw, zone, about):
    """The table over the backend that holds little: some days about a second, or much more."""
    ends = [HOUR, 2 * HOUR, DAY, 2 * DAY, 4 * DAY, 40 * DAY, 4_000 * DAY]
    span = [about - draw.choice(ends), about + draw.choice(ends)]
    return Zone({**zone.member, "held": span}, zone.clock, held=span)


class List:
    """A list of calls as it comes about: each is drawn, and answered. What may wait for searches is a generator."""

    def __init__(self, draw, searches, kind, length):
        self.draw, self.length = draw, length
        self.zones, self.about = drawn_zones(draw, kind)
        self.patterns = drawn_patterns(draw, self.about, 1 if length < 30 else draw.randint(1, 3))
        self.refusals = [draw.choice(REFUSALS) if kind == "held" else 0 for _ in self.patterns]
        self.first_id = LAST_ID - draw.randint(0, 9) if draw.random() < 0.05 else draw.choice([0, 0, 0, 7])
        self.model = Model(searches, self.patterns, self.refusals, self.zones, self.first_id)
        self.now = self.about - draw.randint(0, 4) * DAY - draw.choice([0, 1, 60, HOUR, 7 * HOUR])
        self.calls, self.answers, self.out = [], [], []

    def call(self, name, *given):
        answer = getattr(self.model, name)(*given)
        if inspect.isgenerator(answer):
            answer = yield from answer
        self.calls.append([name, *given])
        self.answers.append(answer)
        return answer

    def key(self):
        """An id, mostly of a job that is there."""
        draw, there = self.draw, sorted(self.model.jobs)
        return draw.choice(there) if there and draw.random() < 0.9 else min(self.first_id + draw.randint(0, 12), LAST_ID)

    def position(self, pattern, zone):
        """A second about the time of the list; for a job that seldom runs also far behind it. Of what is held mostly one that is."""
        draw, often = self.draw, self.patterns[pattern] in OFTEN
        near = self.now + draw.choice([0, 0, -1, 1, -HOUR, HOUR, -DAY, DAY, draw.randint(-DAY, DAY)])
        second = near if often or draw.random() < 0.6 else near - draw.randint(1, 450) * DAY
        span = self.zones[zone].held
        if span is None or draw.random() < 0.1:
            return second
        first, last = (max(span[0], near - 3 * DAY), min(span[1], near + 3 * DAY)) if often else span
        second = draw.choice([second, draw.randint(min(first, last), last), first, last, last - draw.randint(0, 3 * DAY)])
        return min(max(second, span[0]), span[1])

    def job(self):
        pattern, zone = self.draw.randrange(len(self.patterns)), self.draw.randrange(len(self.zones))
        return pattern, zone, self.position(pattern, zone)

    def move_on(self):
        """The time that the next call is told: later, at a run, just before one, or earlier."""
        draw, wake_up = self.draw, self.model.next_wake_up()
        if draw.random() < 0.15 and wake_up is not None:
            self.now = max(wake_up - draw.choice([0, 0, 1]), self.now - DAY)
        elif draw.random() < 0.1:
            self.now -= draw.choice([1, 60, HOUR, DAY])
        else:
            self.now += draw.choice([0, 1, 59, 60, 600, HOUR, 2 * HOUR, 5 * HOUR, 12 * HOUR, draw.randint(0, DAY)])

    def take(self):
        self.move_on()
        yield from self.call("take_due", self.now, self.draw.choice([1, 1, 2, 5, 30, 1_000]))

    def take_latest(self):
        if self.draw.random() < 0.5:
            self.move_on()
        yield from self.call("take_latest_due", self.key(), self.now)

    def remove(self):
        key = self.key()
        job = self.model.jobs.get(key)
        if (yield from self.call("remove", key)) is not None:
            self.out.append((self.patterns.index(job.text), self.zones.index(job.zone), job.position))

    def take_apart(self):
        """As at a restart: all jobs are taken out and most added again where they stood."""
        out = {key: (self.patterns.index(job.text), self.zones.index(job.zone), job.position) for key, job in self.model.jobs.items()}
        yield from self.call("into_jobs")
        for key in sorted(out):
            if self.draw.random() < 0.9:
                yield from self.call("add", *out[key])

    def sleep(self):
        yield from self.call("pause_until", self.now + self.draw.choice([0, 0, -HOUR, 1, HOUR]), self.draw.choice([0, 60, HOUR, DAY, 2**64 - 1]))

    def put_back(self):
        if self.out:
            yield from self.call("add", *self.out.pop())

    def skip(self):
        draw, key = self.draw, self.key()
        near = self.now + draw.choice([0, 0, 0, -DAY, DAY, draw.randint(-DAY, 2 * DAY)])
        job = self.model.jobs.get(key)
        if job is not None and job.zone.held is not None and draw.random() < 0.4:
            near = draw.randint(*job.zone.held)
        yield from self.call("skip_to", key, near)

    def skip_all(self):
        """To the time, to an earlier one, or some hours ahead; where little is held also to a second of what is."""
        draw = self.draw
        near = self.now + draw.choice([0, 0, 0, -HOUR, -DAY, draw.randint(0, 8 * HOUR)])
        spans = [zone.held for zone in self.zones if zone.held is not None]
        if spans and draw.random() < 0.3:
            near = draw.choice(draw.choice(spans)) + draw.choice([0, 0, -1, 1])
            near = min(near, self.now + DAY)
        yield from self.call("skip_all_to", near)

    def ask_again(self):
        """Of a job that is stopped mostly, where there is one."""
        draw, stopped = self.draw, [key for key, _ in self.model.stopped()]
        yield from self.call("ask_again", draw.choice(stopped) if stopped and draw.random() < 0.8 else self.key())

    def pause(self):
        yield from self.call("pause", self.key())

    def resume(self):
        """Of a paused job mostly, where there is one: from the time on, from an earlier or a later one, or from an end of what is held."""
        draw, model_jobs = self.draw, self.model.jobs
        paused = [key for key in sorted(model_jobs) if model_jobs[key].next == "Paused"]
        key = draw.choice(paused) if paused and draw.random() < 0.9 else self.key()
        near = self.now + draw.choice([0, 0, -HOUR, -DAY, HOUR, draw.randint(-DAY, DAY)])
        job = model_jobs.get(key)
        if job is not None and job.zone.held is not None and draw.random() < 0.3:
            near = draw.choice(job.zone.held) + draw.choice([0, 0, -1, 1])
        yield from self.call("resume", key, near)

    def look(self):
        yield from self.call("standings")
        yield from self.call("stopped")
        yield from self.call("stopped_len")

    def draw_calls(self):
        draw = self.draw
        for _ in range(draw.randint(2, 5)):
            yield from self.call("add", *self.job())
        acts = [self.take] * 10 + [lambda: self.call("add", *self.job())] * 2 + [self.remove, self.put_back, self.skip]
        acts += [lambda: self.call("replace", self.key(), *self.job()), self.ask_again]
        acts += [lambda: self.call("replace_job", self.key(), draw.randrange(len(self.patterns))), self.sleep]
        acts += [lambda: self.call("add_from", *self.job()), self.take_latest]
        acts += [lambda: self.call("next_wake_up")] * 2 + [self.look, self.skip_all, self.pause] + [self.resume] * 2
        for _ in range(self.length):
            yield from (self.take_apart() if draw.random() < 0.01 else draw.choice(acts)())
        yield from self.call("take_due", self.now, 30 if self.length < 30 else 3_000)
        yield from self.look()

    def line(self):
        patterns = [{"text": text, "refusals": refusals} if refusals else {"text": text} for text, refusals in zip(self.patterns, self.refusals)]
        question = {"op": "scheduler", "zones": [zone.member for zone in self.zones], "patterns": patterns}
        if self.first_id != 0:
            question["first_id"] = self.first_id
        return {**question, "calls": self.calls, "want": self.answers}

    def runs(self):
        """How many runs were given."""
        given = [answer for call, answer in zip(self.calls, self.answers) if call[0] == "take_due"]
        latest = [answer for call, answer in zip(self.calls, self.answers) if call[0] == "take_latest_due" and not isinstance(answer, str)]
        return sum(map(len, given)) + len(latest)


KINDS = ["tables", "tables", "tables", "rules", "rules", "held", "held", "held", "civil"]


def drawn_list(draw, searches, is_short):
    """A list before its calls, and its kind."""
    kind = draw.choice(["tables", "tables", "civil"] if is_short else KINDS)
    return kind, List(draw, searches, kind, draw.randint(4, 16) if is_short else draw.randint(30, 90))


def lists(seed, count, is_short):
    """The lists with their kinds. Each goes on until it waits for searches; then the program is asked for those of all."""
    searches = Searches()
    drawn = [drawn_list(random.Random(f"{seed} {number}"), searches, is_short) for number in range(count)]
    left = [one.draw_calls() for _, one in drawn]
    while left:
        left = [calls for calls in left if next(calls, "ended") != "ended"]
        if left:
            searches.ask()
    return drawn


def main(words):
    if len(words) not in (2, 3) or words[2:] not in ([], ["short"]):
        sys.exit(__doc__)
    drawn = lists(int(words[0]), int(words[1]), bool(words[2:]))
    for _, one in drawn:
        print(json.dumps(one.line(), separators=(",", ":")))
    kinds = {kind: sum(each == kind for each, _ in drawn) for kind in sorted(set(KINDS))}
    calls, runs = sum(len(one.calls) for _, one in drawn), sum(one.runs() for _, one in drawn)
    print(f"{len(drawn)} lists ({kinds}) with {calls} calls and {runs} runs", file=sys.stderr)


if __name__ == "__main__":
    main(sys.argv[1:])
