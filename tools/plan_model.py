"""What a plan of crontabs is: a slow model that shares nothing with the library.

What the lines of a crontab are, and when cron starts a job, it has from crontab_model.py: byte by byte by cron's own reader, and by
cron's main loop. All else is said here from docs/PLANNING.md, over lists of seconds: what a job is
called; its starts in a span; moments, windows, sets of jobs, hours and dates. A start is the second at which cron starts a job, the
job's place among those of the plan, and how many times. Seconds are counted from 1970-01-01T00:00:00 UTC, and wall seconds as if the
zone's clock were UTC's. A span has a first second, and an end, which isn't in it.
"""
import copy
import datetime
import functools
import re
import unicodedata
import zoneinfo

import crontab_model

DAY, HOUR = 86_400, 3_600
MOST_STARTS = 100_000
SKIPPED, OUTSIDE = "x", "-"
ALLOWS = re.compile(rb"[ \t]*#[ \t]*croncheck:[ \t]+allow(?![^ \t])")


# ---- jobs


class Job:
    """A job of a plan: what its line is, and what it is called."""

    def __init__(self, file, line, cron, above):
        self.file, self.line, self.cron = file, line, cron
        self.label = f"{file}:{line}"
        self.has_comment, self.program = bool(above), title_of_command(cron.command) or cron.schedule
        self.title = above or stem_of(file) or self.program
        self.times, self.command = cron.schedule, cron.command
        self.user = cron.user if re.fullmatch(rb"(?!-)[A-Za-z0-9_.@\\-]{1,32}", cron.user or b"") else None

    def key(self):
        """What tells it from a job that does something else, or at other times."""
        return self.user, self.times, self.command


class Files:
    """The files of a call: their jobs, the other lines that a report tells of, and the files that cron ignores as a whole."""

    def __init__(self, contents, is_system):
        self.jobs, self.apart, self.ignored, self.counts = [], [], [], [0, 0]
        for name, data in contents:
            self.take(name, data, is_system)

    def take(self, name, data, is_system):
        above, refused, lines, first = [], 0, crontab_model.lines_of(data), len(self.jobs)
        for number, (text, _) in enumerate(lines, 1):
            kind, what = crontab_model.line_of(text, is_system)
            if kind == "job" and has_times(what):
                self.jobs.append(Job(name, number, what, title_of_comment(above[0]) if len(above) == 1 else b""))
            elif kind in ("job", "refused") or kind == "setting" and warnings_of(text, is_system):
                self.apart.append((name, number))
            refused += kind == "refused"
            self.counts[0] += kind == "job"
            if kind != "comment":
                above = []
            elif not ALLOWS.match(text) and text_of_comment(text):
                above.append(text)
        for job in self.jobs[first:]:
            if not job.has_comment and stem_of(name) and len(self.jobs) > first + 1:
                job.title = stem_of(name) + b": " + job.program
        self.counts[1] += refused
        is_unfed = bool(lines) and not lines[-1][1] and crontab_model.line_of(lines[-1][0], is_system)[0] not in ("blank", "comment")
        self.ignored += [name] if refused or is_unfed else []


def has_times(cron):
    """Whether a job has a time at all: it doesn't start with the machine, and each of its fields names something."""
    if cron.fields is None or not (cron.minutes.values and cron.hours.values and cron.months.values):
        return False
    days = bool(cron.days.values), bool(cron.weekdays.values)
    return all(days) if cron.needs_both else any(days)


def warnings_of(text, is_system):
    """What a report has of a setting."""
    return crontab_model.warnings_of_line(text, True, is_system, "UTC0", 0)


def stem_of(file):
    """The name of a file in a folder cron.d, if cron takes it."""
    found = re.fullmatch(r"(?:.*/)?cron\.d/([A-Za-z0-9_-]+)", file, re.DOTALL)
    return found[1].encode() if found else b""


def text_of_comment(text):
    return text.lstrip(b" \t").lstrip(b"#").rstrip(b" \t\r\v\f").strip(b" \t")


def title_of_comment(text):
    """The title of a comment that is the only one above a job."""
    title = text_of_comment(text)
    names_fields = re.split(rb"[ \t]+", title)[:2] == [b"m", b"h"]
    return b"" if may_be_line(title) or names_fields or len(re.findall(rb"[^\x80-\xbf]", title)) > MOST_SIGNS else title


def may_be_line(text):
    """Whether a text may be a line that was taken out, which may hold a password."""
    words = re.split(rb"[ \t]+", text)
    return (
        crontab_model.is_setting(text) or begins_as_job(text) or bool(SETS.search(text)) or any(re.match(rb"-p(?s:.)", it) for it in words)
        or any(is_nickname(it) for it in words) or any(are_fields(words[at:at + 5]) for at in range(len(words)))
    )


# `=` behind a name; or alone behind a name and blanks, with something behind it
SETS = re.compile(rb"[A-Za-z0-9_](?:=|[ \t]+=(?!=)[ \t]*[^ \t])")
NUMBER = re.compile(rb"[0-9*]")
MOST_SIGNS = 60


def is_nickname(word):
    name = word.partition(b"@")[2]
    return name.lower() in (*crontab_model.NICKNAMES, b"reboot") or name == b"every"


def are_fields(words):
    """Whether words are the five fields of a job, of which the first may end a word of another kind."""
    if len(words) < 5 or not NUMBER.search(words[0]):
        return False
    months, weekdays = (rb"(?i)(?:[0-9*]|(?:%s)(?![A-Za-z0-9/-])|(?:%s)-(?:%s)(?![A-Za-z0-9/]))" % ((names.encode(),) * 3) for names in (MONTH_NAMES, DAY_NAMES))
    return all(NUMBER.match(it) for it in words[1:3]) and bool(re.match(months, words[3])) and bool(re.match(weekdays, words[4]))


MONTH_NAMES = "jan|feb|mar|apr|may|jun|jul|aug|sep|oct|nov|dec"
DAY_NAMES = "sun|mon|tue|wed|thu|fri|sat"


def begins_as_job(text):
    """Whether its first word may be the minutes of a job, or is a nickname."""
    word = re.split(rb"[ \t]", text)[0]
    return text.startswith(b"@") or word == b"*" or bool(re.fullmatch(rb"[0-9*,/-]*[0-9][0-9*,/-]*", word))


GUARDS = (b"cd", b"test", b"[", b"[[", b"which", b"command", b"exit", b"sleep")
OPENINGS = (b"if", b"then", b"{", b"(", b"!")
# what stands in quotes, or behind a backslash, or is one byte of a command; then what ends it
COMMAND = re.compile(rb"(?:\\(?s:.)|'[^']*'|\"(?:\\(?s:.)|[^\"\\])*\"|`(?:\\(?s:.)|[^`\\])*`|(?!;|&&|\|\|)[^'\"`\\])*(?:;|&&|\|\|)[ \t;&|]*")
RUNNERS = (b"run-parts", b"php", b"python", b"perl", b"sh", b"bash", b"dash")


def word_of(text):
    return re.match(rb"[^ \t;&|<>()%]*", text)[0]


def program_of(text):
    """A command from its program on."""
    while True:
        word = re.split(rb"[ \t]", text)[0]
        if word in OPENINGS or re.fullmatch(rb"[A-Za-z0-9_]+=[^'\"\\`$(){}]*", word):
            text = text[len(word):].lstrip(b" \t")
            continue
        ended = COMMAND.match(text) if word in GUARDS else None
        if not ended or ended.end() == len(text):
            return text
        text = text[ended.end():]


def path_of(text):
    """The path of a program, or of what it runs."""
    word = word_of(text)
    if name_in(word).rstrip(b"0123456789.") not in RUNNERS:
        return word
    words = re.split(rb"[ \t]+", text)[1:]
    while words and re.fullmatch(rb"-[^'\"\\`$(){}]*", words[0]):
        del words[0]
    file = word_of(words[0]) if words else b""
    return file if re.fullmatch(rb"[^'\"\\`$(){}=]*", file) and re.search(rb"[/.]", file) else word


def name_in(path):
    return path.rpartition(b"/")[2] or path


def title_of_command(command):
    """What the program of a command is called; nothing where its word has an equals sign."""
    path = path_of(program_of(command.strip(b" \t")))
    return b"" if b"=" in path else name_in(path)


# ---- bytes as they are shown


def is_unseen(character):
    """Whether a terminal acts on a character, or nobody sees it, or it turns the order of others."""
    return unicodedata.category(character) in ("Cc", "Cf", "Zl", "Zp")


def shown_character(character, tab):
    if 0xDC80 <= ord(character) <= 0xDCFF:
        return f"\\x{ord(character) - 0xDC00:02X}"
    named = {"\n": "\\n", "\r": "\\r", "\t": tab}
    return named.get(character) or (f"\\u{{{ord(character):x}}}" if is_unseen(character) else character)


def shown(data, tab=" "):
    """Bytes of a file as they are shown."""
    return "".join(shown_character(it, tab) for it in data.decode("utf-8", "surrogateescape"))


def front(data, most=40):
    """The first bytes, no character cut, and two dots where there are more."""
    if len(data) <= most:
        return shown(data)
    cut = most
    while cut and data[cut] & 0xC0 == 0x80:
        cut -= 1
    return shown(data[:cut]) + ".."


# ---- clocks


def second_of(word, zone):
    """The second at which the zone's clock shows a date and time, of two the earlier, and of a date its first."""
    return int(datetime.datetime.fromisoformat(word).replace(tzinfo=zoneinfo.ZoneInfo(zone)).timestamp())


def is_date(word):
    return "T" not in word


def next_date(word, days=1):
    return (datetime.date.fromisoformat(word) + datetime.timedelta(days)).isoformat()


def span_of(zone, start, until=None):
    """The span of two words of a call. A date counts whole; another moment is the last second before the span, or in it."""
    first = second_of(start, zone) + (1 if start.startswith("@") else 0)
    if until is None:
        return first, second_of(next_date(start.partition("T")[0], 7), zone)
    return first, second_of(next_date(until), zone) if is_date(until) else second_of(until, zone) + 1


FOUND = {}


def starts_of(job, zone, first, end):
    """When cron starts a job in a span: seconds, and how many times. What was found of a longer span is taken up."""
    found = FOUND.setdefault((job.times, zone), [])
    for since, until, starts in found:
        if since <= first and end <= until:
            return [start for start in starts if first <= start[0] < end]
    clock = crontab_model.Clock(zone, first - 1, end)
    starts = crontab_model.starts_of(job.cron, clock.spans, first - 1, end - 1)
    found.append((first, end, starts))
    return starts


DROPPED = {}


def change_that_drops(job, zone, start):
    """The second of the first change after a start that skips a second of a job, where that is told: cron doesn't start it there, and it
    isn't due within three hours beside it. Nothing of a job with all hours, or of a change of half a day or more."""
    key = job.times, zone, start
    if key not in DROPPED:
        DROPPED[key] = first_that_drops(crontab_model.Times(job.cron, {}, False), zone, start)
    return DROPPED[key]


def first_that_drops(times, zone, start):
    if len(times.hours) == 24:
        return None
    for instant, before, after in crontab_model.Clock(zone, start, start + crontab_model.WATCHED).changes():
        if before < after and start < instant <= start + crontab_model.WATCHED and times.second_in(before, after) is not None:
            return instant if crontab_model.warnings_of_change(times, "gap", instant, before, after, times.second_in(before, after)) else None
    return None


# ---- plans


class Plan:
    """The starts of jobs in a span, those at one second by the places of their jobs; and what is left out of it."""

    def __init__(self, jobs, zone, first, end, most_a_day=12):
        self.jobs, self.zone, self.first, self.end = jobs, zone, first, end
        self.clock = crontab_model.Clock(zone, first - 1, end)
        self.starts, self.left_out = [], []
        self.beside = None
        self.is_own = True
        for place, job in enumerate(jobs):
            found = starts_of(job, zone, first, end)
            if most_a_day is not None and self.most_on_a_date(found) > most_a_day:
                self.left_out.append((place, min(sum(count for _, count in found), MOST_STARTS + 1)))
            else:
                self.starts += [(second, place, count) for second, count in found]
        self.starts.sort()
        self.shows_all = not self.left_out
        self.is_cut = len(self.starts) > MOST_STARTS
        if self.is_cut:
            self.end = self.starts[MOST_STARTS][0]
            self.starts = [start for start in self.starts if start[0] < self.end]

    def on_clock(self, zone):
        """The same starts on the clock of another zone."""
        other = copy.copy(self)
        other.zone, other.clock = zone, crontab_model.Clock(zone, self.first - 1, self.end)
        other.is_own = False
        return other

    def beside_clock(self, zone):
        """The same plan with the clock of another zone beside its own."""
        other = copy.copy(self)
        other.beside = self.on_clock(zone)
        return other

    def dropped_at(self, second):
        """The places of the jobs that lack a start at a change of the clock, which is put forward there: on the clock of their own zone alone."""
        start = self.first - 1
        return [place for place, job in enumerate(self.jobs) if self.is_own and change_that_drops(job, self.zone, start) == second]

    def most_on_a_date(self, found):
        counts = {}
        for second, count in found:
            date = self.wall(second) // DAY
            counts[date] = counts.get(date, 0) + count
        return max(counts.values(), default=0)

    def wall(self, second):
        return self.clock.reads(second)

    def ahead(self, second):
        return self.clock.offset_at(second)

    def count(self):
        return sum(count for _, _, count in self.starts)

    def starts_of_job(self, place):
        return [(second, count) for second, other, count in self.starts if other == place]

    @functools.lru_cache(maxsize=None)
    def moments(self):
        """Each second at which something starts, with the jobs and how many times each is started."""
        found = {}
        for second, place, count in self.starts:
            found.setdefault(second, []).append((place, count))
        return sorted(found.items())

    def fullest(self, most):
        """Seconds with their number of starts."""
        counted = [(second, sum(count for _, count in started)) for second, started in self.moments()]
        return sorted(counted, key=lambda it: (-it[1], it[0]))[:most]

    def starts_on(self, date):
        """How many starts there are on a date."""
        return sum(count for count in self.hours_of_date(date) if count not in (SKIPPED, OUTSIDE))

    def hours(self):
        """How many starts come in each hour of the day."""
        found = [0] * 24
        for second, _, count in self.starts:
            found[self.wall(second) % DAY // HOUR] += count
        return found

    def windows(self, least):
        """From when to when nothing starts, how many seconds that is, and whether it may be longer."""
        sides = [self.first] + [second for second, _ in self.moments()] + [self.end]
        pairs = list(zip(sides, sides[1:]))
        found = [(a, b, b - a, at in (0, len(pairs) - 1)) for at, (a, b) in enumerate(pairs) if b - a >= max(least, 1)]
        return sorted(found, key=lambda it: (-it[2], it[0]))

    def sets(self):
        """Places of two jobs or more, the number of moments at which just these start, and the first of them."""
        found = {}
        for second, started in self.moments():
            if len(started) > 1:
                found.setdefault(tuple(place for place, _ in started), []).append(second)
        return sorted(((places, len(seconds), seconds[0]) for places, seconds in found.items()), key=lambda it: (-it[1], it[2]))

    def dates(self):
        """The dates of the span, as numbers of days from 1970-01-01."""
        return range(self.wall(self.first) // DAY, self.wall(self.end - 1) // DAY + 1)

    def whole_dates(self):
        """Those of which no second lies outside the span."""
        return range(self.wall(self.first - 1) // DAY + 1, self.wall(self.end) // DAY)

    @functools.lru_cache(maxsize=None)
    def hours_of_date(self, date):
        """How many starts there are in each hour of a date. Where the clock doesn't show it in the span, it is SKIPPED or OUTSIDE."""
        found = [self.none_in(date * DAY + hour * HOUR) for hour in range(24)]
        for second, _, count in self.starts:
            if self.wall(second) // DAY == date:
                found[self.wall(second) % DAY // HOUR] += count
        return found

    def none_in(self, begin):
        """No start in an hour; or what is said of one that the clock doesn't show in the span."""
        if any(self.wall(first) < begin + HOUR and begin <= self.wall(end - 1) for first, end in self.stretches()):
            return 0
        return SKIPPED if any(before <= begin and begin + HOUR <= after for _, before, after, _ in self.changes()) else OUTSIDE

    def stretches(self):
        """The span, cut where the clock changes."""
        cuts = sorted({self.first, self.end, *(second for second, *_ in self.changes())})
        return list(zip(cuts, cuts[1:]))

    def times_shown(self, begin):
        """How many times the clock shows the minutes of an hour, of those that it shows."""
        tried = [[self.wall(wall - offset) == wall for offset in self.clock.offsets] for wall in range(begin, begin + HOUR, 60)]
        return {sum(shown) for shown in tried if any(shown)}

    def is_shown_twice(self, date, hour):
        return 2 in self.times_shown(date * DAY + hour * HOUR)

    def fullest_of_date(self, date):
        on_it = [it for it in self.fullest(None) if self.wall(it[0]) // DAY == date]
        return on_it[0] if on_it else None

    def changes(self):
        """The changes of the clock in the span: the second, the wall second that would follow, the one that is shown, and the starts then."""
        inside = [it for it in self.clock.changes() if self.first <= it[0] < self.end]
        return [(*it, sum(count for second, _, count in self.starts if second == it[0])) for it in inside]

    def jobs_of_date(self, date):
        """The places of the jobs that start on a date, in the order of their first starts there."""
        return list(dict.fromkeys(place for second, place, _ in self.starts if self.wall(second) // DAY == date))

    def daily_jobs(self):
        """The places of the jobs that start on each whole date, where there are two such dates or more, in the order of their first starts."""
        dates = self.whole_dates()
        if len(dates) < 2:
            return []
        jobs = {date: self.jobs_of_date(date) for date in dates}
        return [place for place in dict.fromkeys(place for _, place, _ in self.starts) if all(place in jobs[date] for date in dates)]
