"""The parts of a plan's page beside the model: what stands below each heading, from docs/PLANNING.md and docs/FORMATS.md.

Each part is read off the page's elements (plan_readers.py) and compared with what it is to be, worked out from the plan (plan_model.py); the
words for the times of a job, and what is found of a line, are handed in with the case.
"""
import re

import plan_readers
import plan_texts
from plan_model import DAY, OUTSIDE, SKIPPED, shown

MOST_MARKS = 200
# What may stand after a warning of two day fields, which isn't compared.
DATES = re.compile(r" In \d{4}-\d\d the day of the month names .*, and the weekday .*\.$")


def page_of(tally, what, data):
    try:
        page = plan_readers.page_of(data)
        faults = plan_readers.faults_of_page(page)
    except plan_readers.Fault as fault:
        tally.take(what, str(fault), "a page")
        return None
    tally.take(what, faults, [])
    return page


def plain(text):
    return " ".join(text.split())


class Sections:
    """What stands on a page, by its headings; sections and what lets a table be moved are left away."""

    def __init__(self, page):
        self.top, self.parts, self.page = [], {}, page
        self.take(page.one("main"), self.top)

    def take(self, element, now):
        for inside in element.elements():
            if inside.name == "h2":
                now = self.parts.setdefault(plain(inside.text()), [])
            elif inside.name in ("section", "div"):
                now = self.take(inside, now)
            else:
                now.append(inside)
        return now

    def named(self, name):
        return self.parts.get(name, [])

    def lines(self, name):
        """The lines of a section's lists, or what stands in place of one."""
        found = [it for element in self.named(name) for it in element.all("li")]
        return [plain(it.text()) for it in found or [it for it in self.named(name) if it.name == "p"]]

    def rows(self, name):
        return [row.elements() for element in self.named(name) for row in element.all("tr")][1:]


def times_after(count):
    return f" ({count} times)" if count > 1 else ""


def judge(tally, what, case, plan, page):
    sections = Sections(page)
    for each in (judge_top, judge_quiet, judge_fullest, judge_table, judge_lines_of_time, judge_days, judge_jobs):
        each(tally, what, case, plan, sections)


def judge_top(tally, what, case, plan, sections):
    jobs, starts = plan_texts.many(len(plan.jobs), "job"), plan_texts.many(plan.count())
    span = f"{plan_texts.both_text(plan, plan.first)} to {plan_texts.both_text(plan, plan.end)}, on the clock of {case.zone}{beside_words(plan)}"
    tally.take(f"{what}: first lines", [plain(it.text()) for it in sections.top if it.name == "p"][:1], [f"{span}: {jobs}, with {starts} shown."])
    wanted = [f"{shown(plan.jobs[place].title)} {plan_texts.many(count)}" for place, count in plan.left_out]
    tally.take(f"{what}: left out", sections.lines("Not shown, since they start too often"), list(map(plain, wanted)))
    tally.take(f"{what}: ignored", sections.lines("Read this first"), ignored_lines(case))


def beside_words(plan):
    return f", and after = on that of {plan.beside.zone}" if plan.beside else ""


def ignored_lines(case):
    """What is wrong in lines that have no job in the plan, that a job starts with the machine, and which files cron ignores."""
    lines, files = case.described()
    jobs, found = {(job.file, job.line) for job in case.files.jobs}, []
    for name in case.names:
        for (file, line), told in sorted(lines.items()):
            if file == name and (file, line) not in jobs:
                grave = [it["text"] for it in told["findings"] if it["severity"] != "note"]
                if told["kind"] == "job" and told["job"]["times"]["when"] == "reboot":
                    grave.append("starts as the machine does: it has no time in a plan")
                found += [plain(f"{file}:{line} {text}") for text in grave]
        whole = [plain(f"{name}: {it['text']}{name_after(it)}") for told in files if told["file"] == name for it in told["findings"]]
        has_jobs = any(job.file == name for job in case.files.jobs)
        found += whole + (["its jobs are in this plan, as cron would start them once that is mended"] if whole and has_jobs else [])
    return found


def name_after(finding):
    """The name of a warning for which cron ignores a file, as a page has it after the text."""
    return f" ({finding['name']})" if finding.get("name") in ("no-newline", "many-lines") else ""


def judge_quiet(tally, what, case, plan, sections):
    wanted = []
    for begin, end, length, is_open in plan.windows(1)[:5]:
        told = f"{plan_texts.both_text(plan, begin)} to {plan_texts.both_text(plan, end)} {plan_texts.length_text(length)}"
        wanted.append(told + (", or longer" if is_open else ""))
    none = ["None of the jobs shown starts in between.", "There is none."]
    tally.take(f"{what}: quiet windows", sections.lines("Longest quiet windows"), wanted or none)


def judge_fullest(tally, what, case, plan, sections):
    started, wanted = dict(plan.moments()), []
    for second, count in plan.fullest(5):
        jobs = ", ".join(shown(plan.jobs[place].title) + times_after(times) for place, times in started[second])
        wanted.append(plain(f"{plan_texts.both_text(plan, second)} {plan_texts.many(count)}, {jobs}"))
    tally.take(f"{what}: fullest moments", sections.lines("Fullest moments"), wanted or ["None of the jobs shown starts."])


def judge_table(tally, what, case, plan, sections):
    """A row a date: its hours with how many starts they have and how dark they are, the sum, and the fullest moment."""
    rows, wanted = [], []
    for row in sections.rows("Starts by hour"):
        hours = [(plain(cell.text()), " ".join(sorted(cell.attributes.get("class", "").split()))) for cell in row[1:25]]
        rows.append([plain(row[0].text()), hours, [plain(cell.text()) for cell in row[25:]]])
    for number in plan.dates():
        hours, fullest = plan.hours_of_date(number), plan.fullest_of_date(number)
        cells = [cell_of(count, plan.is_shown_twice(number, hour)) for hour, count in enumerate(hours)]
        told = f"{fullest[1]} at {plan_texts.clock_text(plan.wall(fullest[0]))}" if fullest else ""
        wanted.append([f"{plan_texts.weekday(number)} {plan_texts.date_text(number)}", cells, [str(plan.starts_on(number)), told]])
    tally.take(f"{what}: starts by hour", rows, wanted)
    head = [plain(cell.text()) for element in sections.named("Starts by hour") for cell in element.all("th") if cell.attributes.get("scope") == "col"]
    tally.take(f"{what}: hours of the table", head[:24], [f"{hour:02}" for hour in range(24)])
    changes = [it for it in sections.lines("Starts by hour") if " follows " in it]
    tally.take(f"{what}: changes of the clock", changes, [change_text(plan, change) for change in plan.changes()])


def cell_of(count, is_twice):
    if count in (SKIPPED, OUTSIDE):
        return count, "x"
    return str(count) if count else "", " ".join([f"s{plan_texts.step_of(count)}"] + (["t"] if is_twice else []))


def change_text(plan, change):
    second, before, after, _ = change
    fate = "is skipped" if before < after else "is shown twice"
    shown_then, shown_before = plan_texts.time_text(plan, second), plan_texts.time_text(plan, second - 1)
    return f"{shown_then} follows {shown_before}: {plan_texts.length_text(abs(after - before))} {fate}"


def judge_lines_of_time(tally, what, case, plan, sections):
    """A picture for each job that is shown: its title, the words, and a mark for each start and each change of the clock."""
    pictures, wanted, left_out = [], [], dict(plan.left_out)
    for figure in (it for it in sections.named("Each job along the days") if it.name == "figure"):
        picture = figure.one("svg")
        texts = [plain(it.text()) for it in picture.elements() if it.name in ("title", "desc")]
        marks = [(rect.attributes["class"], int(rect.attributes["x"]), plain(rect.text())) for rect in picture.all("rect")]
        pictures.append([plain(figure.one("figcaption").text()), texts, sorted(marks)])
    for place, job in enumerate(plan.jobs):
        if place not in left_out:
            title, meaning = plain(shown(job.title)), plain(case.meanings()[place])
            wanted.append([plain(f"{title} {meaning}"), [title, meaning], sorted(marks_of(plan, place))])
    tally.take(f"{what}: lines of time", pictures, wanted)


def marks_of(plan, place):
    at = lambda second: (second - plan.first) * 1000 // (plan.end - plan.first)
    found = [("a", 0, "")] + [("h", at(change[0]), change_text(plan, change)) for change in plan.changes()]
    starts = plan.starts_of_job(place)
    if sum(count for _, count in starts) > MOST_MARKS:
        return found + [("b", 0, plan_texts.many(sum(count for _, count in starts)))]
    return found + [("m", at(second), plan_texts.both_text(plan, second) + times_after(count)) for second, count in starts]


def judge_days(tally, what, case, plan, sections):
    days, wanted = [], []
    for day in (it for it in sections.named("Day by day") if it.name == "details"):
        days.append([plain(day.one("summary").text()), [plain(it.text()) for it in day.all("li")]])
    for number in plan.dates():
        starts = [it for it in plan.starts if plan.wall(it[0]) // DAY == number]
        name = f"{plan_texts.weekday(number)} {plan_texts.date_text(number)}, {plan_texts.many(sum(count for _, _, count in starts))}"
        lines = [f"{plan_texts.both_text(plan, second)} {shown(plan.jobs[place].title)}{times_after(count)}" for second, place, count in starts]
        wanted.append([name, list(map(plain, lines))])
    tally.take(f"{what}: days", days, wanted)


def judge_jobs(tally, what, case, plan, sections):
    """The table of the jobs: title, words, line, starts, the next three, and what to beware of."""
    rows, wanted, left_out = [], [], dict(plan.left_out)
    for row in sections.rows("Jobs"):
        following, warned = [[plain(it.text()) for it in cell.all("li") or cell.all("p")] for cell in row[4:]]
        rows.append([plain(cell.text()) for cell in row[:4]] + [following, [DATES.sub("", it) for it in warned]])
    lines, _ = case.described()
    for place, job in enumerate(plan.jobs):
        starts = plan.starts_of_job(place)
        following = [plan_texts.both_text(plan, second) + times_after(count) for second, count in starts[:3]] or ["Nothing starts."]
        warned = [it for it in lines[job.file, job.line]["findings"] if it["severity"] == "warning"]
        warned = [DATES.sub("", plain(f"{it['name']} {it['text']}")) for it in warned]
        count = left_out.get(place, sum(count for _, count in starts))
        told = [shown(job.title), case.meanings()[place], job.label, str(count)]
        wanted.append([*map(plain, told), ["It starts too often."] if place in left_out else following, warned or ["None."]])
    tally.take(f"{what}: jobs", rows, wanted)
