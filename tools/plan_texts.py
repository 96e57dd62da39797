"""The texts of a plan, from docs/PLANNING.md and its examples: the list, and what is answered to --week,
--month, --quiet, --busy and --together. Each is a list of blocks, between which an empty line stands, and a block is a list of lines.
"""
import model
from plan_model import DAY, HOUR, OUTSIDE, SKIPPED, front, shown

WEEKDAYS = ["Sun", "Mon", "Tue", "Wed", "Thu", "Fri", "Sat"]
MONTHS = [
    "January", "February", "March", "April", "May", "June", "July", "August", "September", "October", "November", "December",
]
STEPS = [0, 1, 2, 4, 8, 16, 32, 64, 128]
DIGITS, BLOCKS = ".12345678", "·▁▂▃▄▅▆▇█"
HOURS = "            0     3     6     9     12    15    18    21    starts, fullest"
RULE = "+----------" * 7 + "+"
CELL, TITLES = 10, 3


def many(count, name="start"):
    return f"{count} {name}" + ("" if count == 1 else "s")


# ---- times


def offset_text(seconds):
    sign, seconds = "-" if seconds < 0 else "+", abs(seconds)
    return f"{sign}{seconds // 3600:02}:{seconds // 60 % 60:02}" + (f":{seconds % 60:02}" if seconds % 60 else "")


def date_text(number):
    return "{:04}-{:02}-{:02}".format(*model.date_at(number))


def clock_text(wall):
    return f"{wall % DAY // HOUR:02}:{wall // 60 % 60:02}"


def weekday(number):
    return WEEKDAYS[model.weekday_of(number)]


def time_text(plan, second):
    wall = plan.wall(second)
    return f"{weekday(wall // DAY)} {date_text(wall // DAY)} {clock_text(wall)}:{wall % 60:02} {offset_text(plan.ahead(second))}"


def both_text(plan, second):
    """The same, and after it what the clock of a second zone shows, where one is shown."""
    beside = f" = {time_text(plan.beside, second)}" if plan.beside else ""
    return time_text(plan, second) + beside


def date_name(number):
    """A date without its year, as `Sun 28 Mar`."""
    _, month, day = model.date_at(number)
    return f"{weekday(number)} {day:02} {MONTHS[month - 1][:3]}"


def length_text(seconds):
    parts = [(seconds // 3600, "h"), (seconds // 60 % 60, "m"), (seconds % 60, "s")]
    return " ".join(f"{count}{unit}" for count, unit in parts if count) or "0s"


# ---- the list


def list_blocks(plan):
    found = [["these are cron's starts"]] if plan.starts else []
    for second, started in plan.moments():
        found.append([f"{time_text(plan, second)}  @{second}"] + [job_line(plan.jobs[place], count) for place, count in started])
    if plan.is_cut:
        return found + [["and more: a plan ends after 100000 starts"]]
    return found or [["no start up to then"]]


def job_line(job, count):
    return f"  {job.label}  {front(job.title)}" + (f"  {count} times" if count > 1 else "")


# ---- answers


def answer_blocks(plan, answers):
    """What stands in front of answers, and these."""
    head = [["these are cron's starts"]] if plan.starts else []
    left_out = left_out_lines(plan)
    return head + ([left_out] if left_out else []) + [clock_lines(plan)] + answers


def clock_lines(plan):
    return [f"on the clock of {plan.zone}:"]


def silence(plan):
    return "nothing starts" if plan.shows_all else "nothing starts but what is left out"


def left_out_lines(plan):
    jobs = [(plan.jobs[place], count) for place, count in plan.left_out]
    found = [f"left out, since it starts too often (--most-a-day): {job.label} {excerpt(shown(job.title))}, {many(count)}" for job, count in jobs]
    return found + (["the plan ends after 100000 starts, before what was asked for"] if plan.is_cut else [])


def excerpt(text, most=64):
    return f"'{text}'" if len(text) <= most else f"'{text[:most]}' (characters left out: {len(text) - most})"


def quiet_lines(plan, least):
    lines = window_lines(plan, least)
    if not lines:
        return [f"no window of {length_text(least)} or longer in which {silence(plan)}"]
    return [f"windows of {length_text(least)} or longer in which {silence(plan)}:"] + lines


def window_lines(plan, least):
    """A line for each window, but one alone for those that come again on the dates that follow each other."""
    found, daily = [], {}
    for begin, end, length, is_open in plan.windows(least):
        wall, until, ahead = plan.wall(begin), plan.wall(end), plan.ahead(begin)
        if is_open or plan.ahead(end) != ahead or until // DAY - wall // DAY > 1:
            line = f"  {time_text(plan, begin)} to {time_text(plan, end)}  {length_text(length)}" + (" or longer" if is_open else "")
            found.append((-length, wall % DAY, begin, line))
        else:
            daily.setdefault((length, wall % DAY, ahead), {})[wall // DAY] = (begin, end)
    for (length, time, _), dates in daily.items():
        firsts = [date for date in dates if date - 1 not in dates]
        for first in firsts:
            last = next(date for date in range(first, first + len(dates)) if date + 1 not in dates)
            found.append((-length, time, dates[first][0], days_line(plan, dates[first], first, last)))
    return [line for *_, line in sorted(found)]


def days_line(plan, window, first, last):
    begin, end = (time_text(plan, second) for second in window)
    length = length_text(window[1] - window[0])
    if first == last:
        return f"  {begin} to {end}  {length}"
    next_day = "" if plan.wall(window[1]) // DAY == first else "next day "
    dates = " to ".join(f"{weekday(date)} {date_text(date)}" for date in (first, last))
    return f"  {dates}, each day {begin.split()[2]} to {next_day}{' '.join(end.split()[2:])}  {length}"


def busy_lines(plan, most):
    if not plan.starts:
        return [f"no moment: {silence(plan)}"]
    found = ["the fullest moments:"]
    found += [f"  {time_text(plan, second)}  {many(count)}" for second, count in plan.fullest(most)]
    found.append("starts by the hour of the day:")
    return found + [f"  {hour:02}:00  {many(count)}" for hour, count in enumerate(plan.hours()) if count]


def together_lines(plan):
    sets = plan.sets()
    if not sets:
        return ["no two jobs start together"]
    found = ["jobs that start together:"]
    for places, count, first in sets:
        jobs = [plan.jobs[place] for place in places]
        names = " + ".join(f"{job.label} {excerpt(shown(job.title))}" for job in jobs)
        found.append(f"  {names}  {'once' if count == 1 else f'{count} times'}, first {time_text(plan, first)}")
    return found


def step_of(count):
    return max(step for step, least in enumerate(STEPS) if least <= count)


def week_lines(plan, signs):
    found = [HOURS]
    for date in plan.dates():
        hours = plan.hours_of_date(date)
        cells = " ".join(count if count in (SKIPPED, OUTSIDE) else signs[step_of(count)] for count in hours)
        fullest = plan.fullest_of_date(date)
        told = f", {fullest[1]} at {clock_text(plan.wall(fullest[0]))}" if fullest else ""
        found.append(f"{date_name(date)}  {cells} {plan.starts_on(date)}{told}")
    found.append("  ".join(f"{sign}={least}" for sign, least in zip(signs, STEPS)) + "  starts in an hour, or more")
    all_hours = [count for date in plan.dates() for count in plan.hours_of_date(date)]
    meanings = {SKIPPED: "x: the clock skips the hour", OUTSIDE: "-: not in the plan"}
    found += [text for sign, text in meanings.items() if sign in all_hours]
    found += [line for change in plan.changes() for line in [change_line(*change)] + dropped_lines(plan, change[0])]
    longest = window_lines(plan, HOUR)[:5]
    return found + ([f"longest windows in which {silence(plan)}:"] + longest if longest else [])


def change_line(_, before, after, count):
    first, last = [f"{date_name(wall // DAY)} {clock_text(wall)}" for wall in sorted((before, after))]
    told = f"skips {first} to {last}" if before < after else f"shows {first} to {last} twice"
    return f"the clock {told}" + (f"; {many(count)} then" if before < after else "")


def dropped_lines(plan, second):
    """The jobs that lack a start where the clock is put forward."""
    jobs = [plan.jobs[place] for place in plan.dropped_at(second)]
    return [f"  not made up for: {job.label} {excerpt(shown(job.title))}" for job in jobs]


# ---- months


def cut(text, most):
    """A text of so many characters at most, a tilde in place of the last one where there are more."""
    return text if len(text) <= most else text[:most - 1] + "~"


def month_blocks(plan, words):
    """A grid for each month of the span, and after the last one what its mark means and what starts each day. The words of each job are given."""
    months = sorted({model.date_at(number)[:2] for number in plan.dates()})
    daily = plan.daily_jobs()
    grids = [grid_lines(plan, *month, daily) for month in months]
    dates = [number for year, month in months for number in dates_of_month(year, month)]
    last = ["-: not in the plan"] if any(number not in plan.dates() for number in dates) else []
    last += ["Every day:"] if daily else []
    last += [f"  {cut(shown(plan.jobs[place].title), 24)}: {cut(words[place], 50)}" for place in daily]
    grids[-1] += last
    return grids


def dates_of_month(year, month):
    first, length = model.month_at(year, month)
    return range(first, first + length)


def grid_lines(plan, year, month, daily):
    dates = dates_of_month(year, month)
    found = [f"{MONTHS[month - 1]} {year}", RULE, "|" + "|".join(it.ljust(CELL) for it in WEEKDAYS[1:] + WEEKDAYS[:1]) + "|", RULE]
    monday = dates[0] - (model.weekday_of(dates[0]) + 6) % 7
    for first in range(monday, dates[-1] + 1, 7):
        columns = [cells_of(plan, number, daily) if number in dates else [] for number in range(first, first + 7)]
        for line in range(max(map(len, columns))):
            found.append("|" + "|".join((column[line] if line < len(column) else "").ljust(CELL) for column in columns) + "|")
        found.append(RULE)
    return found


def cells_of(plan, number, daily):
    """The lines of a date: its day, the titles of what starts on it and not each day, and how many more there are."""
    day = str(model.date_at(number)[2])
    titles = [cut(shown(plan.jobs[place].title), CELL) for place in plan.jobs_of_date(number) if place not in daily]
    more = [f"+{len(titles) - TITLES}"] if len(titles) > TITLES else []
    return [day if number in plan.dates() else f"{day} -"] + titles[:TITLES] + more
