"""The kinds of differences: by what a line has, in whose lines a program reads otherwise than Debian's cron."""
import re
from functools import lru_cache

NAMES = ["minutes", "hours", "days", "months", "weekdays"]
HIGHEST = [59, 23, 31, 12, 7]
MONTHS = "jan feb mar apr may jun jul aug sep oct nov dec".split()
WEEKDAYS = "sun mon tue wed thu fri sat".split()
KNOWN = "yearly annually monthly weekly daily midnight hourly".split()
SURE = 0.9  # a kind of difference: so many of the lines that have it are read otherwise


def value(word, table, lowest):
    if word.isdigit():
        return int(word)
    return table.index(word[:3]) + lowest if word[:3] in table else None


def of_part(part, at):
    """What a part of a field has."""
    table, lowest = ((), 0) if at < 3 else (MONTHS, 1) if at == 3 else (WEEKDAYS, 0)
    span, slash, step = part.lower().partition("/")
    first, dash, last = span.partition("-")
    bounds = [value(it, table, lowest) for it in (first, last)]
    if not part:
        yield "an empty part in a list"
        return
    if part == "?":
        yield "a lone `?`"
        return
    letters = re.findall(r"[a-z]+", span)
    if re.fullmatch(r"l(-\d+)?|l?w|\d+w|\w+l|\w+#\d", span) and span not in table:
        yield "`L`, `W` or `#`"
        return
    if re.search(r"[^a-z0-9*/-]", part.lower()) or re.fullmatch(r"[^*].*\*.*|\*.+", span) or part.count("/") > 1:
        yield "a sign that cron doesn't know"
        return
    if any(len(it) > 3 and it[:3] in table for it in letters):
        yield "a name written in full"
    elif any(it not in table for it in letters) or letters and re.search(r"\d[a-z]|[a-z]\d", span):
        yield "letters that are no name of the field"
        return
    elif letters:
        yield f"a name in {NAMES[at]}"
        yield f"{letters[0]} as a name" if at == 3 and not dash else f"a range of names in {NAMES[at]}" if dash else "a name"
    if slash and not step.isdigit():
        yield "a part that is cut off" if not step else "a step that is no number"
        return
    if dash and (not first or not last):
        yield "a part that is cut off"
        return
    if slash and int(step) == 0:
        yield "a step of 0"
    elif slash and span == "*" and int(step) > HIGHEST[at] - (at == 4):
        yield f"`*/n` in {NAMES[at]} with a step above the highest value"
    elif slash and span == "*":
        yield f"`*/n` in {NAMES[at]}"
    if slash and span != "*" and not dash:
        yield "a step after a single value"
    if span == "*":
        return
    if any(it is not None and it > HIGHEST[at] for it in bounds):
        yield f"a value above the highest in {NAMES[at]}"
    if at in (2, 3) and 0 in bounds:
        yield f"0 in {NAMES[at]}"
    if at == 4 and last == "7" and not letters:
        yield "a range of weekdays up to 7"
    elif at == 4 and first == "7":
        yield "7 as a weekday"
    elif at == 4 and not letters:
        yield "numbers of weekdays"
    if at == 3 and not letters:
        yield "numbers of months"
    if None not in bounds and dash and bounds[0] > bounds[1]:
        yield f"a range of {'names' if letters else 'numbers'} that runs down"
        yield f"a range in {NAMES[at]} that runs down"
    if dash and slash and None not in bounds and step.isdigit() and int(step) > bounds[1] - bounds[0] >= 0:
        yield "a step larger than its range"
    if any(re.fullmatch(r"0\d+", it) for it in (first, last)):
        yield "a leading zero"


@lru_cache(None)
def has(line):
    """What a line has, by the words of the page."""
    return frozenset(of_line(line))


def of_line(line):
    """The same, one after another."""
    fields = line.split()
    if line.startswith("@") and line != line.strip():
        yield "a blank at the end"
    if line.startswith("@"):
        word = fields[0][1:]
        if word == "reboot":
            yield "`@reboot`"
        elif word.lower() in KNOWN:
            yield "nicknames" if word in KNOWN else "capitals in a nickname"
        else:
            yield "a nickname that cron doesn't know"
        return
    if len(fields) != 5:
        yield "six fields" if len(fields) > 5 else "four fields"
        return
    for at, field in enumerate(fields):
        parts = field.split(",")
        for part in parts:
            yield from of_part(part, at)
        if len(parts) > 1 and any(it.startswith("*") for it in parts):
            yield "a star in a list"
    days, weekdays = fields[2], fields[4]
    if "*" not in (days, weekdays) and "?" not in (days, weekdays):
        has_star = days.startswith("*") or weekdays.startswith("*")
        yield "both day fields, one with `*/n`" if has_star else "both day fields"
    if line != line.strip():
        yield "a blank at the end"
    if "\t" in line:
        yield "tabs"
    if "  " in line:
        yield "two blanks"


def kinds(given, wanted):
    """How the answers of a program differ from those of another: of what a line has the words, how many differing lines that explains, and
    the shortest of them; and the lines that nothing explains. Words explain the lines that have them where nearly all of those differ, the
    ones left out that both refuse, or never start. The words with the most lines come first, and their lines are taken away."""
    differing = {it for it in given if given[it] != wanted[it]}
    having = {}
    for line in given:
        if line in differing or wanted[line] not in ("refused", "never"):
            for word in has(line):
                having.setdefault(word, []).append(line)
    left, found = set(differing), []
    while left:
        counts = {}
        for word, those in having.items():
            some = [it for it in those if it in left]
            rest = [it for it in those if it in left or it not in differing]
            if some and len(some) >= SURE * len(rest):
                counts[word] = some
        if not counts:
            break
        best = max(counts, key=lambda it: (len(counts[it]), it))
        found.append((best, len(counts[best]), min(counts[best], key=lambda it: (len(has(it)), len(it), it))))
        left -= set(counts[best])
    return found, sorted(left, key=lambda it: (len(it), it))
