"""What tools/peers_test asks of each line, and the file tools/peers/answers.txt, in which the answers stand.

A program says when a line starts next after a moment. Of each line its next three starts are asked, from FIRST on; then the next start after
that hour, and after the hour of that one; then the first start of the next three days that have one, and of the next two months.
"""
from datetime import datetime, timedelta, timezone
from pathlib import Path

FIRST = 1_796_817_600  # 2026-12-09 12:00, a Wednesday
STEPS = ["start"] * 3 + ["hour"] * 2 + ["day"] * 3 + ["month"] * 2
FILE = Path(__file__).resolve().parent / "answers.txt"
WORDS = ("refused", "never", "hangs", "crashes")
UNASKED = "not asked"
YEAR = 2026  # of a date without its year


def moment(second):
    return datetime.fromtimestamp(second, timezone.utc)


def after(step, second):
    """The moment after which the next start is asked: a start, or the last second of its hour, day or month."""
    if step == "start":
        return second
    at = moment(second).replace(minute=0, second=0)
    if step == "hour":
        return int((at + timedelta(hours=1)).timestamp()) - 1
    at = at.replace(hour=0)
    if step == "day":
        return int((at + timedelta(days=1)).timestamp()) - 1
    at = (at.replace(day=1) + timedelta(days=32)).replace(day=1)
    return int(at.timestamp()) - 1


def text(starts):
    """Starts as they stand in the file; a date is written where it isn't that of the start before."""
    words, last, year = [], None, YEAR
    for it in starts:
        if it in WORDS:
            words.append(it)
            continue
        at = moment(it)
        if at.date() != last:
            words.append(at.strftime("%m-%d" if at.year == year else "%Y-%m-%d"))
        last, year = at.date(), at.year
        words.append(at.strftime("%H:%M:%S" if at.second else "%H:%M"))
    return " ".join(words)


def ask_all(ask, lines, end):
    """The text of what a program answers to each line; `ask` gives an answer for each question, a second and a line."""
    starts = {it: [] for it in lines}
    begin = dict.fromkeys(lines, FIRST)
    for number, step in enumerate(STEPS):
        open_lines = [it for it in lines if not starts[it] or starts[it][-1] not in WORDS]
        questions = [(after(step, begin[it]) if number else FIRST, it) for it in open_lines]
        for line, (second, _), answer in zip(open_lines, questions, ask(questions)):
            start = answer if answer in WORDS else int(answer)
            if start not in WORDS and start >= end:
                start = "never"
            if start not in WORDS and start <= second:
                start = "hangs"
            starts[line].append(start)
            begin[line] = start
    return {it: text(starts[it]) for it in lines}


# ---- the file


def shown(line):
    return line.replace("\t", "\\t").replace(" ", "_") if line != line.strip() else line.replace("\t", "\\t")


def written(answers, versions):
    """The lines of the file: of each line the answers, each with the programs that give it; `others` are all that aren't named."""
    yield "# Written by 'tools/peers_test --write'; the times are those of UTC, from 2026-12-09 12:00 on. tools/peers/answers.py says which."
    yield from (f"# {name} {number}" for name, number in versions.items())
    for line in dict.fromkeys(line for those in answers.values() for line in those):
        groups = {}
        for name in answers:
            groups.setdefault(answers[name].get(line, UNASKED), []).append(name)
        most = max(groups, key=lambda it: len(groups[it]))
        yield f"= {line}"
        for answer, names in sorted(groups.items(), key=lambda it: it[0] == most):
            yield f"{'others' if answer == most else ' '.join(names)}: {answer}"


def read(file=FILE):
    """What stands in the file: of each program its answers by the lines, as they are shown there, and the versions."""
    answers, versions, line, given = {}, {}, None, {}

    def close():
        for name in versions if line is not None else ():
            answers[name][line] = given.get(name, given.get("others"))

    for row in file.read_text(encoding="utf-8").splitlines()[1:]:
        if row.startswith("# "):
            name, number = row[2:].split(" ", 1)
            versions[name], answers[name] = number, {}
        elif row.startswith("= "):
            close()
            line, given = row[2:], {}
        else:
            names, answer = row.split(": ", 1)
            given.update(dict.fromkeys(names.split(" "), answer))
    close()
    return {name: {line: it for line, it in those.items() if it != UNASKED} for name, those in answers.items()}, versions
