"""Questions of users, where the pages answer them, and how many clicks that is from README.md.

Each row is a question, the page and the heading with the answer, and words of it that are within 40 lines of the heading. Two clicks lead
there from README.md: it links to the heading, or to a page that does, which may be the page itself.
"""
from pathlib import Path

import pages

TOP = Path(__file__).resolve().parent.parent
LINES = 40
ROWS = [
    ("Why does cron.d/backup.sh never run?", "CHECKING", "What makes cron ignore a file", "`backup.sh`"),
    ("What is star-day?", "FINDINGS", "Notes", "`star-day`"),
    ("Which names may be allowed?", "FINDINGS", "Warnings that can be allowed", "`either-day`"),
    ("How do I get a pattern's runs as JSON?", "FORMATS", "A pattern's runs as JSON", "croncheck next --json"),
    ("What becomes of 02:30 on the night of the change?", "CHECKING", "When the clock changes", "`30 2 * * *` needs no care"),
    ("How does a crontab say the last day of the month?", "CHECKING", "What cron can't say", "the last day of the month"),
    ("What about Fedora?", "CHECKING", "Not Debian?", "Fedora"),
    ("Which runs does a scheduler lose that crashes?", "GUIDE", "After a restart", "Which runs a crash loses"),
    ("Which errors has from_str?", "GUIDE", "Refusals", "`EmptyPattern`"),
    ("Is Berlin calm?", "ZONES", "Which zones are calm", "Europe/Berlin"),
]


def lines_of(page):
    return page.read_text(encoding="utf-8").splitlines()


def links_of(page):
    """Where the links of a page lead: to a page, itself too, and the fragment of a heading or an empty one."""
    return {((page.parent / path if path else page).resolve(), fragment) for _, path, fragment in pages.links(lines_of(page))}


def reached():
    """What is reached from README.md by one click, or by two."""
    first = links_of(TOP / "README.md")
    return first.union(*(links_of(page) for page, _ in first if page.suffix == ".md"))


def fault(name, heading, words):
    """What is said of a question that isn't answered where its row says; else nothing."""
    page = TOP / "docs" / f"{name}.md"
    if (page, pages.anchor(heading, set())) not in reached():
        return f"{page.name} and its {heading!r} are more than two clicks from README.md"
    lines = lines_of(page)
    begin = next((at for at, line in enumerate(lines) if line.startswith("#") and line.lstrip("# ") == heading), None)
    if begin is None:
        return f"{page.name} has no heading {heading!r}"
    found = " ".join(lines[begin : begin + LINES])
    return "" if words in found else f"{page.name} has no {words!r} within {LINES} lines of {heading!r}"


def faults():
    """Each question, and what is said of it."""
    for question, name, heading, words in ROWS:
        yield question, fault(name, heading, words)
