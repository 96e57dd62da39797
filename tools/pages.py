"""What a page in Markdown says, beside its blocks of code: its paragraphs and sentences, its headings, and where its links lead."""
import re
from pathlib import Path

FENCE = re.compile(r"\s*```")
HEADING = re.compile(r"#{1,6} +(.*)")
LINK = re.compile(r"!?\[((?:[^][`]|`[^`]*`)*)\]\(([^()\s]+)\)")
CODE = re.compile(r"`[^`]*`")
ITEM = re.compile(r"\s*(?:[-*]|\d+\.) +")
RULE = re.compile(r"[\s|:-]+")
END = re.compile(r"(?<=[.?!])[)*_]*\s+")


def prose(lines):
    """The lines of a page with their numbers, without blocks of code and comments."""
    is_code = False
    for number, line in enumerate(lines, 1):
        if FENCE.match(line):
            is_code = not is_code
        elif not is_code and not line.startswith(("    ", "<!--")):
            yield number, line


def cells(line):
    """The texts of a row of a table."""
    return [] if RULE.fullmatch(line) else [it.strip() for it in line.strip("|").split("|")]


def torn_tables(lines):
    """The numbers of the lines that begin a table without the row of dashes below its first one."""
    shown = dict(prose(lines))
    for number, line in shown.items():
        begins = line.startswith("|") and not shown.get(number - 1, "").startswith("|")
        if begins and not RULE.fullmatch(shown.get(number + 1, "") or "-x"):
            yield number


def paragraphs(lines):
    """The number of the first line of each paragraph, heading, item of a list and cell of a table, and its text in one line."""
    begin, text, last = 0, [], 0
    for number, line in [*prose(lines), (len(lines) + 2, "")]:
        is_new = not line.strip() or line.startswith(("|", "#")) or ITEM.match(line) or number != last + 1
        if is_new and text:
            yield begin, " ".join(text)
            text = []
        if line.startswith("|"):
            yield from ((number, it) for it in cells(line) if it)
        elif line.strip():
            begin = begin if text else number
            text.append(re.sub(r"^#+ ", "", ITEM.sub("", line, count=1) if ITEM.match(line) else line).strip())
            if line.startswith("#"):
                yield number, text.pop()
        last = number


def sentences(lines):
    """Each sentence of a page with the number of the line on which its paragraph begins. A piece of code counts as one word."""
    for number, text in paragraphs(lines):
        plain = LINK.sub(r"\1", CODE.sub(lambda it: it[0].replace(" ", "_"), text))
        for sentence in END.split(plain):
            if sentence.strip():
                yield number, sentence.strip()


def anchor(title, taken):
    """The fragment by which GitHub names a heading, where these are taken."""
    plain = re.sub(r"[^\w\- ]", "", LINK.sub(r"\1", title).strip().lower()).replace(" ", "-")
    name, count = plain, 0
    while name in taken:
        count += 1
        name = f"{plain}-{count}"
    return name


def anchors(lines):
    """The fragments of all headings of a page."""
    taken = set()
    for _, line in prose(lines):
        heading = HEADING.fullmatch(line.rstrip())
        if heading:
            taken.add(anchor(heading[1], taken))
    return taken


def links(lines):
    """The path and the fragment of each link and picture that stays within the repository, with the line where its paragraph begins."""
    for number, text in paragraphs(lines):
        for _, target in LINK.findall(CODE.sub("code", text)):
            if "://" not in target and not target.startswith("mailto:"):
                path, _, fragment = target.partition("#")
                yield number, path, fragment


def fault_of_link(page, path, fragment):
    """What is said of a link of a page that leads nowhere; else nothing."""
    file = (page.parent / path if path else page).resolve()
    if not file.exists():
        return f"there is no {path}"
    if fragment and fragment not in anchors(Path(file).read_text(encoding="utf-8").splitlines()):
        return f"{file.name} has no heading #{fragment}"
    return ""
