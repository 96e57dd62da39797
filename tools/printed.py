"""What the scripts tools/print_* share. A page holds what such a script prints between two marks, the first of which names it.

And what they see of a file of Rattle: the lines of its public items.
"""
import re
import sys
from functools import lru_cache
from pathlib import Path

TOP = Path(__file__).resolve().parent.parent
BEGIN = re.compile(r"<!-- printed by tools/(\w+) -->")
END = "<!-- end of what it prints -->"
TESTS = {"croner_backends", "croner_rows", "cronreplay", "cronbench", "croner_examples"}
ITEM = re.compile(r"\s*(pub )?(?:pub\(\w+\) )?(?:const |unsafe |extern \S+ )*(fn|struct|enum|trait|impl|mod)\b(.*)")
EXPORT = "#[unsafe(no_mangle)]"


def parts(lines):
    """Of a page's lines the printed parts: where each begins and ends, and the script that prints it."""
    begin = None
    for number, line in enumerate(lines):
        if BEGIN.fullmatch(line):
            begin = number + 1
        elif line == END and begin is not None:
            yield begin, number, BEGIN.fullmatch(lines[begin - 1])[1]
            begin = None


def put(page, script, printed):
    """Puts what a script prints into a page."""
    lines = page.read_text(encoding="utf-8").splitlines()
    for begin, end, name in parts(lines):
        if name == script:
            lines[begin:end] = printed
            page.write_text("\n".join(lines) + "\n", encoding="utf-8")
            return
    sys.exit(f"{script}: {page.name} has no marks of it")


def answer(script, page, printed, faults):
    """Answers a call of a script: prints, or with '--write' puts into the page. The status is 1 where there are faults."""
    if sys.argv[1:] == ["--write"]:
        put(TOP / "docs" / page, script, printed)
    elif sys.argv[1:]:
        sys.exit(f"usage: tools/{script} [--write]")
    else:
        print("\n".join(printed))
    for fault in faults:
        print(f"{script}: {fault}", file=sys.stderr)
    sys.exit(1 if faults else 0)


def crates():
    """The names of the crates, lowest first, without those of the tests."""
    names = re.findall(r"(?m)^(\w+)[^:\n]*:", (TOP / "crates.txt").read_text(encoding="utf-8"))
    return [it for it in names if it not in TESTS]


def sources(crate):
    """The files of a crate's code."""
    return sorted((TOP / "crates" / crate / "src").glob("**/*.rt"))


@lru_cache
def modules_of(file):
    """The modules on the way to a file of src/, and whether each is `pub`."""
    folder, names = file.parent, [] if file.stem in ("lib", "main", "mod") else [file.stem]
    while folder.name != "src":
        names.insert(0, folder.name)
        folder = folder.parent
    above, is_open = folder / "lib.rt", True
    for name in names:
        is_open = is_open and (not above.is_file() or re.search(rf"(?m)^pub mod {name};", above.read_text(encoding="utf-8")) is not None)
        folder = folder / name
        above = next((it for it in (folder.with_suffix(".rt"), folder / "mod.rt") if it.is_file()), folder)
    return names, is_open


@lru_cache
def shown_by(crate):
    """The names that a crate shows: its types in modules that are `pub`, and what a module shows of another, by `pub use`."""
    names = set()
    for file in sources(crate):
        text = file.read_text(encoding="utf-8")
        names.update(word for use in re.findall(r"(?m)^\s*pub use ([^;]+);", text) for word in re.findall(r"\w+", use))
        if modules_of(file)[1]:
            names.update(re.findall(r"(?m)^pub (?:struct|enum|trait) (\w+)", text))
    return names


def after_parameters(text):
    """What stands after the type parameters with which a text begins."""
    depth = 0
    for at, sign in enumerate(text):
        depth += (sign == "<") - (sign == ">" and text[at - 1] != "-")
        if depth == 0:
            return text[at + 1 :] if at else text
    return text


def public_lines(file):
    """The lines of a file that belong to public items, comments left out, each with the item's path. Public is all of a `pub` trait and
    of an `impl` of a trait; what is `pub` itself, in modules that are, or of a type or with a name that another module shows; and what C can
    call."""
    crate = file.relative_to(TOP / "crates").parts[0]
    (modules, is_open), shown = modules_of(file), shown_by(crate)
    whole, own, kind, owner, path, before = False, False, "", "", "", ""
    for line in file.read_text(encoding="utf-8").splitlines():
        match, is_export, before = ITEM.match(line), before == EXPORT, line
        if match:
            head = after_parameters(match[3])
            name = re.match(r"\W*(\w*)", head)[1]
            if match[2] != "fn":
                kind, owner = match[2], re.findall(r"\w+", head.split(" for ")[-1] + " _")[0]
                whole = kind == "trait" and match[1] is not None or kind == "impl" and " for " in match[3]
                is_seen = is_open or owner in shown
                own, path = whole or match[1] is not None and is_seen, "::".join([*modules, owner])
            elif line.startswith(" "):
                own, path = whole or match[1] is not None and is_seen, "::".join([*modules, owner, name])
            else:
                own = is_export or match[1] is not None and (is_open or name in shown)
                path = "::".join([*modules, name])
        if own and not line.strip().startswith("//"):
            yield path, line
