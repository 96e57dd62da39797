"""Which files the hooks of .pre-commit-hooks.yaml take by their names, as pre-commit decides it: `files` is found in the path, and
`exclude` isn't. What a hook of a folder `cron.d` takes is what croncheck reads or warns of there (docs/CRONTAB.md, "Files and folders")."""
import json
import os
import re
import subprocess
import tempfile
from pathlib import Path

TOP = Path(__file__).resolve().parent.parent
KEY = re.compile(r"(?:- |  )(\w+): (.*)")

# Names, and the hook that takes them; none takes the last ones.
TAKEN = {
    "croncheck": """
        crontab deploy/crontab crontab.web1 crontab.example.org crontab.txt crontab-web1 crontab.example crontab.root
        web1.cron deploy/web1.crontab .crontab a.b.cron etc/crontab.web1 cron/crontab etc/cron/crontab
        etc/crontabs.crontab cron.d.crontab xetc/crontab""",
    "croncheck-system": """
        etc/crontab deploy/etc/crontab cron.d/backup etc/cron.d/backup deploy/web1/etc/cron.d/Back_up-2 cron.d/backup.sh cron.d/backup.cron
        cron.d/x.crontab cron.d/crontab cron.d/README.md cron.d/backup.dpkg-bak cron.d/backup.bak cron.d/anacrontab cron.d/a~b cron.d/0""",
    "": """
        docs/crontab.md docs/CRONTAB.md man/crontab.5 crontab.1 crontab.rt src/crontab.rs src/crontab.py crontab.go crontab.test.js crontab.yaml
        crontab.yml crontab.json crontab.html crontab.sh crontab.j2 crontab.erb crontab.tmpl crontab.in crontab.png crontab.gz crontab.tar.xz
        crontab~ crontab.bak crontab.orig crontab.swp crontab.dpkg-dist crontab-ui.md crontab-parser.ts crontab.patch crontab.txt.j2
        crontabs crontab_test tools/crontab_lines.txt crontable.rt specs/crontable.antt crontab/read.me mycrontab anacrontab etc/anacrontab
        crontab/src crates/crontab/src/lib.rt web1.cron.md web1.crontab.j2 web1.cron~ cron.daily/backup etc/cron.d cron.d
        cron.d/.gitkeep cron.d/.placeholder cron.d/x~ cron.d/a.dpkg-dist cron.d/a.dpkg-old cron.d/a.dpkg-new cron.d/.x.cron cron.d/x.cron~
        cron.d/old/backup mycron.d/backup cron.d.old/backup etc/crontab~""",
}

# The files of this repository that they may take: crontabs, of tests and as an example.
OWN = {
    "croncheck": {"crates/cronreplay/crontab", "examples/crontab", "tools/plan_crontabs/debian/crontab", "tools/small_machine/crontab"},
    "croncheck-system": {"tools/small_machine/cron.d/report", "tools/small_machine/cron.d/scrub"},
}


def hooks():
    """The hooks by their ids: each key with its value. A value in quotes stands in one line; after '>-' it is the further lines."""
    found, key = {}, ""
    for line in (TOP / ".pre-commit-hooks.yaml").read_text(encoding="utf-8").splitlines():
        entry = KEY.fullmatch(line)
        if line.startswith("- id: "):
            hook = found.setdefault(line.removeprefix("- id: "), {})
        elif entry:
            key, value = entry.groups()
            hook[key] = "" if value == ">-" else value.removeprefix("'").removesuffix("'").replace("''", "'")
        elif line.startswith("    "):
            hook[key] = f"{hook[key]} {line.strip()}".strip()
    return found


def takers(found, name):
    """The ids of the hooks that take a file of this name."""
    return [id for id, hook in found.items() if re.search(hook["files"], name) and not re.search(hook["exclude"], name)]


def in_folder(program):
    """The names of the tables in a folder `cron.d`, and those of them that the program reads or warns of there."""
    names = sorted({Path(it).name for it in " ".join(TAKEN.values()).split() if Path(it).parent.name == "cron.d"})
    with tempfile.TemporaryDirectory() as room:
        folder = Path(room) / "cron.d"
        folder.mkdir()
        for name in names:
            (folder / name).write_text("5 2 * * * root x\n", encoding="utf-8")
        ran = subprocess.run([program, "show", "--system", "--json", "cron.d"], cwd=room, capture_output=True, text=True, check=False)
    return names, {Path(json.loads(it)["file"]).name for it in ran.stdout.splitlines()}


def faults_beside(program):
    """The hook of the system takes what the program reads or warns of; each name, with what is said where it isn't so."""
    found = hooks()
    names, seen = in_folder(program)
    for name in names:
        taken = "croncheck-system" in takers(found, f"cron.d/{name}")
        yield f"cron.d/{name}", "" if taken == (name in seen) else f"{'' if taken else 'not '}taken, unlike what croncheck does in a folder"


def faults(files, program):
    """Each row of the tables, with what is said where it isn't so; where the program is built, it is asked besides."""
    yield from faults_of_tables(files)
    if os.access(program, os.X_OK):
        yield from faults_beside(program)


def faults_of_tables(files):
    """Each row of the tables, with what is said where it isn't so."""
    found = hooks()
    for id, names in TAKEN.items():
        for name in names.split():
            taken = takers(found, name)
            yield name, "" if taken == [id] * bool(id) else f"taken by {' and '.join(taken) or 'no hook'}, and not {id or 'by none'}"
    for id, names in OWN.items():
        beside = sorted(it for it in files if id in takers(found, it) and it not in names)
        yield id, f"takes {', '.join(beside)} of this repository" if beside else ""
