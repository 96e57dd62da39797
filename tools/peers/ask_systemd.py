"""Asks systemd-cron: its generator makes a timer of each line, and `systemd-analyze calendar` says when that starts.

    python3 ask_systemd.py GENERATOR

Questions and answers are those of ask_cron.c, but all questions are read first: those of one second are asked in one call. A line is the
crontab of root, by itself. Where the generator ends with an exception, makes no timer, or one that systemd refuses, it is refused.
"""
import importlib.machinery
import importlib.util
import os
import re
import subprocess
import sys
import tempfile
from datetime import datetime, timezone
from pathlib import Path

MOST = 200  # expressions of one call


def generator(path):
    loader = importlib.machinery.SourceFileLoader("generator", path)
    module = importlib.util.module_from_spec(importlib.util.spec_from_loader("generator", loader))
    loader.exec_module(module)
    module.log = lambda level, message: None
    return module


def calendar_of(module, room, line):
    """What OnCalendar says in the timer of a line, as the generator's main() makes it; nothing, where there is none."""
    for file in room.glob("*"):
        file.unlink()
    module.TARGET_DIR = module.TIMERS_DIR = str(room)
    crontab = room / "root"
    crontab.write_text(f"{line} x\n", encoding="utf-8")
    try:
        for job in module.parse_crontab(str(crontab), withuser=False):
            module.generate_timer_unit(job, seq=module.count())
    except Exception:  # the generator ends
        return None
    timers = [it for it in room.glob("*.timer") if it.is_file()]
    found = timers and re.search(r"(?m)^OnCalendar=(.*)$", timers[0].read_text(encoding="utf-8"))
    return found[1].strip() if found else "@" if timers else None


def starts(calendars, second):
    """Of each expression its next start after a second, `never` or `refused`."""
    base = datetime.fromtimestamp(second, timezone.utc).strftime("%Y-%m-%d %H:%M:%S UTC")
    answers, order = {}, [it for it in dict.fromkeys(calendars) if it not in (None, "@")]
    for at in range(0, len(order), MOST):
        asked = order[at : at + MOST]
        ran = subprocess.run(["systemd-analyze", "calendar", f"--base-time={base}", *asked], capture_output=True, text=True, check=False)
        faulty = set(re.findall(r"Failed to parse calendar (?:specification|expression) '(.*)'", ran.stderr))
        blocks = [it for it in re.split(r"\n\n", ran.stdout) if it.strip()]
        taken = [it for it in asked if it not in faulty]
        assert len(blocks) == len(taken), (len(blocks), len(taken), ran.stderr)
        for calendar, block in zip(taken, blocks):
            answers[calendar] = start_of(block)
    return [answers.get(it, "never" if it == "@" else "refused") for it in calendars]


def start_of(block):
    found = re.search(r"\(in UTC\): \w+ (\S+ \S+) UTC", block) or re.search(r"Next elapse: \w+ (\S+ \S+) UTC", block)
    if not found:
        return "never"
    return str(int(datetime.strptime(found[1], "%Y-%m-%d %H:%M:%S").replace(tzinfo=timezone.utc).timestamp()))


def main():
    module = generator(sys.argv[1])
    questions = [it.rstrip("\n").split("\t", 1) for it in sys.stdin]
    with tempfile.TemporaryDirectory() as room:
        calendars = {line: calendar_of(module, Path(room), line) for _, line in questions}
    answers = [None] * len(questions)
    for second in sorted({it for it, _ in questions}):
        places = [at for at, it in enumerate(questions) if it[0] == second]
        for at, answer in zip(places, starts([calendars[questions[it][1]] for it in places], int(second))):
            answers[at] = answer
    print("\n".join(answers), flush=True)


main()
