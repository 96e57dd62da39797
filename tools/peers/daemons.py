"""What the daemons of tools/peers_test do with small crontabs: each runs by itself, with the clock of clock.c, in a namespace of its own
in which /var/spool, /run and the crontabs of the system are empty folders. It needs root. The answers stand in tools/peers/daemons.txt.

Of cron, busybox, bcron and mcron it is seen what their jobs wrote, and with a zone when they were started; of systemd-cron's generator what
it wrote: the timers of root and of another user, and the command and the environment of root's first job.
"""
import os
import re
import shutil
import subprocess
from datetime import datetime
from pathlib import Path
from zoneinfo import ZoneInfo

import programs

FILE = Path(__file__).resolve().parent / "daemons.txt"
NOON = 1_796_817_630  # 2026-12-09 12:00:30 UTC
PARIS = "Europe/Paris"
OUT = "/var/spool/out"
A, B = f"* * * * * echo a >{OUT}/a\n", f"* * * * * echo b >{OUT}/b"

# The name of a case, its crontab, its first second, its length and its zone.
CASES = [
    ("no line feed", A + B, NOON, 180, "UTC"),
    ("60 0", f"{A}60 0 * * * echo x >{OUT}/x\n{B}\n", NOON, 180, "UTC"),
    ("hello", f"{A}hello\n{B}\n", NOON, 180, "UTC"),
    ("percent", f"* * * * * echo start >{OUT}/p; echo a%b >>{OUT}/p\n", NOON, 180, "UTC"),
    ("A=b", f'A=b\n* * * * * echo "[$A]" >{OUT}/v\n', NOON, 180, "UTC"),
    ("blanks", f'* * * * * echo "a   b" >{OUT}/q\n', NOON, 180, "UTC"),
    ("hash", f'* * * * * echo "x # y" >{OUT}/h\n', NOON, 180, "UTC"),
    ("still runs", f"* * * * * echo a >>{OUT}/a; sleep 5\n", NOON, 180, "UTC"),
    ("Paris, spring", "30 2 * * * true\n", 1_806_177_600, 57_600, PARIS),
    ("Paris, autumn", "30 2 * * * true\n", 1_792_872_000, 57_600, PARIS),
]

INSIDE = r"""
set -e
mount -t tmpfs none /var/spool
mkdir -p /var/spool/cron/crontabs /var/spool/out
cp "$CASE/crontab" /var/spool/cron/crontabs/root
printf '0 1 * * * true\n' >/var/spool/cron/crontabs/daemon
[ "$DAEMON" = systemd-cron ] || rm /var/spool/cron/crontabs/daemon
chmod 600 /var/spool/cron/crontabs/*
mount -t tmpfs none /run
mkdir -p /run/systemd
mount --bind "$CASE/empty" /etc/cron.d 2>/dev/null || true
mount --bind "$CASE/nothing" /etc/crontab 2>/dev/null || true
cp /etc/pam.d/* "$CASE/pam/"
for each in account session auth; do echo "$each required pam_permit.so"; done >"$CASE/pam/cron"
mount --bind "$CASE/pam" /etc/pam.d
case $DAEMON in
    cron) LD_PRELOAD=$CLOCK "$BINARY" -f ;;
    busybox) LD_PRELOAD=$CLOCK "$BINARY" crond -f -d 8 -c /var/spool/cron/crontabs ;;
    bcron) mkfifo /var/spool/cron/trigger; LD_PRELOAD=$CLOCK "$BINARY" | "${BINARY%-sched}-exec" ;;
    mcron)
        mkdir -p /root/.config
        mount -t tmpfs none /root/.config
        mkdir /root/.config/cron
        cp "$CASE/crontab" /root/.config/cron/job.vixie
        LD_PRELOAD=$CLOCK GUILE_AUTO_COMPILE=0 mcron
        ;;
    systemd-cron) /usr/bin/python3 -W ignore "$BINARY" "$CASE/units" ;;
esac >"$CASE/said" 2>&1 || true
sleep 0.5
cp -r /var/spool/out "$CASE/"
"""


def binaries(folder):
    """The daemons that are there, by their names."""
    found = {}
    for name, package, path in (
        ("cron", "cron", "usr/sbin/cron"),
        ("bcron", "bcron", "usr/sbin/bcron-sched"),
        ("systemd-cron", "systemd-cron", "lib/systemd/system-generators/systemd-crontab-generator"),
    ):
        try:
            found[name] = str(programs.unpacked(package, folder)[0] / path)
        except (programs.Missing, StopIteration):
            print(f"skipped: the daemon of {name}")
    if (folder / "busybox_crond").is_file():
        found["busybox"] = str(folder / "busybox_crond")
    if shutil.which("mcron"):
        found["mcron"] = "mcron"
    for name in {"busybox", "mcron"} - set(found):
        print(f"skipped: the daemon of {name}")
    return found


def told(name, case, zone):
    """What a case came to."""
    if name == "systemd-cron":
        units = case / "units"
        timers = [it for it in units.glob("cron-*.timer") if it.is_file()]
        counts = [sum(f"-{user}-{user}-" in it.name for it in timers) for user in ("root", "daemon")]
        first = "cron-root-root-0"
        command = (units / f"{first}.sh").read_text() if (units / f"{first}.sh").is_file() else ""
        service = (units / f"{first}.service").read_text() if (units / f"{first}.service").is_file() else ""
        return f"{counts[0]} timers of root, {counts[1]} of daemon; {command}; {' '.join(re.findall('Environment=.*', service))}".strip("; ")
    if zone != "UTC":
        seconds = [int(it) for it in (case / "log").read_text().split()] if (case / "log").is_file() else []
        return clock_times(seconds, zone)
    return "; ".join(f"{it.name}: {it.read_text().strip()}" for it in sorted((case / "out").iterdir())).replace("\n", " | ") or "no job"


def nights(words):
    """Of a program that says when a line starts next: its starts in the nights of Paris, by their titles."""
    for title, crontab, first, length, zone in CASES:
        if zone == "UTC":
            continue
        line, second, seconds = crontab.removesuffix(" true\n"), first, []
        while second < first + length:
            answer = programs.ask(words, [(second, line)], zone=zone)[0]
            second = int(answer) if answer.isdigit() and int(answer) > second else first + length
            seconds += [second] if second < first + length else []
        yield title, clock_times(seconds, zone)


def clock_times(seconds, zone):
    return ", ".join(datetime.fromtimestamp(it, ZoneInfo(zone)).strftime("%m-%d %H:%M %Z") for it in seconds) or "no start"


def answers(folder):
    """What each case came to, by its daemon and its title."""
    clock = folder / "clock.so"
    if not clock.is_file():
        programs.run(["cc", "-shared", "-fPIC", "-w", str(FILE.parent / "clock.c"), "-o", str(clock)])
    room = folder / "case"
    for name, binary in binaries(folder).items():
        for title, crontab, first, length, zone in CASES:
            if name == "systemd-cron" and zone != "UTC":
                continue
            shutil.rmtree(room, ignore_errors=True)
            for each in ("empty", "pam", "units"):
                (room / each).mkdir(parents=True)
            (room / "crontab").write_text(crontab)
            (room / "nothing").write_text("")
            env = {**os.environ, "CASE": str(room), "DAEMON": name, "BINARY": binary, "CLOCK": str(clock), "TZ": zone}
            env |= {"FAKE_START": str(first), "FAKE_END": str(first + length), "FAKE_LOG": str(room / "log")}
            subprocess.run(["unshare", "-m", "sh", "-c", INSIDE], env=env, timeout=120, check=True)
            yield (name, title), told(name, room, zone)


def compare(folder, commands, has_to_write):
    """How many cases came to what the file says, and how many didn't. The programs without a daemon are asked for the nights of Paris."""
    rows = FILE.read_text(encoding="utf-8").splitlines()[1:] if FILE.is_file() else []
    kept = {(name, title): answer for name, title, answer in (it.split(" | ", 2) for it in rows)}
    given = dict(answers(folder)) if os.geteuid() == 0 else {}
    for name, words in commands.items():
        if name not in ("cron", "busybox", "bcron", "mcron"):
            given |= {(name, title): answer for title, answer in nights(words)}
    if has_to_write:
        rows = [f"{name} | {title} | {answer}" for (name, title), answer in (kept | given).items()]
        begin = "# Written by 'tools/peers_test --write'; tools/peers/daemons.py has the crontabs."
        FILE.write_text("\n".join([begin, *rows]) + "\n", encoding="utf-8")
        kept |= given
    wrong = [it for it in given if given[it] != kept.get(it)]
    for it in wrong:
        print(f"{it[0]}, {it[1]}: {given[it]}, and not {kept.get(it)}")
    return len(given) - len(wrong), len(wrong)
