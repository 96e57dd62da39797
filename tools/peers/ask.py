"""Asks a reader of Python: croniter, python-crontab or APScheduler. Questions and answers are those of ask_cron.c.

    python3 ask.py croniter|python-crontab|APScheduler
"""
import os
import sys
from datetime import datetime
from zoneinfo import ZoneInfo

ZONE = ZoneInfo(os.environ.get("TZ", "UTC"))


def ask_croniter(line, after):
    from croniter import CroniterBadDateError, croniter

    job = croniter(line, datetime.fromtimestamp(after, ZONE))
    try:
        return job.get_next(datetime).timestamp()
    except CroniterBadDateError:
        return None


def ask_python_crontab(line, after):
    from crontab import CronTab
    from croniter import CroniterBadDateError

    job = list(CronTab(tab=f"{line} x\n"))[0]
    if not job.is_valid() or not job.is_enabled():
        raise ValueError(line)
    try:
        return job.schedule(date_from=datetime.fromtimestamp(after, ZONE)).get_next(datetime).timestamp()
    except CroniterBadDateError:
        return None


def ask_apscheduler(line, after):
    from apscheduler.triggers.cron import CronTrigger

    job = CronTrigger.from_crontab(line, timezone=os.environ.get("TZ", "UTC"))
    start = job.get_next_fire_time(None, datetime.fromtimestamp(after + 1, ZONE))
    return start and start.timestamp()


def main():
    ask = {"croniter": ask_croniter, "python-crontab": ask_python_crontab, "APScheduler": ask_apscheduler}[sys.argv[1]]
    for question in sys.stdin:
        after, line = question.rstrip("\n").split("\t", 1)
        try:
            start = ask(line, int(after))
            print("never" if start is None else int(start), flush=True)
        except Exception:  # each of them has errors of its own, and KeyError or IndexError besides
            print("refused", flush=True)


main()
