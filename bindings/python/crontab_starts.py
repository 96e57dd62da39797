import sys
from datetime import datetime, timedelta
from zoneinfo import ZoneInfo

from croner import CrontabLine


def starts_of(path, after, until):
    """When Debian's cron starts the jobs of a system's crontab, in order: (time, how often, line)."""
    with open(path, encoding="utf-8", errors="surrogateescape", newline="\n") as file:
        lines = [CrontabLine(it, system=True) for it in file]  # or a CronError: then cron ignores the whole file
    starts = [(time, times, line) for line in lines for time, times in line.starts(after, until=until)]
    return sorted(starts, key=lambda it: it[0].timestamp())


if __name__ == "__main__":
    now = datetime.now(ZoneInfo("Europe/Paris"))
    for time, times, line in starts_of(sys.argv[1], now, now + timedelta(days=1)):
        print(time, line.user, line.command)
