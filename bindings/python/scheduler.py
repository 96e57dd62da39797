import time
from datetime import datetime
from zoneinfo import ZoneInfo

from croner import Cron

JOBS = {"backup": Cron("30 2 * * *"), "report": Cron("0 9 * * MON-FRI")}


def start_jobs(jobs, position, start):
    """Calls start(name, run) for each run after a position, in order of time, when it is due. A run that was missed comes late."""
    while True:
        runs = {name: job.next(position) for name, job in jobs.items()}
        seconds = {name: run.timestamp() for name, run in runs.items() if run}
        if not seconds:
            return
        nearest = min(seconds.values())
        while (rest := nearest - time.time()) > 0:
            time.sleep(min(rest, 60))  # a machine that was suspended wakes late, and clocks are set
        for name in [it for it in seconds if seconds[it] == nearest]:
            position = runs[name]
            start(name, position)


if __name__ == "__main__":
    start_jobs(JOBS, datetime.now(ZoneInfo("Europe/Paris")), lambda name, run: print(run, name, flush=True))
