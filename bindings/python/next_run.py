from datetime import datetime
from zoneinfo import ZoneInfo

from croner import Cron

job = Cron("0 9 * * MON-FRI")
now = datetime.now(ZoneInfo("Europe/Paris"))
print(job.next(now))  # or None, where no run is left
for run in job.runs(now, count=3):
    print(run)
