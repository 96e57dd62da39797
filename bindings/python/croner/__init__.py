"""Cron patterns and their runs, by the proved library croner.

    >>> from datetime import datetime
    >>> from zoneinfo import ZoneInfo
    >>> Cron("0 9 * * MON-FRI").next(datetime(2024, 7, 6, tzinfo=ZoneInfo("Europe/Paris"))).isoformat()
    '2024-07-08T09:00:00+02:00'
"""
from ._cron import Cron, CronError
from ._crontab import CrontabLine, Start
from ._zones import ClockError

__all__ = ["ClockError", "Cron", "CronError", "CrontabLine", "Start"]
for _it in (ClockError, Cron, CronError, CrontabLine, Start):
    _it.__module__ = __name__
