from collections.abc import Iterator
from datetime import datetime
from typing import Any, Literal, NamedTuple, TypedDict

_Presence = Literal["optional", "required", "disallowed"]
_Language = Literal["en", "sv"]
_Field = Literal["second", "minute", "hour", "day", "month", "weekday", "year"]

class _Settings(TypedDict):
    seconds: _Presence
    year: _Presence
    dom_and_dow: bool
    alternative_weekdays: bool
    sloppy_ranges: bool

class CronError(ValueError):
    """A pattern, or a line of a crontab, is refused. Its str() says why."""

    message: str
    pattern: str
    begin: int
    """`pattern[begin:end]` is at fault."""
    end: int
    field: _Field | None
    """The field at fault; None where it isn't a single one."""
    def __init__(self, message: str, pattern: str, begin: int, end: int, field: _Field | None) -> None: ...

class ClockError(ValueError):
    """A zone's clock changes in a way that the library doesn't follow, as that of Antarctica/Casey in 2010; or a `ZoneInfo` differs at
    the start or at a run from the file of its key."""

class Cron:
    """A pattern of five, six or seven fields. It can't be changed. Two are equal where their texts and settings are.

    A `datetime` has to have a zone, which is a `zoneinfo.ZoneInfo` with a key or a `datetime.timezone` of whole seconds. A naive one raises
    ValueError, one of another zone TypeError. A run is in the zone of the start.
    """

    def __init__(
        self,
        pattern: str,
        *,
        seconds: _Presence = "optional",
        year: _Presence = "optional",
        dom_and_dow: bool = False,
        alternative_weekdays: bool = False,
        sloppy_ranges: bool = False,
    ) -> None:
        """Reads a pattern, or raises CronError."""
    @property
    def pattern(self) -> str:
        """The text as it was given."""
    @property
    def settings(self) -> _Settings: ...
    def next(self, start: datetime, *, inclusive: bool = False) -> datetime | None:
        """The first run after `start`, or with `inclusive` at it; None where no run is left before year 5000. A run in year 5000 may be missed."""
    def previous(self, start: datetime, *, inclusive: bool = False) -> datetime | None:
        """The last run before `start`, or with `inclusive` at it; None where there is none since year 2. A run in year 1 may be missed."""
    def runs(
        self,
        start: datetime,
        *,
        count: int | None = None,
        until: datetime | None = None,
        inclusive: bool = False,
    ) -> Iterator[datetime]:
        """The runs after `start`, or with `inclusive` from it on, in order: `count` of them, or those up to `until`, which may be one; else
        all that are left. A negative `count` raises ValueError."""
    def __iter__(self) -> Iterator[datetime]:
        """The runs from now on, in UTC."""
    def matches(self, time: datetime) -> bool:
        """Whether the pattern names the second that the clock shows at `time`. No pattern names one after year 5000."""
    def describe(self, language: _Language = "en") -> str:
        """croner's own description."""
    def summary(self, language: _Language = "en") -> str:
        """A shorter text that says exactly what the pattern schedules."""
    def __eq__(self, other: object) -> bool: ...
    def __lt__(self, other: Cron) -> bool: ...
    def __le__(self, other: Cron) -> bool: ...
    def __gt__(self, other: Cron) -> bool: ...
    def __ge__(self, other: Cron) -> bool: ...
    def __hash__(self) -> int: ...
    def __reduce__(self) -> tuple[Any, ...]: ...

class Start(NamedTuple):
    """A second at which cron starts a job, and how often: more than once only where the clock has skipped minutes."""

    time: datetime
    times: int

class CrontabLine:
    """A line of a crontab, as Debian's cron reads it."""

    def __init__(self, text: str, *, system: bool = False) -> None:
        """Reads a line; with `system` one of the system's crontab, where a user comes before the command. Raises CronError where cron refuses
        it. Bytes that are no UTF-8 are those that the error handler `surrogateescape` gives; another surrogate is refused."""
    @property
    def text(self) -> str: ...
    @property
    def system(self) -> bool: ...
    @property
    def kind(self) -> Literal["blank", "comment", "setting", "job", "reboot", "never"]:
        """`never`: a job of which a field names nothing. `reboot`: one that starts with the machine."""
    @property
    def schedule(self) -> str:
        """A job's five fields, or its nickname; else empty, as the next two."""
    @property
    def user(self) -> str: ...
    @property
    def command(self) -> str: ...
    def starts(self, start: datetime, *, count: int | None = None, until: datetime | None = None) -> Iterator[Start]:
        """When cron starts the job after `start`, if cron runs all the time; nothing for a line of another kind than `job`."""
    def __eq__(self, other: object) -> bool: ...
    def __hash__(self) -> int: ...
    def __reduce__(self) -> tuple[Any, ...]: ...
