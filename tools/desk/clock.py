"""The Trading Day on the clock: from 06:00 local time to 06:00, in seconds from the first.

A time is typed as a time of day (that of the sheet's date), as a full date and time, or as a time of day with days after or
before the date ("01:30:00 +1"). Records carry no date; a day whose date is unknown has times of day only.
"""

import re
from datetime import date, datetime, time, timedelta, timezone
from zoneinfo import ZoneInfo

from desk.exact import HALF_HOUR, HALF_HOURS
from desk.measures import Wrong, kind_of, short

ZONE = "Europe/Dublin"
STARTS = time(6)
OF_DAY = re.compile(r"([0-9]{1,2}):([0-9]{2})(?::([0-9]{2}))?(?:\s*([+-][0-9]{1,2}))?", re.ASCII)


def zone_named(name):
    """A zone by its name."""
    if type(name) is not str:
        raise Wrong(f"{kind_of(name)}, where the name of a zone is wanted, such as {ZONE}")
    try:
        return ZoneInfo(name)
    except (KeyError, ValueError, OSError):
        raise Wrong(f"{short(name)} is no zone that this machine knows") from None


class Clock:
    """The times of one Trading Day. Without a date it counts in days of 24 hours."""

    def __init__(self, day: date | None = None, zone: str = ZONE):
        self.zone = zone
        self.date = day
        self.half_hours = HALF_HOURS
        if day is not None:
            self.local = zone_named(zone)
            self.start = self.instant(datetime.combine(day, STARTS))
            end = self.instant(datetime.combine(day + timedelta(1), STARTS))
            self.half_hours = (end - self.start) // timedelta(seconds=HALF_HOUR)
        self.seconds = self.half_hours * HALF_HOUR

    def instant(self, moment: datetime):
        """A date and time, local unless it has an offset, as one of UTC."""
        if not 1900 <= moment.year <= 2999:
            raise Wrong(f"{moment} is no time of a Trading Day")
        if moment.tzinfo is not None:
            return moment.astimezone(timezone.utc)
        here = moment.replace(tzinfo=self.local)
        there = here.astimezone(timezone.utc)
        if there.astimezone(self.local).replace(tzinfo=None) != moment:
            raise Wrong(f"{moment} does not exist in {self.zone}: the clocks go forward")
        if here.replace(fold=1).utcoffset() != here.utcoffset():
            raise Wrong(f"{moment} comes twice in {self.zone}: write its offset, as {here.isoformat()}")
        return there

    def second(self, value) -> int:
        """What was typed, as seconds from 06:00."""
        typed, days = value, 0
        if type(value) is str:
            value, days = self.of_text(value.strip())
        if type(value) is datetime and self.date is None:
            raise Wrong(f"{short(typed)}: the sheet's date is unknown, so a time of day is wanted")
        if type(value) not in (time, datetime):
            raise Wrong(f"{short(typed)}, where a time is wanted")
        if value.microsecond:
            raise Wrong(f"{short(typed)} is no whole second")
        if type(value) is datetime:
            return round((self.instant(value) - self.start).total_seconds())
        of_day = value
        if self.date is not None:
            there = self.instant(datetime.combine(self.date + timedelta(days), of_day))
            return round((there - self.start).total_seconds())
        return (of_day.hour - STARTS.hour) * 3600 + of_day.minute * 60 + of_day.second + days * 86_400

    def of_text(self, text):
        """Text as a date and time, or as a time of day and days after the date."""
        if match := OF_DAY.fullmatch(text):
            try:
                return time(int(match[1]), int(match[2]), int(match[3] or 0)), int(match[4] or 0)
            except ValueError:
                raise Wrong(f"{short(text)} is no time of day") from None
        try:
            if ":" not in text:
                raise ValueError
            return datetime.fromisoformat(text), 0
        except ValueError:
            words = "is no time; write 06:30, 06:30:00, 2026-11-17 01:30:00, or 01:30 +1 for the day after"
            raise Wrong(f"{short(text)} {words}") from None

    def moment(self, second):
        """Local date and time of a second, with its offset."""
        return (self.start + timedelta(seconds=second)).astimezone(self.local)

    def parts(self, second):
        """Days after the date, and time of day, of a second."""
        if self.date is None:
            days, rest = divmod(second + STARTS.hour * 3600, 86_400)
            return days, time(rest // 3600, rest // 60 % 60, rest % 60)
        there = self.moment(second)
        return (there.date() - self.date).days, there.time()

    def text(self, second):
        """A second of the day for a reader: 09:30:00, or 01:30:00 +1."""
        days, of_day = self.parts(second)
        shown = self.moment(second).isoformat().split("T")[1] if self.comes_twice(second) else str(of_day)
        return f"{shown} {days:+d}" if days else shown

    def comes_twice(self, second):
        """Whether the local time of a second comes twice, as the clocks go back."""
        if self.date is None:
            return False
        there = self.moment(second)
        return there.replace(fold=0).utcoffset() != there.replace(fold=1).utcoffset()

    def toml(self, second):
        """A second as a sheet has it; `second` reads it back."""
        if self.date is None:
            return f'"{self.text(second)}"'
        there = self.moment(second)
        if self.comes_twice(second):
            return there.isoformat()
        days, of_day = self.parts(second)
        return str(of_day) if days == 0 else there.replace(tzinfo=None).isoformat()

    def bounds(self):
        """The Trading Day's first and last second in words."""
        return f"{self.text(0)} to {self.text(self.seconds - 1)}"
