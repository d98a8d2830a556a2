"""The weeks of a shop, as its calendar has them."""

import datetime
from dataclasses import dataclass

from whole_files import Refused

WEEK = datetime.timedelta(weeks=1)
MOST_WEEKS = 104


@dataclass
class Calendar:
    """The first day of the horizon, its count of weeks, the workdays of a week, from Monday, and the holidays."""

    start: datetime.date
    weeks: int
    workdays: list
    holidays: set

    def mondays(self):
        """The first day of each week, from week 1 on, as texts."""
        return [(self.start + week * WEEK).isoformat() for week in range(self.weeks)]

    def week_of(self, date):
        """The week of a date, or None outside the horizon."""
        week = (date - self.start) // WEEK + 1
        return week if 1 <= week <= self.weeks else None

    def shop_days(self):
        """How many shop days each week has, from week 1 on."""
        free = [date - self.start for date in self.holidays if self.week_of(date) and date.weekday() in self.workdays]
        return [len(self.workdays) - sum(day // WEEK == week for day in free) for week in range(self.weeks)]


def number_in(text):
    """The number of a cell, which may have any count of zeros in front; Python takes 4,300 digits."""
    return int(text.lstrip("0") or "0")


def read_calendar(path, records):
    """The calendar of these records; the path is where they are from."""
    told = {key: value for key, value in records if key != "holiday"}
    try:
        start, weeks = datetime.date.fromisoformat(told["start"]), number_in(told["weeks"])
        workdays = [day for day, sign in enumerate(told["workdays"]) if sign == "1"]
        holidays = {datetime.date.fromisoformat(value) for key, value in records if key == "holiday"}
    except (KeyError, ValueError):
        raise Refused(f"{path}: has no start, weeks, workdays and holidays that can be read") from None
    if start.weekday() or not 1 <= weeks <= MOST_WEEKS:
        raise Refused(f"{path}: expected a Monday as start, and 1 to {MOST_WEEKS} weeks")
    return Calendar(start, weeks, workdays, holidays)
