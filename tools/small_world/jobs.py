"""The jobs of a run file's tables, as docs/TABLES.md tells them: when each may start, and how its launches are named. Of a
crontab's entry a launch is known by its instant, of an anacrontab's job by its date, as the number of days since the epoch."""
import re
from bisect import bisect_right
from typing import NamedTuple

from run_file_lib.anacrontabs import fnv
from run_file_lib.crontabs import NICKNAMES
from run_file_lib.matching import values_of

from .instants import DAY, date_of, stamp_of

# The periods of an anacrontab that are days, by their names.
DAYS = {"@daily": 1, "@weekly": 7}


class Version(NamedTuple):
    """A version of a table: the minute from which on it may be adopted, and the jobs in order as it has them. Each version of a table has
    the same names in the same places."""

    first: int
    jobs: list


class Job:
    """A job by its name. One with a `/` runs by its period in each version that has it, and any other at its due instants. What isn't
    said otherwise is so of a job that isn't launched."""

    def __init__(self, name):
        self.name = name
        self.by_period = "/" in name
        # The instants of a window at which it is due.
        self.dues = []

    def prepare(self, first, end):
        """Works out the instants of a window at which it is due."""

    def start_at(self, row, now, since):
        """The launch that may start at a clock reading, by the job's row of the launch table and the minute since when the version is in
        force, if there is one; none where none may."""

    def has_come(self, at, now):
        return at <= now

    def is_in_time(self, at, now, grace):
        return now <= at + grace

    def title(self, at):
        """The name of a launch."""
        when = date_of(at) if self.by_period else stamp_of(at).replace("-", "").replace(":", "")
        return f"{self.name}@{when}"

    def listed(self, version=0):
        """The lines of a due list that are of it, as the version of that number has it."""
        return [f"job {self.name} version {version} count {len(self.dues)}"]


class Entry(Job):
    """An entry of five fields: its zone, and when it is due within a window."""

    def __init__(self, name, zone, texts, owner, command):
        super().__init__(name)
        self.zone = zone
        self.values = [values_of(place, text, owner, command) for place, text in enumerate(texts)]
        self.stars = [text.startswith("*") for text in texts]
        self.times = {60 * hour + minute for hour in self.values[1] for minute in self.values[0]}
        self.days = {}

    def is_day(self, day):
        if day not in self.days:
            date = date_of(day)
            _, _, days, months, week_days = self.values
            either = [date.day in days, date.isoweekday() % 7 in week_days]
            agrees = all(either) if self.stars[2] or self.stars[4] else any(either)
            self.days[day] = agrees and date.month in months
        return self.days[day]

    def matches(self, local):
        day, time = divmod(local, DAY)
        return time in self.times and self.is_day(day)

    def is_due(self, minute):
        shown, before = self.zone.local(minute), self.zone.local(minute - 1)
        if self.stars[0] or self.stars[1]:
            return self.matches(shown)
        if self.matches(shown) and all(self.zone.local(minute - back) != shown for back in range(1, 180)):
            return True
        return shown - before - 1 < 180 and any(map(self.matches, range(before + 1, shown)))

    def prepare(self, first, end):
        self.dues = [minute for minute in range(first, end) if self.is_due(minute)]

    def behind(self, instant):
        """How many of its due instants aren't later than an instant, if there is one."""
        return 0 if instant is None else bisect_right(self.dues, instant)

    def start_at(self, row, now, since):
        place = max(self.behind(row.cursor), self.behind(since))
        return self.dues[place] if place < len(self.dues) and self.dues[place] <= now else None

    def listed(self, version=0):
        lines = [f"due {self.title(minute)} {stamp_of(self.zone.local(minute))[:-1]}" for minute in self.dues]
        return [*super().listed(version), *lines]


class Never(Job):
    """A job that is never launched."""


class Periodic(Job):
    """A job of an anacrontab: its zone, its period, and the minutes of the day from which on and before which it starts."""

    def __init__(self, name, zone, period, first, last):
        super().__init__(name)
        self.zone = zone
        self.period = period
        self.first = first
        self.last = last

    def is_over(self, last, day):
        """Whether its period is over on a date, by the date of its last launch."""
        before, date = date_of(last), date_of(day)
        if self.period == "@monthly":
            return (before.year, before.month) < (date.year, date.month)
        if self.period in ("@yearly", "@annually"):
            return before.year < date.year
        return day - last >= (DAYS.get(self.period) or int(self.period))

    def start_at(self, row, now, since):
        day, time = divmod(self.zone.local(now), DAY)
        later = row.cursor is None or row.cursor < day
        allowed = later and self.first <= time < self.last
        return day if allowed and (row.last is None or self.is_over(row.last, day)) else None

    def has_come(self, at, now):
        return at <= self.zone.local(now) // DAY

    def is_in_time(self, at, now, grace):
        return at == self.zone.local(now) // DAY

    def listed(self, version=0):
        return [f"anacron {self.name} version {version}"]


def entry_of(name, zone, line, kind, owner):
    """The entry of a line."""
    if line.startswith("@"):
        nickname, rest = re.split(r"[ \t]+", line, maxsplit=1)
        texts = NICKNAMES[nickname].split()
    else:
        *texts, rest = re.split(r"[ \t]+", line, maxsplit=5)
    if kind == "system":
        owner, rest = re.split(r"[ \t]+", rest, maxsplit=1)
    return Entry(name, zone, texts, owner, rest) if texts else Never(name)


def parts_of(lines):
    """What each line of a table is that says something: a variable with its value, or a job."""
    for line in (line.lstrip(" \t") for line in lines):
        variable = re.fullmatch(r"([A-Za-z_]\w*)[ \t]*=[ \t]*(.*?)[ \t]*", line)
        if variable:
            yield variable[1], re.sub(r"""^(["'])(.*)\1$""", r"\2", variable[2])
        elif line and not line.startswith("#"):
            yield None, line


def entries_of(zones, kind, label, zone, lines):
    """The jobs of a crontab."""
    count = 0
    for variable, text in parts_of(lines):
        if variable == "CRON_TZ":
            zone = text
        if variable is None:
            count += 1
            yield entry_of(f"{label}:{count}", zones[zone], text, kind, label)


def periodic_jobs_of(zone, label, lines):
    """The jobs of an anacrontab."""
    # A backslash at a line's end joins the next line to it; at the end of the last line it is a blank.
    text = "\n".join(lines).replace("\\\n", "  ")
    text = text[:-1] + " " if text.endswith("\\") else text
    most_added, hours = 0, (0, 24)
    for variable, text in parts_of(text.split("\n")):
        if variable == "RANDOM_DELAY":
            most_added = int(text)
        if variable == "START_HOURS_RANGE":
            hours = tuple(map(int, text.split("-")))
        if variable is None:
            period, delay, identifier, _ = re.split(r"[ \t]+", text, maxsplit=3)
            added = fnv(identifier.encode()) % (most_added + 1)
            yield Periodic(f"{label}/{identifier}", zone, period, 60 * hours[0] + int(delay) + added, 60 * hours[1])


def jobs_of(zones, kind, label, zone, lines):
    """The jobs of a table, in order."""
    if kind == "anacrontab":
        return list(periodic_jobs_of(zones[zone], label, lines))
    return list(entries_of(zones, kind, label, zone, lines))


def versions_of(told):
    """The versions of a table, of each of which its first minute is told, and its jobs; a job that a version lacks is never launched
    there."""
    names = dict.fromkeys(job.name for _, jobs in told for job in jobs)
    owned = [(first, {job.name: job for job in jobs}) for first, jobs in told]
    return [Version(first, [own.get(name) or Never(name) for name in names]) for first, own in owned]
