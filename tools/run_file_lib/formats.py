"""The forms of a due list's rows: as text, as objects of JSON, and as comma-separated values. docs/MACHINE.md tells each field."""
import csv
import io
import json
from datetime import date

from .due_list import ANACRON_JOB, CLOCK, LAUNCH, REBOOT, Row, row_of, rows_of
from .faults import place, shown

VERSION = 1
FIELDS = "version kind local weekday zone utc entry_local entry_zone moved_from user file line job command text".split()
WEEK_DAYS = "Mon Tue Wed Thu Fri Sat Sun".split()
# What stands where there is nothing to tell.
NOTHING = "-"
WORDS = {REBOOT: "@reboot", ANACRON_JOB: "anacron"}
# The fields from this one on are told by a launch's job, and those before by its minute, where the launch is a plain one.
FIRST_OF_JOB = FIELDS.index("user")


class WeekDays(dict):
    """The day of the week of each date, as `2024-03-31`."""

    def __missing__(self, day):
        self[day] = WEEK_DAYS[date.fromisoformat(day).weekday()]
        return self[day]


def utc_of(at):
    """An instant as a stamp without its `Z`."""
    return f"{at[:4]}-{at[4:6]}-{at[6:8]}T{at[9:11]}:{at[11:]}"


class Form:
    """A form of rows, each of which is a line. That of a plain launch has two parts: what the launches of its minute have in common,
    and what those of its job do."""

    head = ()

    def lines(self, minute):
        """The lines of a minute."""
        if minute.changes:
            return [self.line(row) for row in rows_of(minute)]
        front, ends = self.front(minute.instant, minute.local), self.ends
        return [
            front + ends[launch.origin.name] if launch.is_plain else self.line(row_of(minute, launch)) for launch in minute.launches
        ]


class Text(Form):
    """Rows as lines of columns."""

    def __init__(self, due):
        origins = due.origins.values()
        places = {origin.name: place(origin.section.file, origin.job.line) for origin in origins}
        width = max(map(len, places.values()), default=1)
        users = {origin.name: shown(origin.job.user or NOTHING) for origin in origins}
        most = max(map(len, users.values()), default=1)
        self.fronts = {name: f"{where:{width}}  {users[name]:{most}}  " for name, where in places.items()}
        self.commands = {origin.name: shown(origin.job.command) for origin in origins}
        self.ends = {name: front + self.commands[name] for name, front in self.fronts.items()}
        self.nowhere = f"{NOTHING:{width}}  {NOTHING:{most}}  "
        self.days = WeekDays()

    def line(self, row, more=None):
        """The line of a row. More may be told of it before its command."""
        if row.instant is None:
            name = row.origin.name
            word = f"{WORDS[row.kind]:8}{NOTHING:7}{NOTHING:5}  {NOTHING:17}"
            return f"{word}  {self.fronts[name]}{f'[{more}] ' if more else ''}{self.when(row)}{self.commands[name]}"
        front = self.front(row.instant, row.local)
        if row.kind == CLOCK:
            return f"{front}{self.nowhere}-- {row.text} --"
        if not row.other and not row.moved and not more:
            return front + self.ends[row.origin.name]
        return f"{front}{self.fronts[row.origin.name]}{self.remarks(row, more)} {self.commands[row.origin.name]}"

    def front(self, instant, local):
        """The columns of a time."""
        day, time, utc = local[:10], local[11:], utc_of(instant)
        return f"{self.days[day]} {day} {time}  {NOTHING if utc == local else utc + 'Z':17}  "

    def when(self, row):
        """When a row without an instant is launched."""
        return f"{row.origin.job.when}: " if row.kind == ANACRON_JOB else ""

    def remarks(self, row, more):
        """What is told of a row before its command: the clock of another zone, from when it was moved, and what more there is."""
        told = [more] if more else []
        if row.other:
            day = "" if row.other[:10] == row.local[:10] else f"{self.days[row.other[:10]]} {row.other[:10]} "
            told.append(f"{day}{row.other[11:]} {row.origin.zone}")
        if row.moved:
            told.append(f"moved from {row.moved:%H:%M}")
        return f"[{', '.join(told)}]"


class Fields(Form):
    """Rows as fields with their names."""

    def __init__(self, due):
        self.zone = due.zone
        self.days = WeekDays()
        self.ends = {name: self.end(origin) for name, origin in due.origins.items()}

    def line(self, row):
        """The line of a row."""
        return self.written(self.values(row), 0)

    def front(self, instant, local):
        """The first part of a plain launch's line."""
        at = (VERSION, LAUNCH, local, self.days[local[:10]], self.zone, utc_of(instant) + "Z", local, self.zone, None)
        written = self.written(at, 0)
        return written[: len(written) - self.bracket] + self.between

    def end(self, origin):
        """The second part of a plain launch's line."""
        values = self.values(Row(LAUNCH, origin=origin))
        return self.written(values[FIRST_OF_JOB:], FIRST_OF_JOB)[self.bracket :]

    def values(self, row):
        """The values of a row's fields; none where a field says nothing."""
        at = (row.local, row.local and self.days[row.local[:10]], self.zone, row.instant and utc_of(row.instant) + "Z")
        if row.kind == CLOCK:
            return (VERSION, CLOCK, *at, None, row.other, *(None,) * 6, row.text)
        origin, job = row.origin, row.origin.job
        entry = (row.other or row.local, origin.zone, row.moved and f"{row.moved:%Y-%m-%dT%H:%M}")
        source = (job.user, origin.section.file, job.line, origin.name, job.command)
        return (VERSION, row.kind, *at, *(entry if row.kind == LAUNCH else (None,) * 3), *source, job.when or None)


class Json(Fields):
    """Rows as objects of JSON, one a line."""

    # What stands between two fields, and how many marks stand before the first one and behind the last one.
    between, bracket = ", ", 1

    def written(self, values, first):
        """Values as an object, of the fields from that one on."""
        return json.dumps(dict(zip(FIELDS[first:], values)), ensure_ascii=False)


class Csv(Fields):
    """Rows as comma-separated values."""

    head = (",".join(FIELDS),)
    between, bracket = ",", 0

    def written(self, values, _first):
        """Values as a row, which may hold line ends of its own in quotes."""
        written = io.StringIO()
        csv.writer(written, lineterminator="").writerow(["" if value is None else value for value in values])
        return written.getvalue()
