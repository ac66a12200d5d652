"""The due list of the program, as it is shown: each due instant with where it comes from, by time."""
import re
from collections import namedtuple
from datetime import datetime

from .clocks import UTC, changes_between, clock_at
from .faults import NoAnswer, shown
from .matching import times_of
from .origins import jobs_of
from .program import match_of
from .windows import answers

JOB = re.compile("job (.+) version [0-9]+ count [0-9]+")
ANACRON = re.compile("anacron (.+) version [0-9]+")
DUE = re.compile("due (.+)@([0-9]{8}T[0-9]{4})Z ([0-9]{4}-[0-9]{2}-[0-9]{2}T[0-9]{2}:[0-9]{2})")
INSTANT = "%Y%m%dT%H%M"
LOCAL = "%Y-%m-%dT%H:%M"
# Where the local time stands behind a launch's name: behind `20240331T0100Z `.
LOCAL_PLACE = 15
LAUNCH, CLOCK, REBOOT, ANACRON_JOB = "launch", "clock", "reboot", "anacron"

# A job as rows show it: its name, the section and the job that it is, the name of its zone, whether that isn't the tables', and the
# times of an entry.
Origin = namedtuple("Origin", "name section job zone is_elsewhere times")
# A row: its kind, its instant in UTC as the program writes it, the tables' clock there, that of the entry's zone where it is another,
# or the zone whose clock is changed, the first time that it was moved from, where it was, its origin, and the text of a change.
Row = namedtuple("Row", "kind instant local other moved origin text", defaults=[None, None, None, None, None, ""])
# A launch of a minute. It is plain where its row has neither another clock nor a time that it was moved from: then it is one and the
# same value for each launch of its job.
Launch = namedtuple("Launch", "origin other moved is_plain", defaults=[None, None, False])
# A minute: its instant, the tables' clock there, the changes of clocks, each with its zone's name, and the launches.
Minute = namedtuple("Minute", "instant local changes launches")


class DueList:
    """The rows of a due list."""

    def __init__(self, program, made, zone, zones):
        self.program = program
        self.made = made
        self.zone = zone
        self.zones = zones
        self.origins = {name: self.origin(name, *found) for name, found in jobs_of(made.sections).items()}
        # Of each zone its changes by their instants.
        used = {zone, *(origin.zone for origin in self.origins.values() if origin.job.text and origin.times)}
        self.changes = {name: self.changes_of(name) for name in sorted(used)}
        # Of the part of the window that was answered last: what the tables' clock shows, as far as the program tells, and the jobs
        # of anacrontabs. Where the window has no minute these are told all the same.
        self.clock, self.anacron = {}, [name for name, origin in self.origins.items() if origin.section.kind == "anacrontab"]

    def origin(self, name, section, job):
        """The origin of a job of that name."""
        zone = job.zone or section.zone
        owner = job.user if section.kind == "system" else section.label
        times = None if section.kind == "anacrontab" else times_of(job.text, owner, job.command)
        return Origin(name, section, job, zone, zone != self.zone, times)

    def changes_of(self, name):
        """The changes of a zone's clock in the window, by their instants."""
        window, clock = self.made.window, self.zones[name]
        found = [] if clock is UTC else changes_between(clock, window.first, window.last)
        return {change.instant.strftime(INSTANT): change for change in found}

    def rows(self):
        """The rows, in parts: those of each part of the window by time, and at last those that have no time."""
        for part in self.parts():
            yield [row for minute in part for row in rows_of(minute)]
        yield self.rows_without_time()

    def parts(self):
        """The minutes of each part of the window at which there is a launch or a change of a clock, in order."""
        waiting = sorted((at, name) for name, changes in self.changes.items() for at in changes)
        for lines in answers(self.program, self.made, self.most_per_day()):
            launches = self.launches_in(lines)
            last = max(launches, default="")
            come = [change for change in waiting if change[0] <= last]
            waiting = waiting[len(come) :]
            yield self.minutes(launches, come)
        yield self.minutes({}, waiting)

    def rows_without_time(self):
        """The rows of `@reboot`, and of the jobs of anacrontabs, once the parts have been told."""
        return [*self.rows_of_reboot(), *(Row(ANACRON_JOB, origin=self.found(name)) for name in self.anacron)]

    def most_per_day(self):
        """How many due instants a day has at most, but for one on which a clock is put back."""
        times = (origin.times for origin in self.origins.values() if origin.times)
        return sum(len(it.minute.values) * len(it.hour.values) for it in times)

    def found(self, name):
        """The origin of a job that the program names."""
        if name not in self.origins:
            raise NoAnswer(f"run_file: the program's answer has a job `{shown(name)}`, which no table has")
        return self.origins[name]

    def launches_in(self, lines):
        """The launches of an answer by their instants. Those of one instant are in the order of the tables, as all lines are."""
        self.clock, self.anacron = {}, []
        launches, known = {}, {}
        # How the lines of the job at hand begin, and what a launch of it is.
        front, origin, plain = "", None, None
        for line in lines:
            if not front or not line.startswith(front):
                if not line.startswith("due "):
                    self.read_other(line)
                    continue
                name = match_of(DUE, line)[1]
                front, origin = f"due {name}@", self.found(name)
                plain = Launch(origin, is_plain=True)
            text = line[len(front) :]
            if text not in known:
                known[text] = launches.setdefault(self.instant_of(line, origin), [])
            known[text].append(Launch(origin, text[LOCAL_PLACE:]) if origin.is_elsewhere else plain)
        return launches

    def instant_of(self, line, origin):
        """The instant of a line. What the clock shows there is kept where it is that of the tables."""
        _, at, local = match_of(DUE, line).groups()
        if not origin.is_elsewhere:
            self.clock[at] = local
        return at

    def read_other(self, line):
        """Reads a line that tells no launch."""
        if not line.startswith("anacron "):
            match_of(JOB, line)
            return
        name = match_of(ANACRON, line)[1]
        self.found(name)
        # In an answer of several versions the job stands once in each.
        if name not in self.anacron:
            self.anacron.append(name)

    def minutes(self, launches, changes):
        """The minutes of launches and of changes of clocks, in order."""
        texts = {}
        for at, name in changes:
            texts.setdefault(at, []).append((name, self.text_of(name, self.changes[name][at])))
            launches[at] = [self.moved(launch, at) for launch in launches.get(at, [])]
        return [Minute(at, self.local_at(at), texts.get(at, ()), launches[at]) for at in sorted(launches)]

    def moved(self, launch, at):
        """A launch at the instant of a change, with the time that it was moved from, where it was."""
        change = self.changes[launch.origin.zone].get(at)
        return launch._replace(moved=launch.origin.times.moved_from(change), is_plain=False) if change else launch

    def local_at(self, at):
        """What the tables' clock shows at an instant."""
        return self.clock.get(at) or clock_at(self.zones[self.zone], datetime.strptime(at, INSTANT)).strftime(LOCAL)

    def text_of(self, name, change):
        """The text of a change of a zone's clock."""
        form = "%H:%M" if change.before.date() == change.after.date() else "%Y-%m-%d %H:%M"
        return f"{name} goes from {change.before.strftime(form)} to {change.after.strftime(form)}"

    def rows_of_reboot(self):
        """The rows of `@reboot`."""
        for origin in self.origins.values():
            if origin.section.kind != "anacrontab" and origin.times is None:
                yield Row(REBOOT, origin=origin)


def rows_of(minute):
    """The rows of a minute."""
    for name, text in minute.changes:
        yield Row(CLOCK, minute.instant, minute.local, name, None, None, text)
    for launch in minute.launches:
        yield row_of(minute, launch)


def row_of(minute, launch):
    """The row of a launch."""
    return Row(LAUNCH, minute.instant, minute.local, launch.other, launch.moved, launch.origin)
