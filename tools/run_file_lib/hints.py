"""Hints: what a crontab says and its writer hardly means. They are no faults."""
import re
from datetime import timedelta

from .clocks import UTC, changes_between
from .crontabs import split_word
from .due_list import Origin
from .faults import at, shown
from .fields import KINDS
from .matching import times_of

PERCENT = re.compile(r"(?<!\\)%")
STEP = re.compile(r"\*/([0-9]+)")
# Of which fields a step of `*` should divide the number of values.
CYCLES = {0: (60, "hour"), 1: (24, "day")}
# How far ahead the next change of a clock is looked for.
AHEAD = timedelta(days=400)
COMMANDS = ["/bin", "/sbin", "/usr/bin", "/usr/sbin", "/usr/local/bin", "/usr/local/sbin"]


class Hints:
    """The hints for the jobs of a run file."""

    def __init__(self, made, zones, users, root):
        self.made = made
        self.zones = zones
        self.users = users
        self.root = root
        self.changes = {}

    def lines(self):
        """The lines that show the hints, table by table."""
        for section in self.made.sections:
            if section.kind != "anacrontab":
                yield from self.lines_of(section)

    def lines_of(self, section):
        """The lines of a section."""
        seen = {}
        for job in section.jobs:
            owner = job.user if section.kind == "system" else section.label
            origin = Origin("", section, job, job.zone or section.zone, False, times_of(job.text, owner, job.command))
            for text in self.texts(origin, seen):
                yield at(section.file, job.line, f"hint: {text}")

    def texts(self, origin, seen):
        """The hints for a job. `seen` has the entries above it in its table, with their lines."""
        job = origin.job
        if PERCENT.search(job.command):
            yield "the command ends at its first `%`, and what is behind that is its standard input; write `\\%` for a percent sign"
        word, rest = split_word(job.command)
        if origin.section.kind == "crontab" and rest and self.users.knows(word) and not self.is_command(word):
            yield f"the command begins with `{shown(word)}`, a user of the machine, as an entry of a system table does"
        if origin.times is not None:
            yield from field_hints(origin.times)
            yield from self.skip_hints(origin)
        entry = (" ".join(job.text.split()), origin.zone)
        if entry in seen:
            yield f"the same entry stands in line {seen[entry]}, so it is launched twice"
        seen.setdefault(entry, job.line)

    def is_command(self, word):
        """Whether a word is the name of a command of the machine."""
        return "/" not in word and any(self.root.has(f"{folder}/{word}") for folder in COMMANDS)

    def skip_hints(self, origin):
        """What the next change of the clock that skips a time does to an entry."""
        for change in self.changes_of(origin.zone):
            skipped = origin.times.moved_from(change)
            if change.after > change.before:
                if skipped:
                    day = f"{change.before:%Y-%m-%d}"
                    yield f"{skipped:%H:%M} is skipped on {day} in {origin.zone}: it is launched at {change.after:%H:%M} then"
                return

    def changes_of(self, name):
        """The next changes of a zone's clock."""
        if name not in self.changes:
            first, zone = self.made.window.first, self.zones[name]
            self.changes[name] = [] if zone is UTC else list(changes_between(zone, first, first + AHEAD))
        return self.changes[name]


def field_hints(times):
    """What the fields of an entry say and hardly mean."""
    for place, (count, unit) in CYCLES.items():
        field = times.fields[place]
        step = STEP.fullmatch(field.text)
        if step and count % int(step[1]):
            values = ", ".join(map(str, sorted(field.values)))
            yield f"`{field.text}` of the {KINDS[place].name} is {values} of each {unit}, since {step[1]} doesn't divide {count}"
    if len(times.minute.values) == 60 and len(times.hour.values) < 24:
        yield f"it is due at each minute of the hour `{times.hour.text}`; a `0` for its minute is once"
    if not times.needs_both_days:
        yield "both of the day's fields are restricted, so it is due on each date that one of them matches"
    if times.is_never_due():
        yield "no month has such a day, so it is never due"
