"""Run files made from seeds whose tables have versions: jobs are dropped, added, renamed and brought back, and have other times, zones
and kinds. Their scripts are those of made runs."""
import random
from typing import NamedTuple

from .instants import minute_of, stamp_of
from .made import CALLS, FIRST, IMAGES, OFTEN, PERIODS, SELDOM, break_run, free_run, script_run
from .run_file import HEAD, TABLES, parts_of

# What stands behind the fields of an entry, or the identifier of a job.
BEHIND = {"crontab": "job", "system": "root job", "anacrontab": "x"}
LABELS = {"alice", "bob", "carol", "dave", "etc"}
MOST_TABLES = 3
ZONES = {"UTC": None, "Delhi": "fixed +05:30", "Paris": "posix CET-1CEST,M3.5.0,M10.5.0/3"}
# How many versions follow the first one. In a longer window none has entries that are due often.
LATER = [1, 1, 2, 2, 3, 4, 7]
MOST_OFTEN = 120
# A script has so many rounds at once, or more, only where a replica is left behind or a launch table is kept.
MANY_ROUNDS = 70


class Table(NamedTuple):
    """A table of a version: its kind, its label, its zone, and of each job the line as far as it says when the job runs."""

    kind: str
    label: str
    zone: str
    jobs: tuple

    def lines(self):
        return [f"{self.kind} {self.label} {self.zone} {len(self.jobs)}", *(f"{job} {BEHIND[self.kind]}" for job in self.jobs)]

    def replaced(self, place, *jobs):
        """The table with these jobs in place of one."""
        return self._replace(jobs=(*self.jobs[:place], *jobs, *self.jobs[place + 1 :]))


class Versions:
    """Versions of tables in the making: each one comes of the one before by a change or some, or is an earlier one that comes back."""

    def __init__(self, chance, tables, times):
        self.chance = chance
        self.times = times
        self.made = [tables]

    def add(self):
        """Adds a version, and gives it."""
        if self.chance.random() < 0.25:
            self.made.append(self.chance.choice(self.made))
            return self.made[-1]
        tables = self.made[-1]
        for _ in range(self.chance.choice([1, 1, 2, 3])):
            tables = self.changed(tables)
        self.made.append(tables)
        return tables

    def changed(self, tables):
        """The tables of which one is another one or is gone, or with one more."""
        label = self.chance.choice(sorted(LABELS - {table.label for table in tables}))
        if not tables or (len(tables) < MOST_TABLES and self.chance.random() < 0.15):
            return [*tables, self.with_job(Table(self.chance.choice(TABLES), label, "UTC", ()))]
        place = self.chance.randrange(len(tables))
        ways = [self.with_job, self.without_job, self.at_another_time, self.in_another_zone, self.of_another_kind]
        way = self.chance.choice([*ways, lambda table: table._replace(label=label), None])
        return [*tables[:place], *([way(tables[place])] if way else []), *tables[place + 1 :]]

    def job(self, table, identifier):
        """A job at some time, which in an anacrontab has this identifier."""
        return f"{self.chance.choice(PERIODS)} {identifier}" if table.kind == "anacrontab" else self.chance.choice(self.times)

    def place(self, table):
        """The place of a job, or 0 where there is none."""
        return self.chance.randrange(len(table.jobs) or 1)

    def with_job(self, table):
        """It stands in front of others as well as behind all."""
        place = self.chance.randint(0, len(table.jobs))
        known = {job.split(" ")[-1] for job in table.jobs}
        identifier = self.chance.choice(sorted({f"job.{number}" for number in range(len(known) + 2)} - known))
        return table.replaced(place, self.job(table, identifier), *table.jobs[place : place + 1])

    def without_job(self, table):
        return table.replaced(self.place(table))

    def at_another_time(self, table):
        """A job keeps its name."""
        place = self.place(table)
        return table.replaced(place, *(self.job(table, job.split(" ")[-1]) for job in table.jobs[place : place + 1]))

    def in_another_zone(self, table):
        return table._replace(zone=self.chance.choice(sorted(set(ZONES) - {table.zone})))

    def of_another_kind(self, table):
        """Entries keep their names where a user's crontab becomes a system table; an anacrontab stays one, without its jobs."""
        others = {"crontab": "system", "system": "crontab"}
        return table._replace(kind=others[table.kind]) if table.kind in others else table._replace(jobs=())


def starts_of(chance, minutes, count):
    """From which minutes on so many versions may be adopted, in order: some come with the window's first one, some two at once."""
    starts = []
    for _ in range(count):
        starts.append(chance.choice([0, *starts[-1:], *(chance.randrange(minutes) for _ in range(4))]))
    return sorted(starts)


def taken_over(chance, members, start, is_broken):
    """Commands with which a leader stops, or its disk does, about where it adopts a version, and another one leads."""
    one, other = chance.sample(range(members), 2)
    at, before = stamp_of(start), f"{stamp_of(max(FIRST, start - 1))} {min(600, 60 + 6 * (start - FIRST))}"
    adopting = [f"round {at} {chance.choice([1, 1, 2, 3, 7, 8])}", f"stop {one}"]
    if is_broken:
        adopting = [f"break {one} {chance.choice(CALLS)} {chance.choice(IMAGES)}", f"round {at} 9"]
    return [f"campaign {one}", f"round {before}", *adopting, f"campaign {other}", f"round {at} 8", f"restart {one}"]


def with_starts(script, last, starts):
    """The lines of a script, with rounds at the starts of versions before many rounds at the last minute: what a replica misses in these
    has adoptions in it."""
    for line in script:
        word, *operands = line.split(" ")
        if word == "round" and operands[0] == last and int(operands[1]) >= MANY_ROUNDS:
            yield from (f"round {stamp_of(start)} 60" for start in starts)
        yield line


def version_lines(versions, starts):
    """The lines of the zones and of all versions: the first one, and one for each start."""
    yield from (f"zone {name} {source}" for name, source in ZONES.items() if source)
    yield from (line for table in versions.made[0] for line in table.lines())
    for number, start in enumerate(starts, 1):
        yield f"version {number} {stamp_of(start)}"
        yield from (line for table in versions.add() for line in table.lines())


def sort_of(seed):
    """What makes the script of a run with versions: in rounds, with free turns or with disks that stop, in turn."""
    return (script_run, free_run, break_run)[seed % 3]


def version_run(seed):
    """The run file of a seed whose tables have two to eight versions. Its first version and its script are those of a run of its sort; in
    some a leader stops about where it adopts a version."""
    sort, chance = sort_of(seed), random.Random(f"versions {seed}")
    lines = sort(seed).split("\n")
    begin, members = lines.index("script"), int(lines[1].split(" ")[1])
    first, end = map(minute_of, lines[2].split(" ")[1:])
    tables = [Table(*part.words[:3], tuple(line.rsplit(" ", 1)[0] for line in part.lines)) for part in parts_of(lines)]
    starts = [first + start for start in starts_of(chance, end - first, chance.choice(LATER))]
    versions = Versions(chance, tables, OFTEN + SELDOM if end - first <= MOST_OFTEN else SELDOM)
    told = list(version_lines(versions, starts))
    is_taken_over = sort is not free_run and members > 2 and chance.random() < 0.4
    more = taken_over(chance, members, starts[0], sort is break_run) if is_taken_over else []
    return "\n".join([*lines[:HEAD], *told, "script", *more, *with_starts(lines[begin + 1 :], stamp_of(end - 1), starts)])


def without_last_version(text):
    """A made run of versions without the last of them."""
    lines = text.split("\n")
    last = max(place for place, line in enumerate(lines) if line.startswith("version "))
    return "\n".join([*lines[:last], *lines[lines.index("script") :]])
