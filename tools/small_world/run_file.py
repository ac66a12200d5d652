"""A run file that the program takes, read."""
from datetime import timezone
from typing import NamedTuple

from .instants import Zone, minute_of, zone_of
from .jobs import jobs_of, versions_of

# How many lines the head has; the kinds of tables below it, and what else stands there.
HEAD = 4
TABLES = ("crontab", "system", "anacrontab")
OTHERS = ("zone", "version")


class Part(NamedTuple):
    """What stands between the head of a run file and its script: the words of its line, the number of the line below, and the lines of
    its table, which a zone and a version haven't."""

    words: list
    first: int
    lines: list


def parts_of(lines):
    """The zones, the tables and the versions of a run file, in order. A line of a table is none of them, whatever it says."""
    place = HEAD
    while lines[place] != "script":
        words = lines[place].split(" ", 3)
        place += 1
        if words[0] not in TABLES + OTHERS:
            raise ValueError(f"line {place} of the run file is neither a zone nor a table nor a version")
        count = int(words[3]) if words[0] in TABLES else 0
        yield Part(words, place + 1, lines[place : place + count])
        place += count


def sections_of(lines):
    """The tables of a run file, those of all versions: of each its kind, its label, its zone, the number of its first line, and its
    lines."""
    return [(*part.words[:3], part.first, part.lines) for part in parts_of(lines) if part.words[0] in TABLES]


def versions_in(parts, zones, first):
    """The versions that the parts of a run file tell: of each the minute from which on it may be adopted, and the jobs of its tables.
    The first one comes with the window."""
    told = [(first, [])]
    for part in parts:
        if part.words[0] == "version":
            if int(part.words[1]) != len(told):
                raise ValueError(f"line {part.first - 1} of the run file should begin version {len(told)}")
            told.append((minute_of(part.words[2]), []))
        elif part.words[0] in TABLES:
            told[-1][1].extend(jobs_of(zones, *part.words[:3], part.lines))
    return told


def script_of(lines, parts):
    """The commands of a run file, as lists of words."""
    begin = parts[-1].first + len(parts[-1].lines) if parts else HEAD + 1
    return [line.split(" ") for line in lines[begin : lines.index("end", begin)]]


class RunFile:
    """What a run file says: how many replicas there are, the window, the grace, the versions of the jobs, and the commands as lists of
    words."""

    def __init__(self, text):
        lines = text.split("\n")
        parts = list(parts_of(lines))
        self.window = lines[2]
        self.members = int(lines[1].split()[1])
        self.first, self.end = map(minute_of, self.window.split()[1:])
        self.grace = int(lines[3].split()[1])
        zones = {"UTC": Zone(timezone.utc)}
        zones.update((part.words[1], zone_of(*part.words[2:])) for part in parts if part.words[0] == "zone")
        self.take_versions(versions_in(parts, zones, self.first))
        self.script = script_of(lines, parts)

    def take_versions(self, told):
        """Takes versions of the jobs in place of those that it has: of each the minute from which on it may be adopted, and the jobs that
        it has. `jobs` are those of the first one, whose names are those of each."""
        self.versions = versions_of(told)
        self.jobs = self.versions[0].jobs
        for version in self.versions:
            for job in version.jobs:
                job.prepare(self.first, self.end)

    def listed(self):
        """The lines of a due list, but for the first and the last one: of each version those of its jobs."""
        numbered = [(number, job) for number, version in enumerate(self.versions) for job in version.jobs]
        return [line for number, job in numbered for line in job.listed(number)]
