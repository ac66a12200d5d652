"""The lines of a table: which the program takes, and what is wrong with the others."""
from collections import namedtuple

from .anacrontabs import AnacronLines
from .crontabs import CrontabLines
from .faults import caused

# What is wrong at a line. Where the line itself is good but stands on another one that isn't, it follows from that.
Trouble = namedtuple("Trouble", "line text follows")

LEFT_OUT = "# left out by run_file"
MOST_LINES = 65_535
MOST_JOBS = 1000


def lines_of(data):
    """The lines of a file. A byte that is no UTF-8 stands in them as a lone surrogate."""
    lines = data.decode("utf-8", "surrogateescape").split("\n")
    return lines if lines[-1] else lines[:-1]


def text_fault(text):
    """What is wrong with a line whatever it says."""
    if "\0" in text:
        return caused(15, "there is a zero byte in the line")
    if any("\udc80" <= mark <= "\udcff" for mark in text):
        return caused(15, "the line isn't UTF-8")
    return None


def end_fault(text):
    """What is wrong with the end of a line that says something."""
    if text.endswith("\r"):
        return "the line ends with a carriage return, which would be a part of what it says"
    return None


class JobCount:
    """How many names the jobs of a run have. Those of a table begin with its label, and stand in each version of the tables for one."""

    def __init__(self, names=None, label=""):
        self.names = set() if names is None else names
        self.label = label

    def fault_of_one_more(self, job):
        """Counts a job; what is wrong where that is one too many."""
        name = self.label + job.ending
        if name not in self.names and len(self.names) == MOST_JOBS:
            return caused(23, f"this job is one too many: a run has at most {MOST_JOBS:,}")
        self.names.add(name)
        return None


def told_once(troubles):
    """Each text of the troubles of a table, with the lines that it is told of."""
    lines = {}
    for trouble in troubles:
        lines.setdefault(trouble.text, []).append(trouble.line)
    return lines.items()


class TableReader:
    """Reads one table. `kept` are its lines, with a comment in place of each that can't be taken; where the lines at fault are
    kept too, in place of each that is no text. `picked` are the lines of entries with a value that the label picks."""

    def __init__(self, kind, zones, count, owner=None, keeps_faults=False):
        self.judge = AnacronLines() if kind == "anacrontab" else CrontabLines(kind == "system", zones, owner)
        self.count = count
        self.keeps_faults = keeps_faults
        self.kept = []
        self.troubles = []
        self.jobs = []
        self.picked = []
        # The line of each variable in force that can't be taken.
        self.bad_settings = {}

    def read(self, lines):
        """Reads the lines of a table."""
        if len(lines) > MOST_LINES:
            fault = caused(29, f"it has more than {MOST_LINES:,} lines, the most of a table")
            self.troubles.append(Trouble(0, fault, False))
            return
        for group in self.judge.group(lines):
            self.read_group(len(self.kept) + 1, group)

    def read_group(self, number, group):
        """Reads lines that are read together, from the one of that number on."""
        text = self.judge.joined(group).lstrip(" \t")
        says_nothing = not text or text.startswith("#")
        trouble = self.text_trouble(number, text) if says_nothing else self.trouble_of(number, text)
        if trouble:
            self.troubles.append(trouble)
        is_left_out = text_fault(text) if self.keeps_faults else trouble
        self.kept += [LEFT_OUT] * len(group) if is_left_out else group

    def text_trouble(self, number, text):
        """What is wrong with an empty line or a comment."""
        fault = text_fault(text)
        return Trouble(number, fault, False) if fault else None

    def trouble_of(self, number, text):
        """What is wrong with a line that says something."""
        setting = self.judge.setting_of(text)
        fault = text_fault(text) or end_fault(text) or self.judge.fault_of(text)
        if setting:
            self.bad_settings.pop(setting, None)
        if setting and fault:
            self.bad_settings[setting] = number
        if fault or not self.judge.is_job(text):
            return Trouble(number, fault, False) if fault else None
        if self.bad_settings:
            line = min(self.bad_settings.values())
            return Trouble(number, f"it stands below line {line}, which can't be taken", True)
        job = self.judge.job_of(number, text, len(self.jobs) + 1)
        fault = self.count.fault_of_one_more(job)
        if not fault:
            self.add_job(job, text)
        return Trouble(number, fault, False) if fault else None

    def add_job(self, job, text):
        """Adds the job of a line."""
        self.jobs.append(job)
        if self.judge.is_picked_by_label(text):
            self.picked.append(job.line)
