"""What is wrong with a line of an anacrontab, by the rules of docs/TABLES.md."""
import re

from .crontabs import assignment_of, command_fault, quoted_name_fault, split_word
from .faults import caused, shown
from .origins import Job

# The periods that have names, in words.
PERIODS = {
    "@daily": "once a day",
    "@weekly": "once in 7 days",
    "@monthly": "once a month",
    "@yearly": "once a year",
    "@annually": "once a year",
}
NUMBER = re.compile("0|[1-9][0-9]{0,3}")
HOURS = re.compile("(0|[1-9][0-9]?)-(0|[1-9][0-9]?)")
MOST_BYTES_OF_AN_IDENTIFIER = 64
FNV_BASE, FNV_PRIME = 0xCBF29CE484222325, 0x100000001B3


class AnacronLines:
    """The lines of one anacrontab, judged from the first one on."""

    def __init__(self):
        self.identifiers = set()
        # What the variables in force say: the hours in which jobs start, and how many minutes may be added to a delay.
        self.hours = (0, 24)
        self.most_added = 0

    def group(self, lines):
        """The lines that are read together: one that ends with a backslash goes on in the next."""
        groups = [[]]
        for number, line in enumerate(lines, 1):
            groups[-1].append(line)
            if number < len(lines) and not line.endswith("\\"):
                groups.append([])
        return groups if lines else []

    def joined(self, lines):
        """The text of such lines: a backslash and the line's end count as blanks."""
        return "".join(line[:-1] + "  " if line.endswith("\\") else line for line in lines)

    def is_job(self, text):
        """Whether a line that is no comment is a job."""
        return assignment_of(text) is None

    def job_of(self, number, text, _place):
        """The job of a line. The line is good."""
        _, rest = split_word(text)
        _, rest = split_word(rest)
        identifier, command = split_word(rest)
        return Job(f"/{identifier}", number, command, self.when_of(text), "root", None, text)

    def when_of(self, text):
        """When a job is launched, in words. The line is good."""
        period, rest = split_word(text)
        delay, rest = split_word(rest)
        first, last = (60 * hour for hour in self.hours)
        first += int(delay) + fnv(split_word(rest)[0].encode()) % (self.most_added + 1)
        if first >= last:
            return f"never, since its first minute would be {clock(first)}, and its hours end at {clock(last)}"
        return f"{period_in_words(period)}, from {clock(first)} on and before {clock(last)}"

    def is_picked_by_label(self, _text):
        """Whether the label of the table picks a value of a job: nothing but the identifier picks one."""
        return False

    def setting_of(self, text):
        """The name of the variable that a line sets, where the program heeds it."""
        name, _ = assignment_of(text) or ("", "")
        return name if name in ("START_HOURS_RANGE", "RANDOM_DELAY") else None

    def fault_of(self, text):
        """What is wrong with a line that isn't empty, without the blanks before it, and is no comment."""
        assignment = assignment_of(text)
        if assignment is None:
            return self.job_fault(text)
        return self.setting_fault(*assignment)

    def setting_fault(self, name, value):
        """What is wrong with a line that sets a variable. What it sets holds from there on."""
        if name == "START_HOURS_RANGE":
            if not are_hours(value):
                return caused(19, "START_HOURS_RANGE isn't two hours from 0 to 24 that rise, as in 3-22")
            self.hours = tuple(map(int, value.split("-")))
        if name == "RANDOM_DELAY":
            if not NUMBER.fullmatch(value):
                return caused(20, "RANDOM_DELAY isn't 0 to 9999 minutes")
            self.most_added = int(value)
        return None

    def job_fault(self, text):
        """What is wrong with a job: a period, a delay, an identifier and a command."""
        fault = quoted_name_fault(text, 16)
        if fault:
            return fault
        period, rest = split_word(text)
        delay, rest = split_word(rest)
        identifier, command = split_word(rest)
        if period not in PERIODS and (period == "0" or not NUMBER.fullmatch(period)):
            return caused(16, f"the period `{shown(period)}` is neither 1 to 9999 days nor the name of one")
        if not delay:
            return caused(10, "there is no delay: a job has a period, a delay, an identifier and a command")
        if not NUMBER.fullmatch(delay):
            return caused(17, f"the delay `{shown(delay)}` isn't 0 to 9999 minutes")
        if not identifier:
            return caused(10, "there is no identifier: a job has a period, a delay, an identifier and a command")
        if "/" in identifier or len(identifier.encode("utf-8", "replace")) > MOST_BYTES_OF_AN_IDENTIFIER:
            return caused(18, f"the identifier has a `/` or more than {MOST_BYTES_OF_AN_IDENTIFIER} bytes")
        return command_fault(command) or self.name_fault(identifier)

    def name_fault(self, identifier):
        """What is wrong with the identifier of a job that is good otherwise."""
        if identifier in self.identifiers:
            return caused(22, f"a job above has the identifier `{shown(identifier)}`")
        self.identifiers.add(identifier)
        return None


def are_hours(text):
    """Whether a text is two hours from 0 to 24 that rise."""
    found = HOURS.fullmatch(text)
    return bool(found) and int(found[1]) < int(found[2]) <= 24


def period_in_words(period):
    """A period, from one launch to the next."""
    if period in PERIODS:
        return PERIODS[period]
    return PERIODS["@daily"] if period == "1" else f"once in {period} days"


def clock(minute):
    """A minute of the day, as a clock shows it."""
    return f"{minute // 60:02}:{minute % 60:02}"


def fnv(data):
    """FNV-1a of 64 bits, by which the program picks how many minutes are added to a delay."""
    value = FNV_BASE
    for byte in data:
        value = (value ^ byte) * FNV_PRIME % 2**64
    return value
