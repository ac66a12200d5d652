"""The entries of a machine's tables, and when the program says that each is due."""
import functools
import os
import re
from collections import namedtuple
from datetime import datetime, timedelta

from run_file_lib import stamps
from run_file_lib.clocks import EPOCH
from run_file_lib.due_list import INSTANT
from run_file_lib.faults import NoAnswer
from run_file_lib.gather import Gatherer
from run_file_lib.options import options_of
from run_file_lib.stamps import stamp_of
from run_file_lib.users import split_users
from run_file_lib.windows import answers

from .clock import Clock

# An entry: its name in the report, its file and line, its user, where that is known, its command, whether it is one of `@reboot`,
# and the minutes since 1970 at which it is due.
Entry = namedtuple("Entry", "name file line user command is_at_start dues")
DUE = re.compile(r"due (.+)@(\d{8}T\d{4})Z \S+")
# What stands before the user in a system table: five fields or a nickname.
USER = re.compile(r"[ \t]*(?:@\S+|(?:\S+[ \t]+){4}\S+)[ \t]+(\S+)")
MINUTE = timedelta(minutes=1)


class Silent:
    """Streams that keep nothing."""

    def output(self, data):
        pass

    def note(self, text):
        pass


class Tables:
    """The tables that the words of tools/run_file name."""

    def __init__(self, words, environment, streams):
        self.words = words
        self.environment = environment
        self.streams = streams
        silent = Gatherer(options_of(words), environment, Silent())
        name = silent.zone_of_the_tables()
        zone = silent.zones.local_times[name]
        self.clock = Clock(zone)
        self.stamps = stamps.Clock(name, zone)

    def minute_of(self, word, text):
        """The minute since 1970 of a stamp behind a word. What is to be told of it is told."""
        minute = (self.stamps.moment(word, text).instant - EPOCH) // MINUTE
        while self.stamps.notes:
            self.streams.note(f"# {self.stamps.notes.pop(0)}")
        return minute

    def are_all(self):
        """Whether these are all tables of a machine, and not some that are named."""
        options = options_of(self.words)
        return not (options.system or options.user or options.anacron)

    def entries(self, first, end):
        """The entries of crontabs and system tables, each with when it is due from one minute on and before another; and how many
        jobs of anacrontabs there are."""
        window = ["--from", stamp_of(EPOCH + first * MINUTE), "--until", stamp_of(EPOCH + end * MINUTE)]
        options = options_of([*self.words, *window])
        made = Gatherer(options, self.environment, self.streams).run_file(EPOCH)
        dues = dues_of(options.program, made)
        users = {file: user for user, file in split_users(options.user)}
        found, dates = [], 0
        for section in made.sections:
            for job in section.jobs:
                if section.kind == "anacrontab":
                    dates += 1
                else:
                    name = section.label + job.ending
                    text = section.lines[job.line - 1].lstrip(" \t")
                    user = user_of(section, text, users)
                    at_start = text.split()[0] == "@reboot"
                    found.append(Entry(name, section.file, job.line, user, job.command, at_start, dues.get(name, [])))
        return found, dates


def user_of(section, text, users):
    """Whose entry a line is; none where nothing tells it."""
    if section.kind == "system":
        return USER.match(text)[1]
    return users[section.file] if section.file in users else os.path.basename(section.file)


def dues_of(program, made):
    """The minutes at which each job is due, by its name."""
    found = {}
    for lines in answers(program, made, 1):
        for line in lines:
            if line.startswith("due "):
                due = DUE.fullmatch(line)
                if not due:
                    raise NoAnswer(f"ran: the program's answer has a line `{line}`")
                found.setdefault(due[1], []).append(minute_of(due[2]))
    return found


@functools.lru_cache(maxsize=100_000)
def minute_of(text):
    """The minute since 1970 of an instant, as a due list writes it."""
    return (datetime.strptime(text, INSTANT) - EPOCH) // MINUTE
