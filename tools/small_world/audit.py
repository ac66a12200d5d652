"""An audit: a run, a report and a journal that anybody wrote, judged as the program does with --audit. The journal is taken line
by line, and what comes after a line doesn't count for it. The answer is `audit yes`, or `audit no L W` with the first line that
can't be, counted from the report's first one, and why."""
import calendar
import re
from itertools import zip_longest

from .replay import BadJournal, Replay
from .run_file import RunFile
from .texts import report_of
from .verdict import Judged, Refused

# Why a line can't be: it has no form of a journal's line; it is that of a turn that no replica may take next, whatever the script says;
# it isn't what comes next; it is missing; and, where the journal is the run's, the report is another one.
BAD_LINE, NOT_LEGAL, NOT_OBEYED, MISSING, OTHER_REPORT = range(1, 6)
# What may be read, and how much of it may be the run.
MOST_BYTES, MOST_OF_RUN = 67_108_864, 1_048_576
FIRST, REPORT, END = "cron journal 1", b"cron report 1", b"end"
# What stands for a line that isn't UTF-8.
UNREADABLE = "?"
# What stands for a last line without its newline. It is like no line.
UNENDED = "\n"

NUMBER = r"(?:0|[1-9][0-9]*)"
CLOCK = r"tick (?P<{}>[0-9]{{4}}-[0-9]{{2}}-[0-9]{{2}}T[0-9]{{2}}:[0-9]{{2}}Z)"
CALLED = r"(?: (?:done|lost-before|lost-after|late)(?: [^ \t]+ (?:launch|void))?)?"
BROKEN_OFF = rf"stop (?:kept|lost) (?:campaign|answer|hear {NUMBER}|{CLOCK.format('stopped')})"
STEP = rf"campaign|answer|restart|stop|{BROKEN_OFF}|hear {NUMBER}|{CLOCK.format('clock')}{CALLED}"
TURN = re.compile(rf"{NUMBER} (?:{NUMBER} (?:{STEP})|- arrive {NUMBER})")
OTHER = re.compile(rf"{FIRST}|command {NUMBER}|command end|end")


def is_stamp(text):
    """Whether a text in the form of a stamp is one, of a date that exists. There is a year 0000, which is a leap year."""
    year, month, day, hour, minute = map(int, re.findall("[0-9]+", text))
    if not 1 <= month <= 12:
        return False
    days = calendar.mdays[month] + (month == 2 and calendar.isleap(year))
    return 1 <= day <= days and hour < 24 and minute < 60


def is_turn(line):
    """Whether a line has the form of a turn's."""
    form = TURN.fullmatch(line)
    return form is not None and all(is_stamp(stamp) for stamp in form.groups() if stamp)


class Audited(Judged):
    """A world whose turns are those of a journal, of which all lines behind the first one are given."""

    def told(self):
        return self.lines[self.place] if self.place < len(self.lines) else ""

    def play(self):
        super().play()
        self.place += 1
        if self.place < len(self.lines):
            self.refuse("stands behind the end")
        return self


def is_legal(run, before, line):
    """Whether a turn that may follow those of the lines before, be it one of the script or another, has this line."""
    replay = Replay(run)
    try:
        for number, told in enumerate([*filter(is_turn, before), line]):
            replay.take_line(number, told)
    except BadJournal:
        return False
    return True


def why_not(run, lines, number):
    """Why the line of that number can't follow those before it."""
    if number > len(lines):
        return MISSING
    line = lines[number - 1]
    if is_turn(line):
        return NOT_OBEYED if is_legal(run, lines[: number - 1], line) else NOT_LEGAL
    return NOT_OBEYED if OTHER.fullmatch(line) else BAD_LINE


def judged(run, lines):
    """The world of a journal's lines, and none; or none, and the first line that can't be, counted from 1, and why."""
    try:
        if lines[:1] != [FIRST]:
            raise Refused(1, f"isn't {FIRST!r}")
        return Audited(run, lines[1:]).play(), None
    except Refused as refused:
        return None, (refused.number, why_not(run, lines, refused.number))


def line_in(content):
    """A line of the report or the journal, by its bytes."""
    try:
        return content.decode()
    except UnicodeDecodeError:
        return UNREADABLE


def split(content):
    """The bytes of the run, the lines of the report, and those of the journal."""
    *ended, last = content.split(b"\n")
    lines = [*ended, last] if last else ended
    if REPORT not in lines:
        return content, [], []
    begin = len(lines) - 1 - lines[::-1].index(REPORT)
    run = b"".join(line + b"\n" for line in lines[:begin])
    behind = lines.index(END, begin) + 1 if END in lines[begin:] else len(lines)
    report, journal = ([line_in(line) for line in part] for part in (lines[begin:behind], lines[behind:]))
    if journal and last:
        journal[-1] = UNENDED
    return run, report, journal


def audit(content):
    """The first line that can't be, counted from the report's first one, and why; none where there is none. The run has to be one that
    the program takes."""
    run, report, journal = split(content)
    world, fault = judged(RunFile(run.decode()), journal)
    if fault:
        number, why = fault
        return len(report) + number, why
    pairs = zip_longest(report, report_of(world).split("\n")[:-1])
    return next(((number, OTHER_REPORT) for number, (told, found) in enumerate(pairs, 1) if told != found), None)


def is_too_long(content):
    """Whether the input or its run is over its limit."""
    return len(content) > MOST_BYTES or len(split(content)[0]) > MOST_OF_RUN


def answer(content):
    """What the program writes: its one line with its newline."""
    fault = audit(content)
    return "audit no {} {}\n".format(*fault) if fault else "audit yes\n"
