"""The lines of a run file: where its script stands, and what a script of it may name."""
import re
from collections import namedtuple
from datetime import datetime

from .operands import FORM, Frame
from .plain import plain_lines

# What is wrong with a line: its number, the column that the part at fault begins in, or 0 for the whole line, what is wrong, and
# the cause for which the program refuses it.
Fault = namedtuple("Fault", "line column text cause")
# A script: what it may name, the number of its first line, its lines, and how many lines stand before `script` and from `end` on.
# The end is none where the file ends before.
Script = namedtuple("Script", "frame first lines end")
TABLES = ("crontab", "system", "anacrontab")
# What else stands before the script, each in a line of its own.
OTHERS = ("zone", "version")
HEAD = [
    (25, "`cronrun 1`", re.compile("cronrun 1")),
    (26, "`replicas N`, with N from 1 to 7", re.compile("replicas ([1-7])")),
    (27, "`window STAMP STAMP`, the first before the second", re.compile(r"window (\S+) (\S+)")),
    (28, "`grace G`, with G from 0 to 525600", re.compile("grace (0|[1-9][0-9]{0,5})")),
]


def head_faults(lines):
    """What is wrong with the first four lines, as far as a script goes by them."""
    for number, (cause, form, pattern) in enumerate(HEAD, 1):
        line = lines[number - 1] if number <= len(lines) else None
        if line is None or not pattern.fullmatch(line) or (number == 3 and window_of(line) == (None, None)):
            yield Fault(number, 0, f"line {number} of a run file is {form}", cause)


def window_of(line):
    """The first minute of a window and the one behind it; none where the line is no window."""
    try:
        first, end = (datetime.strptime(word, FORM) for word in line.split(" ")[1:])
    except ValueError:
        return None, None
    return (first, end) if first < end else (None, None)


def frame_of(lines):
    """What a script may name, by the first lines."""
    members = HEAD[1][2].fullmatch(lines[1]) if len(lines) > 1 else None
    return Frame(int(members[1]) if members else None, *window_of(lines[2] if len(lines) > 2 else ""))


def begin_of(lines):
    """Where the line `script` stands behind tables, zones and versions: its place, or the place of the first line that is none of
    these."""
    place = 4
    while place < len(lines) and lines[place] != "script":
        words = lines[place].split(" ")
        if words[0] in TABLES and len(words) == 4 and words[3].isdigit():
            place += int(words[3])
        elif words[0] not in OTHERS:
            break
        place += 1
    return place


def script_of(lines):
    """The script of a run file, and what is wrong with how it stands there; no script where none is found."""
    begin = begin_of(lines)
    if begin >= len(lines):
        taken = "a table takes `script` for a line of its own: mend its COUNT"
        return None, [Fault(len(lines) + 1, 0, taken if "script" in lines else "the file ends before `script`", 31)]
    if lines[begin] != "script":
        told = "here a zone, a table or a version begins, or `script` stands; does the table before have the right COUNT?"
        return None, [Fault(begin + 1, 0, told, 31)]
    first = begin + 1
    end = lines.index("end", first) if "end" in lines[first:] else None
    script = Script(frame_of(lines), first + 1, lines[first:end], end)
    if end is None:
        return script, [Fault(len(lines) + 1, 0, "the file ends before `end`", 31)]
    return script, [Fault(end + 2, 0, "a line stands behind `end`; `end` is the last line", 30)] if lines[end + 1 :] else []


def lines_of(text):
    """The lines of a text. The last one may lack its newline."""
    lines = text.split("\n")
    return lines[:-1] if lines[-1] == "" else lines


def plain_run(text):
    """A run file whose script has no comments and no empty lines; the same text where no script is found."""
    lines = lines_of(text)
    script, _ = script_of(lines)
    if script is None:
        return text
    begin, end = script.first - 1, script.first - 1 + len(script.lines)
    kept = [*lines[:begin], *plain_lines(script.lines), *lines[end:]]
    return text if len(kept) == len(lines) else "".join(f"{line}\n" for line in kept)
