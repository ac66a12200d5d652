"""What was audited: the run, its turns before the line at fault, and what is wrong with that line."""
import subprocess
from typing import NamedTuple, Optional

from small_world.audit import BAD_LINE, MISSING, NOT_LEGAL, NOT_OBEYED, OTHER_REPORT, answer, is_turn, split
from small_world.replay import BadJournal, Replay
from small_world.run_file import RunFile

# The statuses with which the program tells what it found.
GOOD, BAD = 0, 6
YES = "audit yes"
WHY = {
    BAD_LINE: "has no form of a journal's line",
    NOT_LEGAL: "is a turn that nobody can take then",
    NOT_OBEYED: "isn't what the script asks for then",
    MISSING: "is missing",
    OTHER_REPORT: "of the report is another one",
}
# A line that says more is cut there.
MOST_SAID = 60


class Fault(NamedTuple):
    """A line at fault, as it is told; the replica whose turn it tells, where it tells one; and whether turns go on behind it."""

    text: str
    who: Optional[int]
    is_of_report: bool


class Audited(NamedTuple):
    """What was read: the text of the run, its turns so far, and the line at fault where there is one."""

    text: str
    world: Replay
    fault: Optional[Fault]


def asked(program, content):
    """What the program answers."""
    done = subprocess.run([program, "--audit"], input=content, stdout=subprocess.PIPE, stderr=subprocess.PIPE, check=False)
    if done.returncode not in (GOOD, BAD):
        raise BadJournal(f"the program ends with status {done.returncode}: {done.stderr.decode(errors='replace').strip()}")
    return done.stdout.decode()


def replayed(run, lines):
    """The world after the lines of a journal, of which each may be one of the run."""
    world = Replay(run)
    for number, line in enumerate(lines, 1):
        if line.startswith("command "):
            world.take_part(number, line)
        elif is_turn(line):
            world.take_line(number, line)
    return world


def fault_of(number, why, line, members):
    """What is wrong with the line of that number, counted from the report's first one; there is none where it is missing."""
    told = (line or "").strip()
    said = f": {told if len(told) <= MOST_SAID else f'{told[:MOST_SAID]} ..'}" if told else ""
    words = line.split() if line is not None and is_turn(line) else []
    who = int(words[1]) if words and words[1] != "-" and int(words[1]) < members else None
    return Fault(f"line {number} {WHY[why]}{said}", who, why == OTHER_REPORT)


def audited(program, content):
    """What was read, as the program judges it; without a program as the small world does."""
    run, report, journal = split(content)
    text, said = run.decode(), (asked(program, content) if program else answer(content)).split()
    here = RunFile(text)
    if " ".join(said) == YES:
        return Audited(text, replayed(here, journal), None)
    number, why = map(int, said[2:])
    place = number - len(report) - 1
    if why == OTHER_REPORT:
        return Audited(text, replayed(here, journal), fault_of(number, why, dict(enumerate(report, 1)).get(number), here.members))
    line = journal[place] if place < len(journal) else None
    return Audited(text, replayed(here, journal[:place]), fault_of(number, why, line, here.members))
