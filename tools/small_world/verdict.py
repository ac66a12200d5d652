"""Whether a journal may be one of a run: its lines are followed from the first one on, and each has to be the one that is worked
out. In a part of `free` the journal says whose turn comes next, and what that turn is, is worked out."""
import re

from .texts import turn_line
from .world import World

# The replica of a turn; a number of more digits is no replica's.
OWNER = re.compile(r"\d+ (\d{1,9}) ")
END = "end"


class Refused(Exception):
    """A journal that can't be one of the run: the number of its first line that can't be, and why."""

    def __init__(self, number, why):
        super().__init__(f"line {number} of the journal {why}")
        self.number = number


class Judged(World):
    """A world whose turns are those of a journal, of which the lines between the first one and `end` are given, and the number
    that the first of them has."""

    def __init__(self, run, lines, number=2):
        super().__init__(run)
        self.lines = lines
        self.first = number
        self.place = 0
        # The reason for a turn of a free part, for whoever is told that another one stands there.
        self.reason = ""

    def told(self):
        """The line that comes next."""
        return self.lines[self.place] if self.place < len(self.lines) else END

    def refuse(self, why):
        raise Refused(self.first + self.place, why)

    def expect(self, line):
        """Takes the next line, which has to be this one."""
        if self.told() != line:
            because = f": {self.reason}" if self.reason else ""
            self.refuse(f"is {self.told()!r}, and worked out here it is {line!r}{because}")
        self.place += 1

    def begin_part(self):
        super().begin_part()
        number = len(self.parts)
        self.expect(f"command {number}" if number <= len(self.run.script) else "command end")

    def add(self, turn, step=None):
        super().add(turn, step)
        self.expect(turn_line(self.run, len(self.turns) - 1, turn))

    def play(self):
        """Plays the run along the journal's lines."""
        super().play()
        if self.told() != END:
            self.expect(END)
        return self

    def whose_turn(self, part):
        """The replica whose turn comes next in a free part, as the journal has it."""
        owner = OWNER.match(self.told())
        who = int(owner[1]) if owner else None
        if who is None:
            having = ", ".join(f"replica {other} has had {part.taken[other]}" for other in part.left())
            self.refuse(f"is {self.told()!r}, where each replica that runs has {part.turns} turns: {having}")
        if who not in part.taken or not self.runs[who]:
            self.refuse(f"is {self.told()!r}, and replica {who} doesn't run")
        if part.taken[who] == part.turns:
            self.refuse(f"is {self.told()!r}, and replica {who} has had all its turns, which are {part.turns}")
        self.reason = part.reason(who)
        return who

    def free(self, stamp, turns):
        super().free(stamp, turns)
        self.reason = ""


def fault_of(run, lines, number=2):
    """The first line of a journal that can't be, and why; none where each may be."""
    try:
        Judged(run, lines, number).play()
    except Refused as refused:
        return str(refused)
    return None
