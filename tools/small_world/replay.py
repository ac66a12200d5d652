"""A run with what each of its turns did, for those who show it: as the small world plays it, or as a journal tells it."""
import re

from .disk import KEPT, LOST
from .instants import minute_of
from .texts import turn_line
from .verdict import Judged, Refused
from .words import role_words
from .world import World

TURN = re.compile(r"\d+ (\d|-) (campaign|tick|hear|answer|stop|restart|arrive)( .*)?")


class BadJournal(Exception):
    """A journal that isn't one of the run."""


class Recorded(World):
    """A world that keeps the step of each turn, where there is one, and what the replica is after it; of each letter the turns in
    which it was heard, those included within which a disk stopped; and of each such turn what was to be saved."""

    def __init__(self, run, seed=0):
        super().__init__(run, seed)
        self.steps = []
        self.roles = []
        self.heard = {}
        self.broken_off = {}

    def break_off(self, turn, change, kept):
        self.broken_off[len(self.turns)] = change
        super().break_off(turn, change, kept)

    def add(self, turn, step=None):
        if "hear" in (turn.word, turn.cause):
            self.heard.setdefault(turn.operand, []).append(len(self.turns))
        running = turn.who is not None and self.runs[turn.who]
        self.roles.append(role_words(self.replicas[turn.who].term) if running else "stopped")
        self.steps.append(step)
        super().add(turn, step)


class Followed(Judged, Recorded):
    """A world whose turns are those of a journal that may be one of its run."""


class Replay(Recorded):
    """A world whose turns are those of a journal, be they those of its script or others. What the journal doesn't say of a turn
    is worked out."""

    # What the line of a turn tells of a disk that stops within: `kept` or `lost`.
    told_end = None

    def play_lines(self, lines, first=2):
        """Plays the lines between the first and the last one, of which the first has that number."""
        for number, line in enumerate(lines, first):
            if line.startswith("command "):
                self.take_part(number, line)
            else:
                self.take_line(number, line)
        if len(self.parts) != len(self.run.script) + 1:
            raise BadJournal("the journal lacks a command of the script")
        return self

    def take_line(self, number, line):
        """Plays the turn of the line of that number, which has to be that of a turn that may come next."""
        try:
            self.play_line(line)
        except (AttributeError, IndexError, KeyError, TypeError, ValueError) as fault:
            raise BadJournal(f"line {number} of the journal is no line of this run: {line}") from fault
        if turn_line(self.run, len(self.turns) - 1, self.turns[-1]) != line:
            raise BadJournal(f"line {number} of the journal is no turn of this run: {line}")

    def may_stop(self, who):
        return self.told_end is not None

    def save(self, who, change):
        """The journal tells which turn a disk stops within, and whether what was to be saved is kept."""
        return self.told_end

    def take_part(self, number, line):
        """Begins the part of the next command, or that of the walk at the end."""
        place = len(self.parts) + 1
        if line != (f"command {place}" if place <= len(self.run.script) else "command end") or place > len(self.run.script) + 1:
            raise BadJournal(f"line {number} of the journal is no line of this run: {line}")
        self.begin_part()

    def play_line(self, line):
        """Plays the turn of a line."""
        who, word, rest = TURN.fullmatch(line).groups()
        words = rest.split() if rest else []
        if word != "arrive" and self.runs[int(who)] == (word == "restart"):
            raise ValueError("it runs already, or is stopped")
        if word == "arrive":
            if int(words[0]) in self.ledger.arrived:
                raise ValueError("the late call has arrived")
            self.arrive(int(words[0]))
        elif word == "restart":
            self.restart(int(who))
        elif word == "stop" and not words:
            self.stop(int(who))
        else:
            self.told_end, word, *words = words if word == "stop" else [None, word, *words]
            if self.told_end not in (None, KEPT, LOST):
                raise ValueError("neither kept nor lost")
            if word == "tick":
                self.fates[int(who)] = words[1] if words[1:] else "done"
            self.take(int(who), word, self.operand(int(who), word, words))

    def operand(self, who, word, words):
        """What a turn is about. A letter that is to be heard comes to the front of the mail."""
        if word == "tick":
            if not self.run.first <= minute_of(words[0]) < self.run.end:
                raise ValueError("no clock reads so")
            return minute_of(words[0])
        if word == "hear":
            if self.letters[int(words[0])].to != who:
                raise ValueError("the letter is another's")
            self.mails[who].insert(0, int(words[0]))
            return int(words[0])
        if word == "answer" and self.waits[who] is None:
            raise ValueError("no answer waits")
        return None


def journal_in(text):
    """The lines of the journal in what the program wrote, between its first and its last one, and the number of the first."""
    lines = text.split("\n")
    if "cron journal 1" not in lines or lines[-2:] != ["end", ""]:
        raise BadJournal("there is no whole journal")
    begin = lines.index("cron journal 1") + 1
    return lines[begin:-2], begin + 1


def is_free(run):
    """Whether replicas run by themselves in a run, so that its turns may come in another order each time."""
    return any(command[0] == "free" for command in run.script)


def followed(run, lines, first):
    """The world of a journal's turns, and which line of it can't be one of the run; none where each may be."""
    try:
        return Followed(run, lines, first).play(), None
    except Refused as refused:
        return Replay(run).play_lines(lines, first), str(refused)
