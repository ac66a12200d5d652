"""A world: replicas with what is on its way to each, one scheduler, and the commands of a script. Replicas take turns, and one
turn is a step of a replica, a stop, a start, or the arrival of a late call."""
from typing import NamedTuple, Optional

from .disk import KEPT, Arm, Disk
from .free import FreePart, Order
from .instants import minute_of
from .launches import Call, Ledger
from .replica import Follower, Replica, Step


class Turn(NamedTuple):
    """A turn: whose it is, what it does, and what the scheduler was called for. The operand of `tick` is the clock reading, of
    `hear` the letter, of `arrive` the late call. A disk that stops within a write makes a `stop` with a cause, which is the word of
    the turn that was saving something, and has that turn's operand; `end` tells whether that is kept."""

    who: Optional[int]
    word: str
    operand: Optional[int] = None
    call: Optional[Call] = None
    fate: Optional[str] = None
    answer: Optional[Call] = None
    end: Optional[str] = None
    cause: Optional[str] = None


class Letter(NamedTuple):
    sender: int
    to: int
    turn: int
    packets: list


class World:
    """A world of a run file. The order in which free turns come is drawn from a seed."""

    def __init__(self, run, seed=0):
        self.run = run
        self.order = Order(seed)
        self.members = range(run.members)
        self.replicas = [Replica(who, run) for who in self.members]
        self.disks = [Disk() for _ in self.members]
        self.runs = [True] * run.members
        self.waits = [None] * run.members
        self.mails = [[] for _ in self.members]
        self.cuts = set()
        self.skews = [0] * run.members
        self.fates = ["done"] * run.members
        self.ledger = Ledger()
        self.letters = []
        self.turns = []
        # Of each command the turn that its part begins with; that of the walk at the end comes last.
        self.parts = []
        # The latest minute that a clock has read.
        self.latest = None
        # What replica 0 has shown on the board, a number of entries and of open jobs; and what was seen after each `free`, with the
        # number of the command before these.
        self.shown = 0, 0
        self.looks = []

    # Turns.

    def take(self, who, word, operand=None):
        """A turn of a replica in which it takes a step, unless its disk stops within."""
        kept = self.replicas[who].kept() if self.may_stop(who) else None
        step = self.step(who, word, operand)
        end = self.save(who, step.change) if step.change else None
        if end:
            self.break_off(Turn(who, "stop", operand, end=end, cause=word), step.change, kept)
            return
        fate = self.fates[who] if step.call else None
        answer = self.call(who, step.call) if step.call else None
        self.waits[who] = answer
        self.letters += [Letter(who, to, len(self.turns), packets) for to, packets in step.letters()]
        self.add(Turn(who, word, operand, step.call, fate, answer), step)

    def step(self, who, word, operand=None):
        """The step that a replica takes."""
        replica = self.replicas[who]
        if word == "campaign":
            return replica.campaign()
        if word == "answer":
            return replica.answer(self.waits[who])
        if word == "tick":
            self.latest = operand if self.latest is None else max(self.latest, operand)
            return replica.tick(operand)
        self.mails[who].pop(0)
        return replica.hear(self.letters[operand].sender, self.letters[operand].packets)

    def arm(self, who, arm):
        """The disk of a replica stops as the arm says; where there is none, it doesn't."""
        self.disks[who].arm = arm

    def may_stop(self, who):
        """Whether the disk of a replica may stop within what it saves next."""
        return self.disks[who].arm is not None

    def save(self, who, change):
        """Saves the change of a step. Where the disk stops within, tells whether it is kept or lost."""
        return self.disks[who].save(change)

    def break_off(self, turn, change, kept):
        """A replica stops within the save of a change, with what was kept before or with the change. Nothing else comes of its step."""
        step = Step()
        step.change = change if turn.end == KEPT else None
        self.replicas[turn.who].keep(kept.after(change) if step.change else kept)
        self.end(turn.who)
        self.add(turn, step)

    def call(self, who, call):
        fate, self.fates[who] = self.fates[who], "done"
        return self.ledger.call(call, fate)

    def add(self, turn, step=None):
        """Adds a turn, with the step that it took if it took one."""
        self.turns.append(turn)

    def end(self, who):
        """A replica runs no more: what waits for it is lost, and its disk isn't armed any more."""
        self.runs[who] = False
        self.waits[who] = None
        self.mails[who] = []
        self.arm(who, None)

    def stop(self, who):
        self.end(who)
        self.add(Turn(who, "stop"))

    def restart(self, who):
        self.runs[who] = True
        self.replicas[who].start()
        self.add(Turn(who, "restart"))

    def arrive(self, late):
        self.ledger.arrive(late)
        self.add(Turn(None, "arrive", late))

    def deliver(self, first):
        """The letters from a number on join the mails."""
        for number in range(first, len(self.letters)):
            letter = self.letters[number]
            if self.runs[letter.to] and (letter.sender, letter.to) not in self.cuts:
                self.mails[letter.to].append(number)

    # Rounds.

    def clock(self, who, at):
        """What the clock of a replica reads at an instant, held within the window."""
        return min(max(at + self.skews[who], self.run.first), self.run.end - 1)

    def round(self, at):
        first = len(self.letters)
        for who in self.members:
            answers = [("answer", None)] if self.waits[who] else []
            for word, operand in [*answers, *(("hear", letter) for letter in self.mails[who]), ("tick", self.clock(who, at))]:
                if self.runs[who]:
                    self.take(who, word, operand)
        self.deliver(first)

    def campaign(self, who):
        first = len(self.letters)
        self.take(who, "campaign")
        self.deliver(first)

    # Free turns.

    def free(self, stamp, turns):
        """Each replica that runs takes so many turns by itself."""
        part = FreePart(self, minute_of(stamp), int(turns))
        self.order.begin()
        while part.left():
            part.take(self.whose_turn(part))
        self.looks.append((len(self.parts), *self.shown))

    def show(self):
        """Replica 0 shows its launch table, if it has learned more than the board shows. A stopped one has what it keeps."""
        replica = self.replicas[0]
        prefix, rows = (replica.prefix, replica.launches) if self.runs[0] else (replica.base, replica.rows)
        if prefix > self.shown[0]:
            self.shown = prefix, sum(row.open_now is not None for row in rows)

    def whose_turn(self, part):
        """The replica whose turn comes next in a free part."""
        return self.order.whose(part)

    # Settling and walking.

    def coordinator(self):
        """The replica that has learned most; of equal ones the first."""
        return max(self.members, key=lambda who: (self.replicas[who].prefix, -who))

    def is_quiet(self, who, at):
        """Whether the leader has nothing left to do at an instant, and all have learned as much as it has."""
        leader = self.replicas[who]
        level = all(replica.prefix == leader.prefix for replica in self.replicas)
        return level and leader.is_free() and self.waits[who] is None and leader.wants(at) is None

    def drain(self, who, at):
        """Rounds until it is quiet."""
        while not self.is_quiet(who, at):
            if isinstance(self.replicas[who].term, Follower):
                self.campaign(who)
            self.round(at)

    def settle(self, at):
        """All that are stopped start, faults end, and the coordinator leads until it is quiet. Gives the coordinator."""
        for who in self.members:
            if not self.runs[who]:
                self.restart(who)
        self.mails = [[] for _ in self.members]
        self.cuts = set()
        self.skews = [0] * self.run.members
        self.fates = ["done"] * self.run.members
        for who in self.members:
            self.arm(who, None)
        who = self.coordinator()
        self.campaign(who)
        self.drain(who, at)
        return who

    def walk(self, to):
        """Settles at the latest clock reading so far, and drains each later minute at which there is something to do."""
        begin = min(self.run.first if self.latest is None else self.latest, to)
        who = self.settle(begin)
        for minute in range(begin + 1, to + 1):
            if self.replicas[who].wants(minute) is not None:
                self.drain(who, minute)

    # Commands.

    def command(self, word, *operands):
        self.begin_part()
        COMMANDS[word](self, *operands)

    def begin_part(self):
        """The turns from here on are of the next command, or of the walk at the end."""
        self.parts.append(len(self.turns))

    def play(self):
        """Plays the script, and walks to the window's last minute."""
        for words in self.run.script:
            self.command(*words)
        self.begin_part()
        self.walk(self.run.end - 1)
        return self

    def play_rounds(self, stamp, count):
        for _ in range(int(count)):
            self.round(minute_of(stamp))

    def campaign_if_running(self, who):
        if self.runs[int(who)]:
            self.campaign(int(who))

    def stop_if_running(self, who):
        if self.runs[int(who)]:
            self.stop(int(who))

    def arm_if_running(self, who, calls, image):
        if self.runs[int(who)]:
            self.arm(int(who), Arm(int(calls), int(image)))

    def restart_if_stopped(self, who):
        if not self.runs[int(who)]:
            self.restart(int(who))

    def cut(self, sender, to):
        self.cuts.add((int(sender), int(to)))

    def heal(self):
        self.cuts = set()

    def drop(self, sender, to):
        mail = self.mails[int(to)]
        self.mails[int(to)] = [number for number in mail if self.letters[number].sender != int(sender)]

    def repeat(self, sender, to):
        mail = self.mails[int(to)]
        mail += dict.fromkeys(number for number in mail if self.letters[number].sender == int(sender))

    def reverse(self, who):
        self.mails[int(who)].reverse()

    def again(self, number):
        if int(number) < len(self.letters) and self.runs[self.letters[int(number)].to]:
            self.mails[self.letters[int(number)].to].append(int(number))

    def skew(self, who, minutes):
        self.skews[int(who)] = int(minutes)

    def set_fate(self, who, fate):
        self.fates[int(who)] = fate

    def arrive_if_late(self, late):
        if int(late) < len(self.ledger.late) and int(late) not in self.ledger.arrived:
            self.arrive(int(late))


COMMANDS = {
    "round": World.play_rounds,
    "campaign": World.campaign_if_running,
    "stop": World.stop_if_running,
    "break": World.arm_if_running,
    "restart": World.restart_if_stopped,
    "cut": World.cut,
    "heal": World.heal,
    "drop": World.drop,
    "repeat": World.repeat,
    "reverse": World.reverse,
    "again": World.again,
    "skew": World.skew,
    "fate": World.set_fate,
    "arrive": World.arrive_if_late,
    "free": lambda world, stamp, turns: world.free(stamp, turns),
    "settle": lambda world, stamp: world.settle(minute_of(stamp)),
    "walk": lambda world, stamp: world.walk(minute_of(stamp)),
}
