"""The way of each launch: how its start and its end were proposed, voted for and decided, and how the scheduler was called."""
from collections import defaultdict

from small_world.launches import Start, Table
from small_world.replica import Accept, Accepted, Known, Promise
from small_world.words import ballot_words

from .words import call_words


def launch_of(entry):
    """The launch of an entry of the log; none where it does nothing, or adopts a version."""
    return None if entry is None or isinstance(entry, Table) else (entry.job, entry.at)


class Launches:
    """The launches of a run, numbered as they come up, and in which turn what happened to them."""

    def __init__(self, world):
        self.world = world
        self.run = world.run
        self.numbers = {}
        self.events = defaultdict(list)
        # The entry that a ballot proposes at a slot, and who has voted for it.
        self.proposed = {}
        self.voters = defaultdict(set)
        self.chosen = set()
        # The versions that are adopted, each in the turn with whose vote there is a majority for it.
        self.adoptions = []
        # The launch that each replica called for last, that of each turn in which an answer is taken, and those of late calls.
        self.called = {}
        self.answers = {}
        self.late = []
        self.held = set()
        for number, turn in enumerate(world.turns):
            self.take(number, turn)

    def number(self, name):
        """The number of a launch."""
        return self.numbers.setdefault(name, len(self.numbers))

    def titles(self):
        """The names of the launches, by their numbers."""
        return [self.run.jobs[job].title(at) for job, at in self.numbers]

    def tell(self, turn, name, text):
        if name:
            self.events[self.number(name)].append((turn, text))

    def take(self, number, turn):
        """Takes what a turn did to launches."""
        step = self.world.steps[number]
        if turn.word == "answer" and turn.who in self.called:
            self.answers[number] = self.called[turn.who]
            self.tell(number, self.answers[number], f"replica {turn.who} takes the answer")
        if turn.cause:
            self.break_off(number, turn, self.world.broken_off[number])
        for slot, ballot, entry in step.votes() if step else []:
            self.vote(number, turn, slot, ballot, entry)
        for slot, entry in step.learned if step else []:
            self.tell(number, launch_of(entry), f"replica {turn.who} learns {what(entry)} at slot {slot}")
        if turn.call:
            self.call(number, turn)
        if turn.word == "arrive":
            name = self.late[turn.operand]
            told = "finds what was made before" if name in self.held else "makes what it calls for"
            self.tell(number, name, f"late call {turn.operand} arrives at the scheduler, and {told}")
            self.held.add(name)

    def call(self, number, turn):
        name = turn.call.job, turn.call.at
        self.tell(number, name, call_words(self.run, number, turn, name in self.held).split(": ", 1)[1])
        self.called[turn.who] = name
        if turn.fate == "late" and not turn.answer:
            self.late.append(name)
        elif turn.fate != "lost-before":
            self.held.add(name)

    def break_off(self, number, turn, change):
        """Tells of a disk that stops as a vote is saved."""
        if change[0] == "voted":
            told = f"the disk of replica {turn.who} stops as it votes for {place_of(*change[1:])}: the vote is {turn.end}"
            self.tell(number, launch_of(change[3]), told)

    def vote(self, number, turn, slot, ballot, entry):
        """Takes a vote: the first one of a ballot is a proposal, and that with which there is a majority decides. One that was kept as
        a disk stopped is told already."""
        voters, name, place = self.voters[slot, ballot], launch_of(entry), place_of(slot, ballot, entry)
        if not turn.cause:
            told = f"votes for {place}" if voters else f"proposes {place}, and votes for it"
            self.tell(number, name, f"replica {turn.who} {told}")
        self.proposed[slot, ballot] = entry
        voters.add(turn.who)
        if len(voters) > self.run.members // 2 and slot not in self.chosen:
            self.chosen.add(slot)
            self.adoptions += [(number, entry)] if isinstance(entry, Table) else []
            self.tell(number, name, f"a majority has voted for {what(entry)}: it is decided")

    def entries_in(self, letter):
        """The entries that a letter speaks of: those that it tells, or that it votes for."""
        for packet in letter.packets:
            if isinstance(packet, (Accept, Known)):
                yield packet.entry
            elif isinstance(packet, Accepted):
                yield self.proposed.get((packet.slot, packet.ballot))
            elif isinstance(packet, Promise):
                yield from (vote.entry for vote in packet.votes.values())


def place_of(slot, ballot, entry):
    """What is voted for, and where."""
    return f"{what(entry)} at slot {slot} in ballot {ballot_words(ballot)}"


def what(entry):
    """What an entry says of its launch, or which version it adopts."""
    if entry is None:
        return "nothing"
    if isinstance(entry, Table):
        return f"version {entry.version}"
    return "its start" if isinstance(entry, Start) else f"its end as a {entry.kind}"
