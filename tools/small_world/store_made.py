"""Commands of crates/store_play that are made from a seed, and what comes of each: a store and a node on a disk that stops within their
calls."""
import random
from collections import Counter

from .files import BODY
from .instants import stamp_of
from .launches import LAUNCH, NOOP, VOID, End, Row, Start, Table
from .letters import fault_of, letter_bytes
from .made import IMAGES
from .replica import Accept, Accepted, AskFrom, Known, Lead, Nack, Prepare, Promise, Snap, Vote
from .scenarios import WORDS
from .store import BARE, FIRST, HALTED, NODE, STORE, Hand

# Of how many replicas the disk's is one.
MEMBERS = [1, 2, 3, 3, 3, 5, 7]
# How many calls of a disk are to succeed: a record takes four of them, a base five, and what is attached two or four.
CALLS = [0, 1, 1, 2, 2, 2, 3, 3, 3, 4, 4, 5, 6, 7, 8, 12, 2**32 - 1]
# How often a command is made, by who has the disk.
WEIGHTS = {
    BARE: {"attach": 6, "start": 6, "arm": 4, "files": 2, "disarm": 1, "revive": 1, "stop": 0.2, "save": 0.2, "campaign": 0.2, "reopen": 0.2},
    STORE: {"save": 12, "arm": 5, "keeps": 1, "disarm": 0.5, "stop": 1, "attach": 0.2, "tick": 0.2, "files": 0.2},
    NODE: {"campaign": 3, "tick": 4, "hear": 9, "arm": 4, "disarm": 0.5, "stop": 0.5, "start": 0.2, "keeps": 0.2, "revive": 0.2},
    HALTED: {"reopen": 6, "stop": 2, "arm": 0.5, "hear": 0.3},
}
# Who has a disk that has stopped revives it before long.
STOPPED = {"revive": 6, "files": 1, "attach": 1, "start": 1, "arm": 0.5, "disarm": 0.5}
# What is seen to at last, so that the bytes of the files are compared.
LAST = ["stop", "disarm", "revive", "files", "attach", "stop", "files"]


class Commands:
    """Commands in the making, and the hand that plays them."""

    def __init__(self, seed):
        self.chance = random.Random(seed)
        self.members = self.chance.choice(MEMBERS)
        self.me = self.chance.randrange(self.members)
        self.jobs = self.chance.choice([0, 1, 1, 2])
        self.hand = Hand(self.members, self.me, self.jobs)
        self.lines = [f"> disk {self.members} {self.me} {self.jobs}"]
        for _ in range(self.chance.randrange(5, 25)):
            self.add(self.drawn())
        for word in LAST:
            self.add(word)

    def drawn(self):
        """The word of the next command."""
        weights = STOPPED if self.hand.disk.image is not None and self.hand.state() == BARE else WEIGHTS[self.hand.state()]
        return self.chance.choices(list(weights), list(weights.values()))[0]

    def add(self, word):
        """Plays a command, with words that are drawn for it."""
        draw = {"arm": self.arm, "save": self.save, "tick": self.tick, "hear": self.hear}.get(word, str)
        rest = draw()
        self.lines += [f"> {word} {rest}" if rest else f"> {word}", *(f"  {line}" for line in self.hand.play(word, rest))]

    # What stands behind the words of commands.

    def arm(self):
        return f"{self.chance.choice(CALLS)} {self.chance.choice(IMAGES)}"

    def tick(self):
        return stamp_of(FIRST + self.chance.choice([0, 1, 5, 20, 25, 40, 59, 60]))

    def ballot(self, member):
        """A ballot, mostly above the promise."""
        promised = self.hand.kept.promised if self.hand.kept else 0
        return 8 * max(1, promised // 8 + self.chance.choice([-1, 0, 0, 1, 1, 1, 2])) + member

    def slot(self):
        base = self.hand.replica.prefix if self.hand.replica else self.hand.kept.base if self.hand.kept else 0
        return max(0, base + self.chance.choice([-1, 0, 0, 0, 1, 2, 5]))

    def entry(self):
        at = FIRST + self.chance.choice([0, 0, 20, 40, 59, 60, -60])
        if self.chance.random() < 0.2:
            return Table(self.chance.choice([0, 1, 1, 2, 7, 2**32 - 1]), at)
        if not self.jobs or self.chance.random() < 0.3:
            return NOOP
        job = self.chance.randrange(self.jobs)
        if self.chance.random() < 0.5:
            return End(job, at, self.chance.choice([LAUNCH, VOID]))
        return Start(job, at, at + self.chance.choice([0, 0, 1, 7]))

    def row(self):
        instants = [FIRST + 20 * self.chance.randrange(-1, 4) if self.chance.random() < 0.6 else None for _ in range(3)]
        cursor, opened, last = instants
        counts = [self.chance.choice([0, 0, 1, 7, 70, 2**31 if self.chance.random() < 0.1 else 2]) for _ in range(2)]
        return Row(cursor, opened if cursor is not None else None, last, *counts)

    def rows(self):
        """The rows of a launch table; seldom one too many or too few, or with a last one that isn't the table's own."""
        jobs, own = [self.row() for _ in range(self.jobs)], Row()
        others = [jobs, [*jobs, self.row(), own], [*jobs, self.row()], [*jobs, self.spoilt_own()]]
        return self.chance.choice(others) if self.chance.random() < 0.15 else [*jobs, own]

    def spoilt_own(self):
        """A row that has a little of what the table's own may not have."""
        rows = [Row(FIRST), Row(FIRST, FIRST), Row(last=FIRST), Row(launched=1), Row(FIRST, launched=1), Row(voided=1)]
        return self.chance.choice(rows)

    def save(self):
        """A change, mostly one that may follow what is kept."""
        kind = self.chance.choice(["tried", "promised", "voted", "voted", "base", "base"])
        if kind == "tried":
            return WORDS.change((kind, self.ballot(self.me)))
        if kind == "promised":
            return WORDS.change((kind, self.ballot(self.chance.randrange(7))))
        if kind == "voted":
            return WORDS.change((kind, self.slot(), self.ballot(self.chance.randrange(7)), self.entry()))
        told = WORDS.change((kind, self.slot() + self.chance.choice([0, 1, 1, 3]), self.rows()))
        # The table's own row needn't be told where it is fresh.
        return told.removesuffix("; row table") if self.chance.random() < 0.5 else told

    # Letters.

    def packet(self):
        """A packet that is not one of those that are known."""
        ballot, slot = self.ballot(self.chance.randrange(self.members)), self.slot()
        votes = {slot + more: Vote(self.ballot(self.chance.randrange(self.members)), self.entry()) for more in range(self.chance.randrange(3))}
        return self.chance.choice([
            Prepare(ballot, slot),
            Prepare(ballot, slot),
            Promise(self.hand.replica.term.ballot or ballot, slot, votes),
            Accept(ballot, slot, self.entry()),
            Accept(ballot, slot, self.entry()),
            Accepted(self.hand.replica.term.ballot or ballot, slot),
            Nack(ballot, ballot + 8),
            AskFrom(slot),
            Snap(slot + self.chance.randrange(3), self.rows()),
            Lead(ballot, slot),
        ])

    def packets(self):
        many = self.chance.choice([0, 0, 0, 1, 2, 3, 70 if self.chance.random() < 0.3 else 4])
        known = [Known(self.hand.replica.prefix + place, NOOP if many == 70 else self.entry()) for place in range(many)]
        return known + [self.packet()] if not known or self.chance.random() < 0.5 else known

    def hear(self):
        """A letter of another replica, or bytes that are none. Who is alone hears none that is one."""
        if not self.hand.replica:
            return letter_bytes(0, [AskFrom(0)]).hex()
        others = [other for other in range(self.members) if other != self.me]
        content = letter_bytes(self.chance.choice(others or [0]), self.packets())
        other = self.spoilt(content)
        if other and fault_of(other, self.members) and self.chance.random() < (0.1 if others else 1):
            return other.hex()
        return content.hex() if others else content[:-1].hex()

    def spoilt(self, content):
        """Bytes of which one is another, or some are lacking, or a packet is."""
        place, size = self.chance.randrange(len(content)), BODY.size
        front, rest = content[:place], content[place + 1 :]
        packet = size * (place // size)
        return self.chance.choice([
            front + bytes([self.chance.choice([0, 1, 2, 4, 9, 12, 255])]) + rest,
            content[: packet + place % size // 9] + bytes([self.chance.randrange(13)]) + content[packet + place % size // 9 + 1 :],
            content[: size * self.chance.randrange(1 + len(content) // size)],
            content[:packet] + content[packet + size :],
            content + content[:size],
            front,
        ])

    def seen(self):
        """What came about, and how often: the changes that were kept and lost, the first words of lines, and adoptions of a version that
        a store kept or a node learned."""
        first = Counter(" ".join(line.split()[:2]) for line in self.lines if line.startswith(("  fault", "  was", "  delta", "  call")))
        adopted = [line.split()[0] for line in self.lines if line.startswith(("  vote", "  learned")) and " version " in line]
        return self.hand.disk.ends + first + Counter(f"{word} version" for word in adopted)

    def text(self):
        return "\n".join([*self.lines, ""])
