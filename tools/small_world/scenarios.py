"""Scenarios of crates/replica_play, played by the small world's replicas: from commands to the whole text, as docs/SCENARIOS.md
tells it. A text begins with a command `start`, and each command stands behind `> `."""
import copy
from datetime import timezone

from .instants import Zone, minute_of, stamp_of
from .jobs import Entry, Version
from .launches import NOOP, Row, Start, fresh_rows, rows_stand
from .replica import Accept, Accepted, AskFrom, Known, Lead, Prepare, Promise, Replica, Snap
from .words import Words, term_words

# A letter is heard where rounds, slots and counts are below these.
ROUNDS, SLOTS, COUNTS = 2**59, 2**62, 2**31
MOST_DELIVERED = 999


class Run:
    """What replicas of a scenario are told: how many they are, and an hour with one job."""

    def __init__(self, members):
        self.members = members
        self.grace = 10
        first = minute_of("2024-03-31T00:00Z")
        job = Entry("job 0", Zone(timezone.utc), ["0,20,40", "*", "*", "*", "*"], "", "")
        job.prepare(first, first + 60)
        self.versions = [Version(first, [job])]


class ScenarioWords(Words):
    """Launches are named by the number of the job, and a start that was decided at another minute tells that."""

    def __init__(self):
        super().__init__(lambda job, at: f"job {job} {self.stamp(at)}")

    def entry(self, entry):
        late = isinstance(entry, Start) and entry.now != entry.at
        return super().entry(entry) + (f" decided {self.stamp(entry.now)}" if late else "")


WORDS = ScenarioWords()


# What commands tell of packets.


def ballot_of(text):
    number, member = text.split(".")
    return 8 * int(number) + int(member)


def row_of(texts):
    told = dict(text.split(" ") for text in texts)
    instants = [minute_of(told[name]) if name in told else None for name in ("cursor", "open", "last")]
    return Row(*instants, int(told.get("launched", 0)), int(told.get("voided", 0)))


def packets_of(text):
    """The packets that a command `write` tells."""
    for part in text.split("; "):
        said, *row = part.split(", ")
        kind, *words = said.split(" ")
        if kind == "known":
            yield from (Known(slot, NOOP) for slot in range(int(words[0]), int(words[-1]) + 1))
        elif kind == "snapshot":
            yield Snap(int(words[0]), [row_of(row)] * int(words[1]) + [Row()])
        elif kind == "ask":
            yield AskFrom(int(words[0]))
        else:
            kinds = {"prepare": Prepare, "promise": Promise, "accept": Accept, "accepted": Accepted, "lead": Lead}
            rest = {"promise": [{}], "accept": [NOOP]}.get(kind, [])
            yield kinds[kind](ballot_of(words[0]), int(words[1]), *rest)


def is_within(packet, versions):
    """Whether a packet is within the bounds."""
    rows = getattr(packet, "rows", fresh_rows(versions))
    slots = getattr(packet, "ballot", 0) // 8 < ROUNDS and getattr(packet, "slot", 0) < SLOTS
    return slots and rows_stand(rows, versions) and all(count < COUNTS for row in rows for count in (row.launched, row.voided))


class Scenario:
    """Replicas, the letters that were sent, those that wait, and those that are no letters any more."""

    def __init__(self, members):
        run = Run(members)
        self.replicas = [Replica(who, run) for who in range(members)]
        self.runs = [True] * members
        self.calls = [None] * members
        self.letters = []
        self.waiting = []
        self.faults = {}

    def play(self, word, rest):
        """What comes of a command."""
        if word in ("campaign", "tick", "answer"):
            return self.told(*self.taken(word, rest))
        return {
            "deliver": self.deliver_all if rest == "all" else self.deliver,
            "drop": self.drop,
            "shorten": lambda letter: self.spoil(letter, "BadLength"),
            "spoil": lambda letter: self.spoil(letter, "BadKind"),
            "write": self.write,
            "stop": self.stop,
            "restart": self.restart,
            "copy": self.copy,
            "plan": self.plan,
            "complete": self.complete,
        }[word](rest)

    # Replicas.

    def stop(self, who):
        self.runs[int(who)] = False
        return []

    def restart(self, who):
        self.runs[int(who)] = True
        self.replicas[int(who)].start()
        return []

    def copy(self, who):
        self.replicas[int(who)] = copied(self.replicas[int(who)])
        return []

    # Steps.

    def taken(self, word, rest):
        """The replica whose step it is, and the step; no step for bytes that are no letter."""
        if word == "deliver":
            sender, who, packets = self.letters[int(rest)]
            within = all(is_within(packet, self.replicas[who].run.versions) for packet in packets)
            return who, None if int(rest) in self.faults else self.replicas[who].hear(sender, packets if within else [])
        who, *words = rest.split(" ")
        replica = self.replicas[int(who)]
        if word == "campaign":
            return int(who), replica.campaign()
        if word == "tick":
            return int(who), replica.tick(minute_of(words[0]))
        return int(who), replica.answer(self.calls[int(who)]._replace(kind=words[0]))

    def told(self, who, step):
        """The lines of a step that was taken; its letters join those that wait."""
        lines = [f"delta {WORDS.change(step.change)}"] if step.change else []
        lines += [self.sent(who, to, packets) for to, packets in step.letters()]
        lines += [f"learned {slots}: {entry}" for slots, entry in WORDS.entries(step.learned)]
        if step.call:
            self.calls[who] = step.call
            at, now = stamp_of(step.call.at), stamp_of(step.call.now)
            lines.append(f"call job {step.call.job} at {at} {step.call.kind} now {now}")
        return [*lines, self.term(who)]

    def term(self, who):
        return f"{who}: {term_words(self.replicas[who].term)}"

    def planned(self, word, rest):
        """What a step would change on the disk; and whose step it is."""
        who = self.letters[int(rest)][1] if word == "deliver" else int(rest.split(" ")[0])
        if word == "deliver" and int(rest) in self.faults:
            return who, [self.fault(int(rest))]
        kept, self.replicas[who] = self.replicas[who], copied(self.replicas[who])
        _, step = self.taken(word, rest)
        self.replicas[who] = kept
        return who, [f"plans {WORDS.change(step.change)}"]

    def plan(self, command):
        who, lines = self.planned(*command.split(" ", 1))
        return [*lines, self.term(who)]

    def complete(self, command):
        word, rest = command.split(" ", 1)
        _, plan = self.planned(word, rest)
        lines = self.play(word, rest)
        heard = word == "deliver"
        return lines if heard and int(rest) in self.faults else [*lines[:heard], *plan, *lines[heard:]]

    # Letters.

    def sent(self, sender, to, packets):
        self.letters.append((sender, to, packets))
        self.waiting.append(len(self.letters) - 1)
        return f"letter {len(self.letters) - 1} to {to}: {WORDS.packets(packets)}"

    def write(self, told):
        sender, to, packets = told.split(" ", 2)
        return [self.sent(int(sender), int(to), list(packets_of(packets)))]

    def spoil(self, letter, fault):
        """Spoils a letter. Of two faults the length is told."""
        self.faults[int(letter)] = min(fault, self.faults.get(int(letter), fault), key=["BadLength", "BadKind"].index)
        return []

    def fault(self, letter):
        return f"fault Letter({self.faults[letter]} {{ packet: 0 }})"

    def drop(self, letter):
        self.waiting = [other for other in self.waiting if letter not in ("all", str(other))]
        return []

    def deliver(self, letter):
        number = int(letter)
        who = self.letters[number][1]
        self.drop(letter)
        if not self.runs[who]:
            return [f"letter {number} is lost"]
        heard = f"{who} hears letter {number}"
        if number in self.faults:
            return [heard, self.fault(number), self.term(who)]
        return [heard, *self.told(*self.taken("deliver", letter))]

    def deliver_all(self, _):
        lines = []
        for _ in range(MOST_DELIVERED):
            lines += self.deliver(str(min(self.waiting))) if self.waiting else []
        return lines


def copied(replica):
    """A replica that goes on as the other one would."""
    other = copy.copy(replica)
    other.term, other.votes = copy.deepcopy(replica.term), dict(replica.votes)
    other.learned, other.launches = list(replica.learned), list(replica.launches)
    return other


def text_of(commands):
    """The text of scenarios: lines that are kept, and behind each command what comes of it."""
    lines, scenario = [], None
    for line in commands.split("\n")[:-1]:
        if not line or line.startswith("# "):
            lines.append(line)
        elif line.startswith("> start "):
            lines.append(line)
            scenario = Scenario(int(line.split(" ")[2]))
        elif line.startswith("> "):
            lines += [line, *(f"  {told}" for told in scenario.play(*line[2:].split(" ", 1)))]
    return "\n".join([*lines, ""])
