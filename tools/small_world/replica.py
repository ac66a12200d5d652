"""A replica: what it does when it stands for leader, when its clock ticks, when the scheduler answers and when it hears a letter.
A ballot is 8 times its round and the number of its replica, and 0 where there is none yet."""
from typing import NamedTuple

from .launches import NOOP, Call, End, apply, choose, fresh_rows, is_open

# So many entries behind the base, the launch table takes their place.
MOST_ENTRIES = 64
# At each fourth tick a leader asks again those that have not voted.
TICKS = 4

Prepare = NamedTuple("Prepare", [("ballot", int), ("slot", int)])
Promise = NamedTuple("Promise", [("ballot", int), ("slot", int), ("votes", dict)])
Accept = NamedTuple("Accept", [("ballot", int), ("slot", int), ("entry", tuple)])
Accepted = NamedTuple("Accepted", [("ballot", int), ("slot", int)])
Nack = NamedTuple("Nack", [("refused", int), ("ballot", int)])
Known = NamedTuple("Known", [("slot", int), ("entry", tuple)])
AskFrom = NamedTuple("AskFrom", [("slot", int)])
Snap = NamedTuple("Snap", [("slot", int), ("rows", list)])
Lead = NamedTuple("Lead", [("ballot", int), ("slot", int)])
Vote = NamedTuple("Vote", [("ballot", int), ("entry", tuple)])


class Follower:
    """It doesn't stand for leader; if a higher ballot has ended that it did, it knows of which."""

    ballot = None

    def __init__(self, ended=None):
        self.ended = ended


class Candidate:
    """It has been promised by those whom it heard; `best` has by slot the votes of the highest ballots that it was told."""

    def __init__(self, ballot, first, me, best):
        self.ballot = ballot
        self.first = first
        self.heard = {me}
        self.best = best


class Flight:
    """A proposal that waits for votes."""

    def __init__(self, slot, entry, me):
        self.slot = slot
        self.entry = entry
        self.accepted = {me}
        self.waited = 0


class Leader:
    def __init__(self, ballot, best):
        self.ballot = ballot
        self.best = best
        self.flight = None

    def is_bound(self, prefix):
        """Whether a vote that it was told binds what it proposes at its prefix or behind."""
        return any(slot >= prefix for slot in self.best)


class Kept(NamedTuple):
    """What stays over a stop: the round tried last, the ballot promised, the votes by slot, and the launch table at the base."""

    tried: int
    promised: int
    votes: dict
    base: int
    rows: list

    def after(self, change):
        """What is kept after a change."""
        kind, *parts = change
        if kind == "tried":
            return self._replace(tried=parts[0] // 8, promised=parts[0])
        if kind == "promised":
            return self._replace(promised=parts[0])
        if kind == "voted":
            slot, ballot, entry = parts
            return self._replace(promised=ballot, votes={**self.votes, slot: Vote(ballot, entry)})
        base, rows = parts
        return self._replace(base=base, rows=rows, votes={slot: vote for slot, vote in self.votes.items() if slot >= base})


class Step:
    """What comes of a step beside what the replica knows: what is changed on its disk, packets by addressee, entries learned with
    their slots, and a call of the scheduler. The change is `tried` or `promised` with a ballot, `voted` with a slot, a ballot and
    an entry, or `base` with a slot and rows."""

    def __init__(self):
        self.change = None
        self.packets = {}
        self.learned = []
        self.call = None
        # Within one letter, whether missing entries were asked for and whether a snapshot was sent.
        self.asked = False
        self.copied = False

    def votes(self):
        """The vote that is cast: its slot, its ballot and its entry; none where none is."""
        return [self.change[1:]] if self.change and self.change[0] == "voted" else []

    def letters(self):
        return sorted(self.packets.items())


class Replica:
    def __init__(self, me, run):
        self.me = me
        self.run = run
        self.majority = run.members // 2 + 1
        self.others = [other for other in range(run.members) if other != me]
        self.keep(Kept(0, 0, {}, 0, fresh_rows(run.versions)))
        self.start()

    def kept(self):
        """What is on its disk."""
        return Kept(self.tried, self.promised, dict(self.votes), self.base, list(self.rows))

    def keep(self, kept):
        """Has this on its disk, and nothing else."""
        self.tried, self.promised, self.votes, self.base, self.rows = kept

    def start(self):
        """Starts with what is on the disk."""
        self.learned = []
        self.launches = list(self.rows)
        self.term = Follower()
        self.seen = max(self.promised, 8 * self.tried + self.me)

    @property
    def prefix(self):
        """The first slot whose entry it has not learned."""
        return self.base + len(self.learned)

    def leads(self):
        return isinstance(self.term, Leader)

    def is_free(self):
        """Whether it leads, and nothing waits for votes or binds what it proposes."""
        return self.leads() and self.term.flight is None and not self.term.is_bound(self.prefix)

    def wants(self, now):
        """What its launch table asks for at a clock reading."""
        return choose(self.run, self.launches, now, self.me)

    # Causes of steps.

    def campaign(self):
        step = Step()
        ballot = 8 * (max(self.tried, self.seen // 8) + 1) + self.me
        self.tried, self.promised = ballot // 8, ballot
        step.change = "tried", ballot
        best = {slot: vote for slot, vote in self.votes.items() if slot >= self.prefix}
        self.term = Candidate(ballot, self.prefix, self.me, best)
        self.tell_all(step, Prepare(ballot, self.prefix))
        self.lead_if_promised()
        return step

    def tick(self, now):
        step = Step()
        if len(self.learned) >= MOST_ENTRIES:
            self.rebase(step, self.prefix, list(self.launches))
        elif self.leads() and self.term.flight:
            self.wait(step)
        elif self.leads():
            self.go_on(step, now)
        return step

    def answer(self, answer):
        step = Step()
        if self.is_free() and is_open(self.launches, answer.job, answer.at):
            self.propose(step, End(answer.job, answer.at, answer.kind))
        return step

    def hear(self, sender, packets):
        step = Step()
        for packet in packets:
            self.observe(getattr(packet, "ballot", 0))
            LINES[type(packet)](self, step, sender, packet)
        return step

    # A leader and its proposals.

    def wait(self, step):
        flight = self.term.flight
        flight.waited = (flight.waited + 1) % TICKS
        if flight.waited == 0:
            for other in self.others:
                if other not in flight.accepted:
                    self.tell(step, other, Accept(self.term.ballot, flight.slot, flight.entry))

    def go_on(self, step, now):
        """What a leader does whose proposals are all chosen."""
        if self.term.is_bound(self.prefix):
            bound = self.term.best.get(self.prefix)
            self.propose(step, bound.entry if bound else NOOP)
            return
        wanted = self.wants(now)
        if wanted is None:
            self.tell_all(step, Lead(self.term.ballot, self.prefix))
        elif isinstance(wanted, Call):
            step.call = wanted
        else:
            self.propose(step, wanted)

    def propose(self, step, entry):
        slot, ballot = self.prefix, self.term.ballot
        self.vote(step, slot, ballot, entry)
        self.term.flight = Flight(slot, entry, self.me)
        self.tell_all(step, Accept(ballot, slot, entry))
        self.choose_if_accepted(step)

    def choose_if_accepted(self, step):
        flight = self.term.flight
        if len(flight.accepted) >= self.majority:
            self.learn(step, flight.entry)
            self.tell_all(step, Known(flight.slot, flight.entry))

    def lead_if_promised(self):
        if len(self.term.heard) >= self.majority:
            self.term = Leader(self.term.ballot, self.term.best)

    # What is changed.

    def observe(self, ballot):
        """Hears of a ballot; a higher one ends its own."""
        self.seen = max(self.seen, ballot)
        if self.term.ballot is not None and ballot > self.term.ballot:
            self.term = Follower(ballot)

    def vote(self, step, slot, ballot, entry):
        self.votes[slot] = Vote(ballot, entry)
        self.promised = ballot
        step.change = "voted", slot, ballot, entry

    def learn(self, step, entry):
        step.learned.append((self.prefix, entry))
        apply(self.run.versions, self.launches, entry)
        self.learned.append(entry)
        self.end_flight()

    def end_flight(self):
        """A proposal below the prefix is over."""
        if self.leads() and self.term.flight and self.term.flight.slot < self.prefix:
            self.term.flight = None

    def rebase(self, step, slot, rows):
        """Takes the launch table at a slot in place of the entries below it."""
        self.learned = self.learned[slot - self.base :]
        self.base, self.rows = slot, rows
        step.change = "base", slot, rows
        self.votes = {other: vote for other, vote in self.votes.items() if other >= slot}

    # What is told.

    def tell(self, step, other, packet):
        step.packets.setdefault(other, []).append(packet)

    def tell_all(self, step, packet):
        for other in self.others:
            self.tell(step, other, packet)

    def tell_known(self, step, other, slot):
        for place in range(slot - self.base, len(self.learned)):
            self.tell(step, other, Known(self.base + place, self.learned[place]))

    def copy_to(self, step, other):
        """A snapshot: the launch table at the base and the entries behind it. A step sends one at most."""
        if not step.copied:
            step.copied = True
            self.tell(step, other, Snap(self.base, self.rows))
            self.tell_known(step, other, self.base)

    def ask_below(self, step, other, slot):
        if slot > self.prefix:
            self.tell(step, other, AskFrom(self.prefix))

    # What is heard, by the kind of packet.

    def hear_prepare(self, step, sender, packet):
        if packet.ballot <= self.promised:
            self.tell(step, sender, Nack(packet.ballot, self.promised))
        elif packet.slot < self.base:
            self.copy_to(step, sender)
        else:
            self.promised = packet.ballot
            step.change = "promised", packet.ballot
            votes = {slot: vote for slot, vote in self.votes.items() if slot >= packet.slot}
            self.tell(step, sender, Promise(packet.ballot, packet.slot, votes))

    def hear_promise(self, step, sender, packet):
        term = self.term
        if not isinstance(term, Candidate) or (term.ballot, term.first) != (packet.ballot, packet.slot):
            return
        term.heard.add(sender)
        for slot, vote in packet.votes.items():
            if slot not in term.best or vote.ballot > term.best[slot].ballot:
                term.best[slot] = vote
        self.lead_if_promised()

    def hear_accept(self, step, sender, packet):
        ballot, slot, entry = packet
        if ballot < self.promised:
            self.tell(step, sender, Nack(ballot, self.promised))
        elif slot < self.base:
            self.copy_to(step, sender)
        else:
            if slot not in self.votes or self.votes[slot].ballot != ballot:
                self.vote(step, slot, ballot, entry)
            self.tell(step, sender, Accepted(ballot, slot))
            self.ask_below(step, sender, slot)

    def hear_accepted(self, step, sender, packet):
        flight = self.term.flight if self.leads() and self.term.ballot == packet.ballot else None
        if flight and flight.slot == packet.slot:
            flight.accepted.add(sender)
            self.choose_if_accepted(step)

    def hear_nack(self, step, sender, packet):
        pass

    def hear_known(self, step, sender, packet):
        if packet.slot == self.prefix:
            self.learn(step, packet.entry)
        elif packet.slot > self.prefix and not step.asked:
            step.asked = True
            self.tell(step, sender, AskFrom(self.prefix))

    def hear_ask(self, step, sender, packet):
        if packet.slot < self.base:
            self.copy_to(step, sender)
        else:
            self.tell_known(step, sender, packet.slot)

    def hear_snapshot(self, step, sender, packet):
        if packet.slot > self.prefix:
            self.rebase(step, packet.slot, packet.rows)
            self.launches = list(packet.rows)
            self.end_flight()

    def hear_lead(self, step, sender, packet):
        self.ask_below(step, sender, packet.slot)


LINES = {
    Prepare: Replica.hear_prepare,
    Promise: Replica.hear_promise,
    Accept: Replica.hear_accept,
    Accepted: Replica.hear_accepted,
    Nack: Replica.hear_nack,
    Known: Replica.hear_known,
    AskFrom: Replica.hear_ask,
    Snap: Replica.hear_snapshot,
    Lead: Replica.hear_lead,
}
