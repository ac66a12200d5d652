"""What packets, entries, terms and changes of a disk say, in the words of docs/SCENARIOS.md."""
from .instants import stamp_of
from .launches import NOOP, Start, Table
from .replica import Accept, Accepted, AskFrom, Candidate, Follower, Known, Lead, Leader, Prepare, Promise, Snap


def ballot_words(ballot):
    """A ballot by its round and its replica."""
    return f"{ballot // 8}.{ballot % 8}"


def role_words(term):
    """What a replica is, by its term."""
    if isinstance(term, (Candidate, Leader)):
        return f"{type(term).__name__.lower()} {ballot_words(term.ballot)}"
    return "follower"


def term_words(term):
    if isinstance(term, Leader) and term.flight:
        return f"{role_words(term)} flight at {term.flight.slot}"
    if isinstance(term, Follower) and term.ended:
        return f"{role_words(term)}, ended by {ballot_words(term.ended)}"
    return role_words(term)


class Words:
    """Words in which a launch is named as `title` does, by its job and by when it is due, and an instant as `stamp` does."""

    stamp = staticmethod(stamp_of)

    def __init__(self, title):
        self.title = title

    def entry(self, entry):
        if entry is NOOP:
            return "noop"
        if isinstance(entry, Table):
            return f"version {entry.version} {self.stamp(entry.now)}"
        title = self.title(entry.job, entry.at)
        return f"start {title}" if isinstance(entry, Start) else f"end {title} {entry.kind}"

    def entries(self, entries):
        """Entries with their slots; no-ops of slots that follow one another are told together."""
        told = []
        for slot, entry in entries:
            if told and entry is NOOP and told[-1][2] is NOOP and told[-1][1] + 1 == slot:
                told[-1][1] = slot
            else:
                told.append([slot, slot, entry])
        return [(str(first) if first == last else f"{first} to {last}", self.entry(entry)) for first, last, entry in told]

    def vote(self, slot, ballot, entry):
        return f"{ballot_words(ballot)} at {slot} {self.entry(entry)}"

    def rows(self, rows):
        """The rows of a launch table: one for each job, and the last, which is the table's own."""
        titles = [*(f"job {job}" for job in range(len(rows) - 1)), "table"]
        return [self.row(*titled) for titled in zip(titles, rows)]

    def row(self, title, row):
        told = [("cursor", row.cursor), ("open", row.open_now), ("last", row.last)]
        parts = [f"{name} {self.stamp(instant)}" for name, instant in told if instant is not None]
        parts += [f"{name} {count}" for name, count in (("launched", row.launched), ("voided", row.voided)) if count]
        return ", ".join([f"row {title}", *parts])

    def packets(self, packets):
        """What the packets of a letter say."""
        parts, known = [], []
        for packet in [*packets, None]:
            if isinstance(packet, Known):
                known.append((packet.slot, packet.entry))
                continue
            parts += [f"known {slots} {entry}" for slots, entry in self.entries(known)]
            known = []
            parts += [] if packet is None else [self.packet(packet)]
        return "; ".join(parts)

    def packet(self, packet):
        """What a packet says that tells no entry that is known."""
        kind = type(packet)
        if kind is Prepare:
            return f"prepare {ballot_words(packet.ballot)} from {packet.slot}"
        if kind is Promise:
            votes = [f"; vote {self.vote(slot, *vote)}" for slot, vote in sorted(packet.votes.items())]
            return f"promise {ballot_words(packet.ballot)} from {packet.slot}, votes {len(votes)}{''.join(votes)}"
        if kind is Accept:
            return f"accept {self.vote(packet.slot, packet.ballot, packet.entry)}"
        if kind is Accepted:
            return f"accepted {ballot_words(packet.ballot)} at {packet.slot}"
        if kind is AskFrom:
            return f"ask from {packet.slot}"
        if kind is Lead:
            return f"lead {ballot_words(packet.ballot)} up to {packet.slot}"
        if kind is Snap:
            return "; ".join([f"snapshot at {packet.slot}, rows {len(packet.rows)}", *self.rows(packet.rows)])
        return f"nack {ballot_words(packet.refused)}, promised {ballot_words(packet.ballot)}"

    def change(self, change):
        """What is changed on a disk."""
        if change is None:
            return "nothing"
        kind, *parts = change
        if kind == "voted":
            return f"voted {self.vote(*parts)}"
        if kind == "base":
            return "; ".join([f"base {parts[0]}", *self.rows(parts[1])])
        return f"{kind} {ballot_words(parts[0])}"
