"""The bytes of letters, as docs/WIRE.md tells them: what packets come to, and what bytes say, or the first rule that they break."""
from typing import NamedTuple

from .files import BODY, entry_fields, entry_of
from .launches import Row
from .replica import Accept, Accepted, AskFrom, Known, Lead, Nack, Prepare, Promise, Snap, Vote

PREPARE, PROMISE, VOTE, ACCEPT, ACCEPTED, NACK, KNOWN, ASK, SNAP, ROW, LEAD = range(1, 12)
PLAIN = {PREPARE: Prepare, ACCEPTED: Accepted, LEAD: Lead}
ENTRIES = {VOTE, ACCEPT, KNOWN}
# What an entry uses beside its tag, by that tag.
ENTRY_USES = [set(), {"job", "at", "now"}, {"job", "at"}, {"job", "at"}, {"job", "now"}]
# Of the packets of these kinds a letter has one at most.
ASKING = {PREPARE, ACCEPT, SNAP}


class Fields(NamedTuple):
    """The fields of a packet."""

    kind: int
    sender: int
    tag: int = 0
    zero: int = 0
    job: int = 0
    ballot: int = 0
    slot: int = 0
    old: int = 0
    at: int = 0
    now: int = 0
    last: int = 0


# From packets to bytes.


def row_fields(job, row):
    told = {"at": row.cursor, "now": row.open_now, "last": row.last}
    tag = sum(1 << place for place, value in enumerate(told.values()) if value is not None)
    counts = {"ballot": row.launched, "old": row.voided}
    return {"tag": tag, "job": job, **counts, **{name: value or 0 for name, value in told.items()}}


def parts_of(packet):
    """The kind and the fields of a packet, and those of the ones behind it."""
    kind = type(packet)
    if kind is Promise:
        old = [{"slot": slot, "old": vote.ballot, **entry_fields(vote.entry)} for slot, vote in sorted(packet.votes.items())]
        first = {"ballot": packet.ballot, "slot": packet.slot, "old": len(old)}
        return [(PROMISE, first), *((VOTE, {"ballot": packet.ballot, **vote}) for vote in old)]
    if kind is Snap:
        rows = [(ROW, {"slot": packet.slot, **row_fields(job, row)}) for job, row in enumerate(packet.rows)]
        return [(SNAP, {"slot": packet.slot, "old": len(packet.rows)}), *rows]
    if kind is Nack:
        return [(NACK, {"ballot": packet.refused, "old": packet.ballot})]
    if kind is Accept:
        return [(ACCEPT, {"ballot": packet.ballot, "slot": packet.slot, **entry_fields(packet.entry)})]
    if kind is Known:
        return [(KNOWN, {"slot": packet.slot, **entry_fields(packet.entry)})]
    if kind is AskFrom:
        return [(ASK, {"slot": packet.slot})]
    return [(number, {"ballot": packet.ballot, "slot": packet.slot}) for number, plain in PLAIN.items() if plain is kind]


def letter_bytes(sender, packets):
    """The bytes of a letter."""
    return b"".join(BODY.pack(*Fields(kind, sender, **told)) for packet in packets for kind, told in parts_of(packet))


# From bytes to packets.


def keeps_kind(fields):
    """Whether the kind is one of the eleven, and an entry's tag and a row are as they may be."""
    if fields.kind in ENTRIES:
        return fields.tag <= 4
    if fields.kind == ROW:
        return fields.tag < 8 and fields.tag & 3 != 2 and max(fields.ballot, fields.old) < 2**32
    return PREPARE <= fields.kind <= LEAD


def used(fields):
    """The names of the fields that a packet uses."""
    kind, tag = fields.kind, fields.tag
    told = {"kind", "sender"}
    told |= {"ballot"} if kind not in (KNOWN, ASK, SNAP) else set()
    told |= {"slot"} if kind != NACK else set()
    told |= {"old"} if kind in (PROMISE, VOTE, NACK, SNAP, ROW) else set()
    if kind in ENTRIES:
        return told | {"tag"} | ENTRY_USES[tag]
    if kind == ROW:
        return told | {"tag", "job"} | {name for place, name in enumerate(("at", "now", "last")) if tag >> place & 1}
    return told


def keeps_zeros(fields):
    return all(value == 0 for name, value in fields._asdict().items() if name not in used(fields))


def keeps_members(fields, sender, members):
    """Whether the packet is of the sender, and its ballots are of a round from 1 on and of one of so many replicas."""
    ballots = [fields.ballot] if "ballot" in used(fields) and fields.kind != ROW else []
    ballots += [fields.old] if fields.kind in (VOTE, NACK) else []
    return fields.sender == sender < members and all(ballot >= 8 and ballot % 8 < members for ballot in ballots)


class Group:
    """How many old votes and rows are owed, the job of the next row, and whether a packet came of which there is one at most."""

    def __init__(self):
        self.votes, self.rows, self.job, self.has_asked = 0, 0, 0, False

    def takes(self, fields):
        """Whether a packet may follow; if so it does."""
        kind = fields.kind
        if kind == VOTE:
            self.votes -= 1
            return self.votes >= 0
        if kind == ROW:
            self.rows, self.job = self.rows - 1, self.job + 1
            return self.rows >= 0 and fields.job == self.job - 1
        may = not self.votes and not self.rows and not (self.has_asked and kind in ASKING)
        self.votes, self.rows, self.job = fields.old * (kind == PROMISE), fields.old * (kind == SNAP), 0
        self.has_asked |= kind in ASKING
        return may


def fault_of(content, members):
    """The first rule that bytes break, and the packet that breaks it; nothing where they are a letter."""
    if not content or len(content) % BODY.size:
        return "BadLength", 0
    group, all_fields = Group(), [Fields(*told) for told in BODY.iter_unpack(content)]
    for place, fields in enumerate(all_fields):
        rules = [
            ("BadKind", lambda: keeps_kind(fields)),
            ("NotZero", lambda: keeps_zeros(fields)),
            ("BadMember", lambda: keeps_members(fields, all_fields[0].sender, members)),
            ("BadGroup", lambda: group.takes(fields)),
        ]
        for name, keeps in rules:
            if not keeps():
                return name, place
    return ("BadGroup", len(all_fields)) if group.votes or group.rows else None


def entry_in(fields):
    return entry_of(fields.tag, fields.job, fields.at, fields.now)


def row_in(fields):
    told = [value if fields.tag >> place & 1 else None for place, value in enumerate((fields.at, fields.now, fields.last))]
    return Row(*told, fields.ballot, fields.old)


def packets_in(content):
    """The sender and the packets of a letter."""
    told, packets = [Fields(*fields) for fields in BODY.iter_unpack(content)], []
    for place, fields in enumerate(told):
        kind, behind = fields.kind, told[place + 1 : place + 1 + fields.old]
        if kind == PROMISE:
            votes = {vote.slot: Vote(vote.old, entry_in(vote)) for vote in behind}
            packets.append(Promise(fields.ballot, fields.slot, votes))
        elif kind == SNAP:
            packets.append(Snap(fields.slot, [row_in(row) for row in behind]))
        elif kind == NACK:
            packets.append(Nack(fields.ballot, fields.old))
        elif kind == ACCEPT:
            packets.append(Accept(fields.ballot, fields.slot, entry_in(fields)))
        elif kind == KNOWN:
            packets.append(Known(fields.slot, entry_in(fields)))
        elif kind == ASK:
            packets.append(AskFrom(fields.slot))
        elif kind in PLAIN:
            packets.append(PLAIN[kind](fields.ballot, fields.slot))
    return told[0].sender, packets
