"""The three files of a replica's disk, byte for byte as docs/WIRE.md tells them: the calls that save a change, what is left of the files
where the disk stops within one of these, and what they stand for."""
import struct

from .launches import LAUNCH, NOOP, VOID, End, Row, Start, Table, fresh_rows, rows_stand
from .replica import Kept, Vote

# Of a record the kind, from, the tag, 0, the job, the ballot, the slot, old, at, now and last; before it stands a gate.
BODY = struct.Struct(">BBBBIQQQqqq")
SHUT, OPEN = b"\0", b"\1"
GATED = len(OPEN) + BODY.size
TRIED, PROMISED, VOTED, BASE, ROW = range(1, 6)
BALLOTS = {"tried": TRIED, "promised": PROMISED}
ENDS = {2: LAUNCH, 3: VOID}


class File:
    """What is there, what the last sync left, and which places were written since, as pairs of a first one and the one behind the last."""

    def __init__(self, content=b""):
        self.content = content
        self.synced = content
        self.written = []

    def write(self, at, piece):
        self.content = self.content[:at] + piece + self.content[at + len(piece) :]
        self.written.append((at, at + len(piece)))

    def cut(self, length):
        self.content = self.content[:length]

    def sync(self):
        self.synced = self.content
        self.written = []

    def left(self, image):
        """What a stop leaves, by the number of the image."""
        if image % 3 == 0:
            return self.synced
        left = bytearray(self.content)
        for first, end in self.written if image % 3 == 2 else []:
            end = min(end, len(left))
            left[first:end] = bytes([image // 3 % 256]) * max(0, end - first)
        return bytes(left)


def body(kind, tag=0, job=0, ballot=0, slot=0, old=0, at=0, now=0, last=0):
    return BODY.pack(kind, 0, tag, 0, job, ballot, slot, old, at, now, last)


def entry_fields(entry):
    """The fields that an entry fills, by their names."""
    if entry is NOOP:
        return {}
    if isinstance(entry, Start):
        return {"tag": 1, "job": entry.job, "at": entry.at, "now": entry.now}
    if isinstance(entry, Table):
        return {"tag": 4, "job": entry.version, "now": entry.now}
    return {"tag": 2 if entry.kind == LAUNCH else 3, "job": entry.job, "at": entry.at}


def vote_body(slot, ballot, entry):
    return body(VOTED, ballot=ballot, slot=slot, **entry_fields(entry))


def row_body(slot, job, row):
    told = row.cursor, row.open_now, row.last
    tag = sum(1 << place for place, value in enumerate(told) if value is not None)
    return body(ROW, tag, job, row.launched, slot, row.voided, *(value or 0 for value in told))


def record_of(change):
    """The record that saves a change; none for a base, which takes an area of its own."""
    kind, *parts = change
    if kind in BALLOTS:
        return body(BALLOTS[kind], ballot=parts[0])
    return vote_body(*parts) if kind == "voted" else None


def base_bodies(kept, own, slot, rows):
    """The records that an area begins with: the launch table, and what is kept beside it."""
    votes = [vote_body(other, *kept.votes[other]) for other in sorted(kept.votes) if other >= slot]
    tried = [body(TRIED, ballot=own)] if own else []
    promised = [body(PROMISED, ballot=kept.promised)] if kept.promised > own else []
    table = [row_body(slot, job, row) for job, row in enumerate(rows)]
    return [body(BASE, slot=slot, old=len(rows)), *table, *tried, *promised, *votes]


def entry_of(tag, job, at, now):
    if tag == 0:
        return NOOP
    if tag == 1:
        return Start(job, at, now)
    return Table(job, now) if tag == 4 else End(job, at, ENDS[tag])


def row_of(record):
    tag, launched, voided, *told = record[2], record[5], record[7], *record[8:]
    return Row(*(value if tag >> place & 1 else None for place, value in enumerate(told)), launched, voided)


def change_of(record):
    """The change that a record saves."""
    kind, _, tag, _, job, ballot, slot, _, at, now, _ = record
    return {TRIED: ("tried", ballot), PROMISED: ("promised", ballot)}.get(kind) or ("voted", slot, ballot, entry_of(tag, job, at, now))


def may_follow(kept, change):
    """Whether a change keeps the order of ballots behind what is kept."""
    kind, *parts = change
    if kind == "voted":
        return parts[0] >= kept.base and parts[1] >= kept.promised
    return parts[0] > kept.promised and (kind != "tried" or parts[0] // 8 > kept.tried)


def copy_length(records, base):
    """How many records are the copy behind a base: a ballot that was tried, a promise above it, and votes at rising slots."""
    place = int(bool(records) and records[0][0] == TRIED)
    own = records[0][5] if place else 0
    place += int(place < len(records) and records[place][0] == PROMISED and records[place][5] > own)
    slot = base - 1
    while place < len(records) and records[place][0] == VOTED and records[place][6] > slot:
        slot, place = records[place][6], place + 1
    return place


def kept_by(records, versions):
    """What records stand for; nothing where they stand for nothing."""
    kept = Kept(0, 0, {}, 0, fresh_rows(versions))
    if records and records[0][0] == BASE:
        base, count = records[0][6], records[0][7]
        group, records = records[1 : 1 + count], records[1 + count :]
        in_order = [(record[0], record[4], record[6]) for record in group] == [(ROW, place, base) for place in range(count)]
        rows = [row_of(record) for record in group]
        if not in_order or not rows_stand(rows, versions):
            return None
        copy, records = records[: copy_length(records, base)], records[copy_length(records, base) :]
        votes = {record[6]: Vote(record[5], change_of(record)[3]) for record in copy if record[0] == VOTED}
        tried = sum(record[5] // 8 for record in copy if record[0] == TRIED)
        kept = Kept(tried, max((record[5] for record in copy), default=0), votes, base, rows)
    for record in records:
        if record[0] not in (TRIED, PROMISED, VOTED) or not may_follow(kept, change_of(record)):
            return None
        kept = kept.after(change_of(record))
    return kept


class Areas:
    """The chooser and two areas of a disk."""

    def __init__(self, me, versions):
        self.me = me
        self.versions = versions
        self.chooser = File()
        self.areas = [File(), File()]

    def area(self):
        """The number of the area that the low bit of the chooser selects."""
        return self.chooser.content[0] % 2 if self.chooser.content else 0

    def bodies(self):
        """The bodies before the first gate of the area that isn't open."""
        content, found = self.areas[self.area()].content, []
        while content[GATED * len(found) :][:1] == OPEN and len(content) > GATED * (len(found) + 1):
            found.append(content[GATED * len(found) + 1 : GATED * (len(found) + 1)])
        return found

    def append(self, one, count):
        """The calls that append a body behind so many."""
        file, tail = self.areas[self.area()], GATED * count
        return [(file.write, tail + 1, one + SHUT), (file.sync,), (file.write, tail, OPEN), (file.sync,)]

    def rebase(self, kept, slot, rows):
        """The calls that begin the other area."""
        other = 1 - self.area()
        own = 8 * kept.tried + self.me if kept.tried else 0
        content = b"".join(OPEN + one for one in base_bodies(kept, own, slot, rows)) + SHUT
        file, chooser = self.areas[other], self.chooser
        return [(file.cut, 0), (file.write, 0, content), (file.sync,), (chooser.write, 0, bytes([other])), (chooser.sync,)]

    def leave(self, image):
        """Leaves what a stop does, by the number of the image."""
        self.chooser = File(self.chooser.left(image))
        self.areas = [File(area.left(image)) for area in self.areas]


class Files(Areas):
    """Files that are attached. Where they are armed, as many calls succeed as were left, and within the next one the disk stops."""

    def __init__(self, me, versions):
        super().__init__(me, versions)
        self.arm = None
        self.attach()

    def attach(self):
        """Finds what the files stand for, and sees to a shut gate behind it."""
        self.chooser.sync()
        file, bodies = self.areas[self.area()], self.bodies()
        file.sync()
        self.count = len(bodies)
        if file.content[GATED * self.count :][:1] != SHUT:
            file.write(GATED * self.count, SHUT)
            file.sync()
        self.kept = kept_by([BODY.unpack(one) for one in bodies], self.versions)

    def save(self, change):
        """Saves a change, and tells whether the disk stopped within. Then the files are what the stop leaves, attached anew."""
        one = record_of(change)
        for call, *operands in self.append(one, self.count) if one else self.rebase(self.kept, *change[1:]):
            if self.arm and self.arm.left == 0:
                # A sync within which the disk stops does nothing, and a write or a cut may be done.
                if operands:
                    call(*operands)
                self.revive()
                return True
            call(*operands)
            self.arm = self.arm and self.arm._replace(left=self.arm.left - 1)
        self.kept, self.count = self.kept.after(change), self.count + 1 if one else len(self.bodies())
        return False

    def revive(self):
        image, self.arm = self.arm.image, None
        self.leave(image)
        self.attach()
