"""What the commands of crates/store_play come to, as docs/WIRE.md tells them: a store and a node on a disk, byte for byte."""
from collections import Counter
from datetime import timezone

from .disk import KEPT, Arm, Disk
from .files import BODY, GATED, SHUT, Areas, kept_by, may_follow, record_of
from .instants import Zone, minute_of, stamp_of
from .jobs import Entry, Version
from .launches import NOOP, End, Row, Start, Table, rows_stand
from .laws import Broken
from .letters import fault_of, letter_bytes, packets_in
from .replica import Replica
from .scenarios import COUNTS, ROUNDS, SLOTS, ScenarioWords, ballot_of, copied, is_within, row_of
from .words import ballot_words

FIRST = minute_of("2024-03-31T00:00Z")
LAST = FIRST + 59


class HourWords(ScenarioWords):
    """An instant outside the hour is told by its number."""

    @staticmethod
    def stamp(minute):
        return stamp_of(minute) if FIRST <= minute <= LAST else f"minute {minute}"


WORDS = HourWords()


class Run:
    """What a replica is told: how many there are, and an hour with so many jobs."""

    def __init__(self, members, jobs):
        self.members = members
        self.grace = 10
        told = [Entry(f"job {job}", Zone(timezone.utc), ["0,20,40", "*", "*", "*", "*"], "", "") for job in range(jobs)]
        for job in told:
            job.prepare(FIRST, LAST + 1)
        self.versions = [Version(FIRST, told)]


class Stopped(Exception):
    """The disk has stopped, within the call or before it."""


class HandDisk(Areas):
    """A disk each of whose calls may be the one within which it stops. What it keeps is told by its bytes, and by arithmetic too."""

    def __init__(self, me, versions):
        super().__init__(me, versions)
        self.arm = None
        self.image = None
        self.told = Disk()
        # How often a change of each kind was kept, or lost, where the disk stopped within its save.
        self.ends = Counter()

    def call(self, call, *operands):
        """A write, a cut or a sync. A sync within which the disk stops does nothing, and another call is done."""
        if self.image is not None:
            raise Stopped
        if self.arm and self.arm.left == 0:
            if operands:
                call(*operands)
            self.image, self.arm = self.arm.image, None
            raise Stopped
        call(*operands)
        self.arm = self.arm and self.arm._replace(left=self.arm.left - 1)

    def set_arm(self, arm):
        if self.image is None:
            self.arm = arm

    def revive(self):
        if self.image is not None:
            self.leave(self.image)
            self.image = None

    def attach(self):
        """Finds what the files stand for, and sees to a shut gate behind it: how many bodies there are, and what they stand for."""
        self.call(self.chooser.sync)
        file = self.areas[self.area()]
        self.call(file.sync)
        bodies = self.bodies()
        if file.content[GATED * len(bodies) :][:1] != SHUT:
            self.call(file.write, GATED * len(bodies), SHUT)
            self.call(file.sync)
        return len(bodies), kept_by([BODY.unpack(one) for one in bodies], self.versions)

    def save(self, kept, count, change):
        """Saves a change. Whether it does so, and by arithmetic what a stop within leaves, has to fit."""
        one = record_of(change)
        self.told.arm = self.arm
        end = self.told.save(change)
        try:
            for call in self.append(one, count) if one else self.rebase(kept, *change[1:]):
                self.call(*call)
        except Stopped:
            self.ends[f"{end} {change[0]}"] += 1
            self.check(end is not None, "a disk stops within the save that its arm says")
            left = kept.after(change) if end == KEPT else kept
            self.check(self.left_kept() == left, "where a disk stops, its files stand for what is kept")
            raise
        self.check(end is None, "a disk stops within the save that its arm says")

    def left_kept(self):
        """What the files stand for that the stop leaves."""
        other = Areas(self.me, self.versions)
        other.chooser, other.areas = self.chooser, self.areas
        other.leave(self.image)
        return kept_by([BODY.unpack(one) for one in other.bodies()], self.versions)

    @staticmethod
    def check(holds, law):
        if not holds:
            raise Broken(law)


def hex_words(content):
    return content.hex() or "none"


# What commands say.


def entry_of(text):
    """An entry, in the words in which one is written."""
    if text == "noop":
        return NOOP
    kind, *words = text.split(" ")
    if kind == "version":
        return Table(int(words[0]), minute_of(words[1]))
    _, job, at, *rest = words
    if kind == "end":
        return End(int(job), minute_of(at), rest[0])
    return Start(int(job), minute_of(at), minute_of(rest[-1] if rest else at))


def base_of(text):
    """A base; nothing where its rows aren't in order. Where the table's own row isn't told, it is fresh."""
    jobs, has_table, table = text.partition("; row table")
    slot, *rows = jobs.split("; ")
    told = [row.split(", ") for row in rows]
    if [first for first, *_ in told] != [f"row job {job}" for job in range(len(rows))]:
        return None
    own = row_of(table.split(", ")[1:]) if has_table else Row()
    return "base", int(slot), [*(row_of(parts) for _, *parts in told), own]


def change_of(text):
    """A change; nothing for a base whose rows aren't in order."""
    kind, rest = text.split(" ", 1)
    if kind == "voted":
        ballot, _, slot, entry = rest.split(" ", 3)
        return kind, int(slot), ballot_of(ballot), entry_of(entry)
    return base_of(rest) if kind == "base" else (kind, ballot_of(rest))


BARE, STORE, NODE, HALTED = "nothing is attached", "a store is attached", "a node runs", "the node was stopped"
# By whom the disk has to be had for a command.
WANTS = {
    **{word: {BARE} for word in ("revive", "files", "attach", "start")},
    **{word: {STORE} for word in ("keeps", "save")},
    **{word: {NODE} for word in ("campaign", "tick", "hear")},
    **{word: {BARE, STORE, NODE} for word in ("arm", "disarm")},
    "reopen": {HALTED},
    "stop": {STORE, NODE, HALTED},
}


class Hand:
    """A disk, and who has it: nothing, a store, a node, or one that was stopped within a step."""

    def __init__(self, members, me, jobs):
        self.me = me
        self.run = Run(members, jobs)
        self.disk = HandDisk(me, self.run.versions)
        self.leave_disk()

    def leave_disk(self):
        self.kept, self.count, self.replica, self.cut_short = None, 0, None, None

    def state(self):
        if self.cut_short:
            return HALTED
        if self.replica:
            return NODE
        return STORE if self.kept else BARE

    def play(self, word, rest):
        """The lines of what comes of a command."""
        if self.state() not in WANTS[word]:
            return [f"refused: {self.state()}"]
        try:
            return getattr(self, f"play_{word}")(rest)
        except Stopped:
            self.leave_disk()
            return ["fault Stopped"]

    # The disk.

    def play_arm(self, rest):
        self.disk.set_arm(Arm(*map(int, rest.split(" "))))
        return []

    def play_disarm(self, _):
        self.disk.set_arm(None)
        return []

    def play_revive(self, _):
        self.disk.revive()
        return []

    def play_files(self, _):
        if self.disk.image is not None:
            raise Stopped
        contents = [self.disk.chooser.content, *(area.content for area in self.disk.areas)]
        return [f"{name} {hex_words(content)}" for name, content in zip(("chooser", "area 0", "area 1"), contents)]

    def play_stop(self, _):
        self.leave_disk()
        return []

    # The store.

    def play_attach(self, _):
        self.count, self.kept = self.disk.attach()
        return self.play_keeps(None)

    def play_keeps(self, _):
        promised = ballot_words(self.kept.promised) if self.kept.promised else "none"
        votes = [f"vote {WORDS.vote(slot, *self.kept.votes[slot])}" for slot in sorted(self.kept.votes)]
        return [f"kept: tried {self.kept.tried}, promised {promised}, base {self.kept.base}", *votes, *WORDS.rows(self.kept.rows)]

    def may_save(self, change):
        if change and change[0] == "base":
            return change[1] > self.kept.base and rows_stand(change[2], self.run.versions)
        return change and may_follow(self.kept, change)

    def play_save(self, rest):
        change = change_of(rest)
        if not self.may_save(change):
            return ["refused: the change may not follow what is kept"]
        self.save(change)
        return ["saved"]

    def save(self, change):
        self.disk.save(self.kept, self.count, change)
        self.kept = self.kept.after(change)
        self.count = len(self.disk.bodies())

    # The node.

    def play_start(self, _):
        self.count, self.kept = self.disk.attach()
        self.replica = Replica(self.me, self.run)
        self.replica.keep(self.kept._replace(votes=dict(self.kept.votes), rows=list(self.kept.rows)))
        self.replica.start()
        return ["runs"]

    def is_small(self):
        replica = self.replica
        counts = [count for row in replica.launches for count in (row.launched, row.voided)]
        return replica.tried < ROUNDS and replica.seen // 8 < ROUNDS and replica.prefix < SLOTS and all(count < COUNTS for count in counts)

    def step(self, take):
        """The lines of a step."""
        if not self.is_small():
            return ["refused: the replica's numbers are beyond its bounds"]
        before = copied(self.replica)
        step = take(self.replica)
        if step.change:
            try:
                self.save(step.change)
            except Stopped:
                self.replica, self.cut_short = before, step.change
                return ["fault Stopped"]
        lines = [f"delta {WORDS.change(step.change)}"] if step.change else []
        lines += [f"letter to {to}: {letter_bytes(self.me, packets).hex()}" for to, packets in step.letters()]
        lines += [f"learned {slot}: {WORDS.entry(entry)}" for slot, entry in step.learned]
        if step.call:
            at, now = WORDS.stamp(step.call.at), WORDS.stamp(step.call.now)
            lines.append(f"call job {step.call.job} at {at} {step.call.kind} now {now}")
        return lines

    def play_campaign(self, _):
        return self.step(lambda replica: replica.campaign())

    def play_tick(self, rest):
        now = minute_of(rest)
        if not FIRST <= now <= LAST:
            return ["refused: the stamp is outside the hour from 2024-03-31T00:00Z on"]
        return self.step(lambda replica: replica.tick(now))

    def play_hear(self, rest):
        content = bytes.fromhex(rest)
        fault = fault_of(content, self.run.members)
        if fault and self.is_small():
            return ["fault Letter({} {{ packet: {} }})".format(*fault)]
        sender, packets = (None, []) if fault else packets_in(content)
        within = all(is_within(packet, self.run.versions) for packet in packets)
        return self.step(lambda replica: replica.hear(sender, packets if within else []))

    def play_reopen(self, _):
        before, change = self.kept, self.cut_short
        self.disk.revive()
        _, kept = self.disk.attach()
        self.leave_disk()
        return [f"was kept: {WORDS.change(change)}" if kept == before.after(change) else "was lost"]


def text_of(commands):
    """The text of commands: lines that are kept, and behind each command what comes of it."""
    lines, hand = [], None
    for line in commands.split("\n")[:-1]:
        if not line or line.startswith(("# ", "> ")):
            lines.append(line)
        if line.startswith("> "):
            word, _, rest = line[2:].partition(" ")
            if word == "disk":
                hand = Hand(*map(int, rest.split(" ")))
            else:
                lines += [f"  {told}" for told in (hand.play(word, rest) if hand else ["refused: there is no disk"])]
    return "\n".join([*lines, ""])
