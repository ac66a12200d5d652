"""A world that is watched: after each turn what replicas know agrees with what was chosen, each launch that is held was started
in the log before it was called, each drain ends within its bounds, and where a disk stops within a write, its files stand for what
is kept."""
from collections import Counter, defaultdict
from operator import le

from .files import Files
from .jobs import Never
from .launches import LAUNCH, End, Start, Table, apply, fresh_rows, takes_effect
from .replica import MOST_ENTRIES, Accept, Accepted, Follower, Known, Lead, Nack, Prepare, Promise, Snap
from .world import World

# A drain's rounds until the coordinator leads alone, and then, once it has nothing to do, until all have learned as much.
MOST_TO_LEAD = 4
MOST_TO_LEVEL = 5
# How often the coordinator stands for leader while it settles.
MOST_CAMPAIGNS = 2
WITH_BALLOT = (Prepare, Promise, Accept, Accepted, Nack, Lead)


class Broken(Exception):
    """A law that didn't hold."""


def claim(holds, law):
    if not holds:
        raise Broken(law)


class WatchedWorld(World):
    def __init__(self, run, seed=0):
        super().__init__(run, seed)
        self.seen = Counter()
        self.voters = defaultdict(set)
        self.chosen = {}
        # The launch tables after each entry of the log, the launches that the log started, each with the version by which, and ended, and
        # the minutes at which it adopted versions.
        self.tables = [tuple(fresh_rows(run.versions))]
        self.started = [{} for _ in run.jobs]
        self.ended = {}
        self.adopted = []
        # The version that each replica knows to be in force.
        self.known = [0 for _ in self.members]
        self.campaigns = 0
        self.checked = {}
        # Where disks are armed, the files of each.
        has_break = any(command[0] == "break" for command in run.script)
        self.files = [Files(who, run.versions) for who in self.members] if has_break else []

    # What is chosen, and what agrees with it.

    def add(self, turn, step=None):
        super().add(turn, step)
        self.seen[turn.word] += 1
        if turn.word == "restart":
            self.check_files(self.files[turn.who : turn.who + 1])
        self.seen["snapshot heard"] += turn.word == "hear" and self.hears_snapshot(turn)
        if step:
            self.count_votes(turn.who, step.votes())
            for slot, entry in step.learned:
                claim(self.chosen.get(slot, entry) == entry and slot in self.chosen, "what is learned is chosen")
        if turn.call:
            self.seen[turn.fate] += 1
            claim(turn.call.at in self.started[turn.call.job], "a launch is called once its start is chosen")
        if turn.who is not None and self.runs[turn.who]:
            self.check_replica(self.replicas[turn.who])
            self.count_versions(turn, step)

    def count_versions(self, turn, step):
        """Counts where an adoption waits for a launch that is open, and where a snapshot tells of one."""
        own = self.replicas[turn.who].launches[-1]
        later = self.run.versions[own.launched + 1 :]
        self.seen["adoption that waits"] += bool(turn.call and later and later[0].first <= turn.operand)
        rows = step.change[2] if turn.word == "hear" and step.change and step.change[0] == "base" else None
        self.seen["adoption in a snapshot"] += rows is not None and rows[-1].launched > self.known[turn.who]
        self.known[turn.who] = own.launched

    def hears_snapshot(self, turn):
        return any(isinstance(packet, Snap) for packet in self.letters[turn.operand].packets)

    def count_votes(self, who, votes):
        for slot, ballot, entry in votes:
            voters = self.voters[slot, ballot, entry]
            self.seen["adoption by a later leader"] += isinstance(entry, Table) and not voters and self.was_proposed(slot, ballot, entry)
            voters.add(who)
            if len(voters) > self.run.members // 2:
                claim(self.chosen.setdefault(slot, entry) == entry, "one entry is chosen at a slot")
        while len(self.tables) - 1 in self.chosen:
            self.extend(self.chosen[len(self.tables) - 1])

    def was_proposed(self, slot, ballot, entry):
        """Whether an entry was voted for at a slot in an earlier ballot."""
        return any((at, voted) == (slot, entry) and other < ballot for at, other, voted in self.voters)

    def extend(self, entry):
        """The log gains an entry."""
        rows = list(self.tables[-1])
        if takes_effect(self.run.versions, rows, entry):
            self.count(entry)
        apply(self.run.versions, rows, entry)
        self.tables.append(tuple(rows))

    def count(self, entry):
        """Counts an entry of the log that takes effect."""
        if isinstance(entry, Start):
            claim(entry.at not in self.started[entry.job], "no launch is started twice")
            self.seen["job comes back"] += self.comes_back(entry.job)
            self.started[entry.job][entry.at] = len(self.adopted)
        elif isinstance(entry, End):
            self.check_end(entry)
        elif isinstance(entry, Table):
            self.check_adoption(entry)

    def comes_back(self, number):
        """Whether a job was launched by an earlier version, and a version since then lacked it."""
        last = max(self.started[number].values(), default=len(self.adopted))
        return any(isinstance(version.jobs[number], Never) for version in self.run.versions[last : len(self.adopted)])

    def check_adoption(self, entry):
        """A version is adopted in its turn, while no launch is open, and not before an instant that was started."""
        *rows, _ = self.tables[-1]
        claim(entry.version == len(self.adopted) + 1, "versions are adopted in turn")
        claim(all(row.open_now is None for row in rows), "no launch is open as a version is adopted")
        cursors = [row.cursor for job, row in zip(self.run.jobs, rows) if row.cursor is not None and not job.by_period]
        claim(max(cursors, default=entry.now) <= entry.now, "no version is adopted before an instant that was started")
        self.seen["adoption"] += 1
        self.adopted.append(entry.now)

    def check_end(self, end):
        held = self.ledger.held.get((end.job, end.at))
        claim(held and held.kind == end.kind, "a launch ends as the scheduler holds it")
        self.ended[end.job, end.at] = end.kind

    def check_replica(self, replica):
        known = replica.prefix, replica.base
        if self.checked.get(replica.me) == known and self.turns[-1].word != "restart":
            return
        self.checked[replica.me] = known
        claim(replica.prefix < len(self.tables), "what is learned is in the log")
        claim(tuple(replica.launches) == self.tables[replica.prefix], "a launch table is that of the log up to the prefix")
        claim(tuple(replica.rows) == self.tables[replica.base], "what is kept of it is that up to the base")

    # Disks that stop.

    def arm(self, who, arm):
        super().arm(who, arm)
        if self.files:
            self.files[who].arm = arm

    def save(self, who, change):
        end = super().save(who, change)
        if self.files:
            claim(self.files[who].save(change) == (end is not None), "a disk stops within the call that its arm says")
        return end

    def break_off(self, turn, change, kept):
        replica, after = self.replicas[turn.who], kept.after(change)
        claim(replica.kept() == after, "a step changes on the disk what it saves")
        claim(kept != after, "a change alters what is kept")
        super().break_off(turn, change, kept)
        claim(self.files[turn.who].kept == replica.kept(), "where a disk stops, its files stand for what is kept")
        kind = "snapshot" if change[0] == "base" and turn.cause == "hear" else change[0]
        self.seen[f"{turn.end} {kind}"] += 1

    def check_files(self, disks):
        """The files of disks are read anew."""
        for files in disks:
            files.attach()
            claim(files.kept == self.replicas[files.me].kept(), "files stand for what is kept")

    # Free turns.

    def free(self, stamp, turns):
        before = self.seen.copy()
        super().free(stamp, turns)
        for word, count in (self.seen - before).items():
            self.seen[f"free {word}"] += count
        self.seen["free open on the board"] += self.shown[1] > 0

    def show(self):
        super().show()
        prefix, jobs_open = self.shown
        claim(jobs_open == sum(row.open_now is not None for row in self.tables[prefix]), "what is shown is of the log's first entries")

    # Draining.

    def settle(self, at):
        self.campaigns = 0
        who = super().settle(at)
        self.seen["second campaign"] += self.campaigns == MOST_CAMPAIGNS
        return who

    def campaign(self, who):
        self.campaigns += 1
        super().campaign(who)

    def leads_alone(self, who):
        """Whether nobody can outbid the leader, and nobody knows an entry or is told one that it doesn't know."""
        leader = self.replicas[who]
        if not leader.leads():
            return False
        others = [self.replicas[other] for other in leader.others]
        follow = all(isinstance(other.term, Follower) and other.prefix <= leader.prefix for other in others)
        promised = all(replica.promised <= leader.term.ballot for replica in self.replicas)
        packets = (packet for mail in self.mails for number in mail for packet in self.letters[number].packets)
        return follow and promised and all(is_tame(packet, leader) for packet in packets)

    def drain(self, who, at):
        measured = DrainMeasure(self, who, at)
        while not self.is_quiet(who, at):
            if isinstance(self.replicas[who].term, Follower):
                self.campaign(who)
            self.round(at)
            measured.take()
        claim(self.campaigns <= MOST_CAMPAIGNS, "the coordinator stands for leader twice at most, and not again as it walks on")
        self.seen["drain"] += 1

    def work(self, who):
        """What the leader has left to do at most, in rounds: seven for each vote that binds it, for each step of a job's cursor and
        for each version to come, and those until what it does now is chosen."""
        leader = self.replicas[who]
        bound = sum(max(0, slot + 1 - leader.prefix) for slot in leader.term.best)
        *rows, own = leader.launches
        work = bound + sum(left_in(row, self.run.end) for row in rows) + len(self.run.versions) - 1 - own.launched
        due = len(leader.learned) >= MOST_ENTRIES
        if leader.term.flight:
            return 7 * work + 3 - leader.term.flight.waited + due
        return 7 * work + (4 if self.waits[who] else 5 + due)

    # The end.

    def play(self):
        for words in self.run.script:
            self.command(*words)
        by_script = self.run.first - 1 if self.latest is None else self.latest
        self.begin_part()
        self.walk(self.run.end - 1)
        self.check_ends(by_script)
        return self

    def check_ends(self, by_script):
        """Each due instant is closed, as a launch where it is later than each clock reading of the script; each version is adopted; and
        what is kept can be read."""
        self.check_files(self.files)
        claim({name: call.kind for name, call in self.ledger.held.items()} == self.ended, "all that is held has ended in the log")
        self.check_versions()
        for number, job in enumerate(self.run.jobs):
            if job.by_period:
                self.check_dates(number)
            else:
                self.check_dues(number, by_script)

    def check_versions(self):
        """By the last minute no version is left that might be adopted."""
        firsts = [version.first for version in self.run.versions[1:]]
        claim(len(self.adopted) == len(firsts), "each version is adopted")
        claim(all(map(le, firsts, self.adopted)), "no version is adopted before its first minute")
        claim(self.adopted == sorted(self.adopted), "no version is adopted before an earlier one")

    def dues_of(self, number):
        """The due instants of a job, by the versions that the log adopts: each counts from the minute after its adoption on, up to that
        of the next one."""
        bounds = [self.run.first - 1, *self.adopted, self.run.end]
        parts = zip(self.run.versions, bounds, bounds[1:])
        return [at for version, after, last in parts for at in version.jobs[number].dues if after < at <= last]

    def check_dues(self, number, by_script):
        dues = self.dues_of(number)
        claim(list(self.started[number]) == dues, "each due instant is started once, in order")
        launched = [at for at in dues if self.ended[number, at] == LAUNCH]
        claim(all(at in launched for at in dues if at > by_script), "each later due instant is launched")

    def check_dates(self, number):
        """By the version by which it was started, which has the job, each launch is a period behind the one before."""
        started = self.started[number]
        claim(list(started) == sorted(started), "dates rise")
        lacking = [version for version in started.values() if isinstance(self.run.versions[version].jobs[number], Never)]
        claim(not lacking, "no date is started by a version without the job")
        dates = [at for at in started if self.ended.get((number, at)) == LAUNCH]
        for last, day in zip(dates, dates[1:]):
            claim(self.run.versions[started[day]].jobs[number].is_over(last, day), "launches are a period apart")


def left_in(row, end):
    """What a job has left at most: a start and an end for each minute behind its cursor, and the end of what is open."""
    cursor = -1 if row.cursor is None else row.cursor
    return 2 * (end - cursor) + (row.open_now is not None)


def is_tame(packet, leader):
    """Whether a packet names no ballot above the leader's and no entry that the leader doesn't know."""
    if isinstance(packet, WITH_BALLOT):
        return packet.ballot <= leader.term.ballot
    if isinstance(packet, Known):
        return packet.slot < leader.prefix
    return not isinstance(packet, Snap) or packet.slot <= leader.prefix


class DrainMeasure:
    """The rounds of a drain, and what is claimed after each."""

    def __init__(self, world, who, at):
        self.world = world
        self.who = who
        self.at = at
        self.rounds = 0
        self.led = world.leads_alone(who)
        self.measure = world.work(who) if self.led else None
        self.rested = None

    def rests(self):
        leader = self.world.replicas[self.who]
        return leader.is_free() and self.world.waits[self.who] is None and leader.wants(self.at) is None

    def take(self):
        self.rounds += 1
        alone = self.world.leads_alone(self.who)
        claim(alone or not self.led, "who leads alone leads on")
        claim(alone or self.rounds < MOST_TO_LEAD, "it leads alone after four rounds")
        self.led = alone
        if alone and not self.rests():
            claim(self.rested is None, "who has nothing to do goes on so")
            work = self.world.work(self.who)
            claim(self.measure is None or work < self.measure, "what is left to do gets less")
            self.measure = work
        elif alone:
            self.rested = self.rounds if self.rested is None else self.rested
            claim(self.rounds - self.rested <= MOST_TO_LEVEL, "all have learned as much five rounds later")
