#!/usr/bin/env python3
"""Tests of disks that stop within a write, in the small world: which turn stops, whether its change is kept, what comes of it, and which
journals are refused. What has to come was worked out by hand.

Usage: tools/test_break.py [NAME..]
"""
import random
import unittest
from unittest import mock

from small_world.changed import changed
from small_world.disk import KEPT, LOST, Arm, Disk
from small_world.files import File, Files
from small_world.jobs import Version
from small_world.launches import LAUNCH, NOOP, End, Start, fresh_rows
from small_world.laws import Broken, WatchedWorld
from small_world.made import break_run
from small_world.replay import BadJournal, Followed, Recorded, Replay
from small_world.run_file import RunFile
from small_world.texts import journal_of, report_of
from small_world.verdict import fault_of

SEEDS = range(20)
ONE, SIX_PAST, LAST = "2024-03-31T01:00Z", "2024-03-31T01:06Z", "2024-03-31T01:59Z"
ROUND = f"round {ONE} 1"
LAUNCHED = ["job alice:1 launched 1 void 0", "launch alice:1@20240331T0100Z"]
GIVEN_UP = ["job alice:1 launched 0 void 1", "void alice:1@20240331T0100Z"]
VERSIONS = [Version(0, ["a job"])]
ROWS = fresh_rows(VERSIONS)
VOTE, TABLE = ("voted", 3, 16, NOOP), ("base", 10, ROWS)
# A vote was saved before, and a base, or two of them.
BEFORE = ("tried", 9), ("voted", 2, 16, NOOP)
# After so many calls a disk stops, and leaves that image: whether a record is kept then, a base that is the first one, and the second.
ENDS = [
    # Within the write of a record and its sync; of a base the cut of the area comes before.
    (0, 1, LOST, LOST, LOST),
    (0, 5, LOST, LOST, LOST),
    (1, 1, LOST, LOST, LOST),
    (1, 5, LOST, LOST, LOST),
    # Within the write of its gate, whose byte 1 opens it, and within the sync of a base's area.
    (2, 0, LOST, LOST, LOST),
    (2, 1, KEPT, LOST, LOST),
    (2, 2, LOST, LOST, LOST),
    (2, 5, KEPT, LOST, LOST),
    (2, 8, LOST, LOST, LOST),
    # Within the sync of the gate, and within the write of the chooser, whose low bit selects.
    (3, 0, LOST, LOST, LOST),
    (3, 1, KEPT, KEPT, KEPT),
    (3, 2, LOST, LOST, KEPT),
    (3, 5, KEPT, KEPT, LOST),
    (3, 8, LOST, LOST, KEPT),
    (3, 767, LOST, KEPT, LOST),
    (3, 770, LOST, LOST, KEPT),
    (3, 773, KEPT, KEPT, LOST),
    (3, 2**32 - 1, LOST, LOST, LOST),
    # Behind the last call of a record, and within the sync of the chooser.
    (4, 0, None, LOST, LOST),
    (4, 1, None, KEPT, KEPT),
    (4, 2, None, LOST, KEPT),
    (4, 5, None, KEPT, LOST),
    (5, 1, None, None, None),
    (2**32 - 1, 1, None, None, None),
]


def run_of(members, *script, entry="0 1 * * *", hours=4, grace=0):
    """A run from midnight on whose one job is due at that time; by itself at one o'clock."""
    head = ["cronrun 1", f"replicas {members}", f"window 2024-03-31T00:00Z 2024-03-31T0{hours}:00Z", f"grace {grace}"]
    return RunFile("\n".join([*head, "crontab alice UTC 1", f"{entry} x", "script", *script, "end", ""]))


def played(run, seed=0):
    return WatchedWorld(run, seed).play()


def commanded(run):
    """The world behind the last command of the script."""
    world = WatchedWorld(run)
    for words in run.script:
        world.command(*words)
    world.begin_part()
    return world


def lines_of(world):
    """The lines of a journal between the first one and `end`."""
    return journal_of(world).split("\n")[1:-2]


def turns_of(world):
    """The lines of turns, up to the walk to the end."""
    lines = lines_of(world)
    return [line for line in lines[: lines.index("command end")] if not line.startswith("command")]


def launches_of(world):
    return report_of(world).split("\n")[4:-2]


def stops_of(world):
    """The lines of disks that stopped."""
    return [line for line in lines_of(world) if f" stop {KEPT} " in line or f" stop {LOST} " in line]


class Arms(unittest.TestCase):
    """Which change is kept, by arithmetic and on the files."""

    def saved(self, change, bases, arm):
        """What becomes of a change, where so many bases were kept before."""
        disk, files = Disk(), Files(1, VERSIONS)
        for before in (*BEFORE, *(("base", slot, ROWS) for slot in range(1, bases + 1))):
            disk.save(before)
            files.save(before)
        kept = files.kept
        disk.arm = files.arm = Arm(*arm)
        end, stopped = disk.save(change), files.save(change)
        self.assertEqual(stopped, end is not None)
        self.assertEqual(files.kept, kept if end == LOST else kept.after(change), (bases, arm))
        self.assertIsNone(disk.arm if stopped else None)
        return end

    def test_what_is_kept(self):
        for calls, image, *ends in ENDS:
            told = [self.saved(change, bases, (calls, image)) for change, bases in ((VOTE, 0), (TABLE, 0), (TABLE, 1))]
            self.assertEqual(told, ends, (calls, image))
            self.assertEqual([self.saved(TABLE, bases, (calls, image)) for bases in (2, 3)], ends[1:])

    def test_each_image(self):
        """The files stand for what is kept by arithmetic, whatever byte stands in the place of those that were written."""
        for change, bases in ((VOTE, 0), (TABLE, 0), (TABLE, 1)):
            for calls in range(6):
                for image in (0, 1, *range(2, 3 * 256, 3)):
                    self.saved(change, bases, (calls, image))

    def test_what_files_stand_for(self):
        """By the bytes of the first area, of which P is the body of a promise of ballot 8, and those of the chooser."""
        promise = bytes([2]) + bytes(14) + bytes([8]) + bytes(40)
        told = [("", "", 0), ("1", "", 0), ("1P", "", 0), ("0P1", "", 0), ("1P0", "", 8), ("1P1", "", 8), ("1P1P0", "", None), ("1P0", "\xff", 0)]
        for area, chooser, promised in told:
            files = Files(1, VERSIONS)
            files.areas[0] = File(b"".join(promise if part == "P" else bytes([int(part)]) for part in area))
            files.chooser = File(chooser.encode("latin-1"))
            files.attach()
            self.assertEqual(files.kept and files.kept.promised, promised, area)
        for more, kept in ((56, Files(1, VERSIONS).kept), (57, None)):
            files.areas[1] = File(b"\1" + b"\xff" * more)
            files.attach()
            self.assertEqual(files.kept, kept)

    def test_the_files_of_a_replica_alone(self):
        """It has its ballot, and two votes for each of three launches."""
        world = played(run_of(1, f"break 0 {2**32 - 1} 1", entry="0,20,40 * * * *", hours=1))
        entries = [entry for at in (28530720, 28530740, 28530760) for entry in (Start(0, at, at), End(0, at, LAUNCH))]
        kept = world.files[0].kept
        self.assertEqual((kept.tried, kept.promised, kept.base), (1, 8, 0))
        self.assertEqual(kept.votes, {slot: (8, entry) for slot, entry in enumerate(entries)})
        self.assertEqual([len(area.content) for area in world.files[0].areas], [7 * 57 + 1, 0])

    def test_files_go_on_behind_a_stop(self):
        chance = random.Random(0)
        for _ in range(300):
            disk, files, slot, ballot = Disk(), Files(2, VERSIONS), 0, 2
            for _ in range(12):
                slot, ballot = slot + 1, ballot + 8
                changes = [("tried", ballot), ("promised", ballot + 1), ("voted", slot, ballot, Start(0, slot, slot)), ("base", slot, ROWS)]
                change = chance.choice(changes)
                if chance.random() < 0.5:
                    disk.arm = files.arm = Arm(chance.randrange(6), chance.randrange(800))
                kept, end = files.kept, disk.save(change)
                self.assertEqual(files.save(change), end is not None)
                self.assertEqual(files.kept, kept if end == LOST else kept.after(change))
                files.attach()
                self.assertEqual(files.kept, kept if end == LOST else kept.after(change))


class Rounds(unittest.TestCase):
    def test_a_leader_stops_as_it_votes_first(self):
        """Its clock reads one o'clock and it proposes the start; the vote takes four calls, and is kept in four of sixteen cases."""
        for calls in range(4):
            for image in (0, 1, 2, 5):
                end = KEPT if calls >= 2 and image in (1, 5) else LOST
                world = played(run_of(3, "campaign 0", ROUND, f"break 0 {calls} {image}", ROUND))
                told = ["6 0 hear 2", "7 0 hear 3", f"8 0 stop {end} tick {ONE}", f"9 1 tick {ONE}", f"10 2 tick {ONE}"]
                self.assertEqual(turns_of(world)[6:], told)
                self.assertEqual(stops_of(world), told[2:3])
                self.assertEqual(launches_of(world), LAUNCHED)

    def test_a_vote_that_is_kept_is_told_in_promises(self):
        for image, votes in ((1, [0]), (0, [])):
            script = ["campaign 0", ROUND, f"break 0 3 {image}", ROUND, "restart 0", "campaign 1", ROUND]
            world = commanded(run_of(3, *script))
            (promise,) = [letter.packets[0] for letter in world.letters if letter.sender == 0 and letter.turn > 8]
            self.assertEqual((promise.ballot, list(promise.votes)), (17, votes))

    def test_another_leads_on(self):
        """The launch is called for once a majority has voted for its start: never where the leader stops as it votes first."""
        vote = ["campaign 0", ROUND, "break 0 2 {image}", ROUND]
        end = ["campaign 0", ROUND, "break 0 6 {image}", f"round {ONE} 4"]
        behind = f"21 0 stop {{end}} answer|22 1 hear 8|23 1 tick {ONE}|24 2 hear 9|25 2 tick {ONE}"
        first = f"8 0 stop {{end}} tick {ONE}|9 1 tick {ONE}|10 2 tick {ONE}"
        for script, told, later, launches in (
            (vote, first, "2024-03-31T01:05Z", LAUNCHED),
            (vote, first, SIX_PAST, GIVEN_UP),
            (end, behind, SIX_PAST, LAUNCHED),
        ):
            for image, kept in ((1, KEPT), (0, LOST)):
                lines = [line.format(image=image) for line in script]
                world = played(run_of(3, *lines, "campaign 1", f"round {later} 6", grace=5))
                expected = told.format(end=kept).split("|")
                number = int(expected[0].split(" ")[0])
                self.assertEqual(turns_of(world)[number : number + len(expected)], expected)
                self.assertEqual(launches_of(world), launches)

    def test_calls_are_counted_over_changes(self):
        """One replica: its own ballot, the start and the end of the launch take four calls each."""
        turns = ["0 0 {}campaign", f"1 0 {{}}tick {ONE}", f"2 0 tick {ONE} done alice:1@20240331T0100Z launch", "3 0 {}answer", f"4 0 tick {ONE}"]
        for calls in range(13):
            world = played(run_of(1, f"break 0 {calls} 1", "campaign 0", f"round {ONE} 3"))
            place = [0, 1, 3, 5][calls // 4]
            end = f"stop {KEPT if calls % 4 >= 2 else LOST} "
            told = [line.format(end if number == place else "") for number, line in enumerate(turns)]
            self.assertEqual(turns_of(world), told[: place + 1])
            self.assertEqual(launches_of(world), LAUNCHED)

    def test_a_second_break_begins_the_count_anew(self):
        world = played(run_of(1, "break 0 5 1", "campaign 0", "break 0 5 1", f"round {ONE} 3"))
        self.assertEqual(turns_of(world)[1:], [f"1 0 tick {ONE}", f"2 0 tick {ONE} done alice:1@20240331T0100Z launch", "3 0 stop lost answer"])
        self.assertEqual(stops_of(played(run_of(1, "break 0 0 0", f"break 0 {2**32 - 1} 0", "campaign 0"))), [])

    def test_a_ballot_that_is_lost_is_taken_again(self):
        """It is round 1 of replica 0 again, unless it was kept."""
        for calls, image, end, ballot in ((0, 0, LOST, 8), (2, 1, KEPT, 16)):
            world = commanded(run_of(3, f"break 0 {calls} {image}", "campaign 0", "restart 0", "campaign 0"))
            self.assertEqual([turn.word for turn in world.turns], ["stop", "restart", "campaign"])
            self.assertEqual(world.turns[0].end, end)
            self.assertEqual([(letter.to, letter.packets[0].ballot) for letter in world.letters], [(1, ballot), (2, ballot)])

    def test_a_promise_that_is_lost_is_not_known(self):
        for image, end, ballot in ((5, KEPT, 17), (2, LOST, 9)):
            world = commanded(run_of(3, "campaign 0", f"break 1 2 {image}", ROUND, "restart 1", "campaign 1"))
            self.assertEqual(turns_of(world)[2:], [f"2 1 stop {end} hear 0", "3 2 hear 1", f"4 2 tick {ONE}", "5 1 restart", "6 1 campaign"])
            self.assertEqual([letter.packets[0].ballot for letter in world.letters if letter.sender == 1], [ballot] * 2)

    def test_who_stops_loses_its_mail_and_the_rest_of_the_round(self):
        """Letter 0 waits twice for replica 1. Replica 2 promises in letter 2, and replica 0 proposes in letters 3 and 4."""
        world = played(run_of(3, "campaign 0", "again 0", "break 1 0 1", ROUND, "restart 1", ROUND))
        told = [f"1 0 tick {ONE}", "2 1 stop lost hear 0", "3 2 hear 1", f"4 2 tick {ONE}"]
        self.assertEqual(turns_of(world)[1:], [*told, "5 1 restart", "6 0 hear 2", f"7 0 tick {ONE}", f"8 1 tick {ONE}", f"9 2 tick {ONE}"])
        self.assertEqual(launches_of(world), LAUNCHED)

    def test_what_disarms(self):
        for script in (
            ["break 0 0 1", "stop 0", "restart 0", "campaign 0"],
            ["stop 0", "break 0 0 1", "restart 0", "campaign 0"],
            ["break 0 0 1", f"settle {ONE}"],
            ["break 0 0 1", f"walk {ONE}"],
            ["break 0 0 1"],
            ["break 0 0 1", "campaign 0", "restart 0", "campaign 0"],
            ["break 0 0 1", "campaign 0", f"settle {ONE}"],
        ):
            world = played(run_of(3, *script))
            self.assertEqual(stops_of(world), ["0 0 stop lost campaign"] if script[1:2] == ["campaign 0"] else [])
            self.assertEqual(launches_of(world), LAUNCHED)

    def test_what_stays(self):
        """Clocks, cuts and fates stay over a stop; the clock reading of the tick that was stopped counts."""
        script = ["skew 0 30", "fate 0 late", "cut 0 1", "campaign 0", ROUND, "break 0 0 0", ROUND]
        world = commanded(run_of(3, *script, entry="0 1,2 * * *"))
        self.assertEqual(stops_of(world), ["6 0 stop lost tick 2024-03-31T01:30Z"])
        self.assertEqual((world.skews[0], world.fates[0], world.cuts), (30, "late", {(0, 1)}))
        self.assertEqual(world.latest, world.run.first + 90)


class Tables(unittest.TestCase):
    """A replica alone has two entries in three turns, and keeps its launch table in place of the first 64 in turn 97, behind an answer."""

    def run_to(self, rounds, calls, image):
        script = ["campaign 0", f"round {LAST} {rounds}", f"break 0 {calls} {image}", f"round {LAST} 1"]
        return run_of(1, *script, entry="* * * * *", hours=2, grace=120)

    def stopped(self, rounds, calls, image):
        world = played(self.run_to(rounds, calls, image))
        self.assertEqual(launches_of(world)[0], "job alice:1 launched 120 void 0")
        return stops_of(world)

    def test_the_first_table(self):
        for calls, image, _, end, _ in ENDS[:-2]:
            self.assertEqual(self.stopped(64, 4 + calls, image), [f"97 0 stop {end} tick {LAST}"])
        self.assertEqual(self.stopped(64, 3, 1), ["96 0 stop kept answer"])
        self.assertEqual(self.stopped(64, 9, 1), [])

    def test_the_second_table(self):
        """It is kept in round 130: the entry behind the first table is proposed a round later than it."""
        for calls, image, _, _, end in ENDS[:-2]:
            self.assertEqual(self.stopped(129, 4 + calls, image), [f"194 0 stop {end} tick {LAST}"])

    def test_a_table_that_is_lost_is_kept_later(self):
        for image, base in ((0, 0), (1, 64)):
            world = commanded(self.run_to(64, 7, image))
            self.assertEqual((world.replicas[0].base, len(world.replicas[0].votes)), (base, 64 - base))


class Free(unittest.TestCase):
    def ordered(self, run, order):
        """The lines of free turns that come in that order."""

        class Ordered(Recorded):
            given = iter(order)

            def whose_turn(self, part):
                return next(self.given)

        world = Ordered(run).play()
        self.assertIsNone(fault_of(run, lines_of(world)))
        return turns_of(world), world

    def test_a_stop_is_the_last_turn(self):
        told, _ = self.ordered(run_of(2, "break 0 0 1", f"free {ONE} 3"), [0, 1, 1, 1])
        self.assertEqual(told, ["0 0 stop lost campaign", *(f"{number} 1 tick {ONE}" for number in (1, 2, 3))])
        told, _ = self.ordered(run_of(2, "break 1 2 5", f"free {ONE} 3"), [0, 1, 1, 0, 0])
        self.assertEqual(told, ["0 0 campaign", f"1 1 tick {ONE}", "2 1 stop kept hear 0", f"3 0 tick {ONE}", f"4 0 tick {ONE}"])

    def test_others_go_on(self):
        """Each turn was settled by its replica's turn before. Replica 0 hears the promise in letter 1, leads, and stops as it votes."""
        run = run_of(2, "break 0 4 1", f"free {ONE} 5")
        told, world = self.ordered(run, [0, 1, 1, 0, 0, 0, 1, 1, 1])
        first = ["0 0 campaign", f"1 1 tick {ONE}", "2 1 hear 0", f"3 0 tick {ONE}", "4 0 hear 1", f"5 0 stop lost tick {ONE}"]
        self.assertEqual(told, [*first, *(f"{number} 1 tick {ONE}" for number in (6, 7, 8))])
        self.assertEqual(launches_of(world), LAUNCHED)

    def test_what_waits_is_lost(self):
        """Replica 0 stands for leader anew in its first turn, and stops; the promise in letter 1 waited for it."""
        told, world = self.ordered(run_of(2, "campaign 0", "break 0 0 0", f"free {ONE} 3"), [1, 0, 1, 1])
        self.assertEqual(told[1:], ["1 1 hear 0", "2 0 stop lost campaign", f"3 1 tick {ONE}", f"4 1 tick {ONE}"])
        self.assertNotIn(1, world.heard)

    def test_who_has_stopped_has_no_turn(self):
        run = run_of(2, "break 0 0 1", f"free {ONE} 3")
        _, world = self.ordered(run, [0, 1, 1, 1])
        lines = lines_of(world)
        place = lines.index(f"2 1 tick {ONE}")
        why = fault_of(run, [*lines[:place], f"2 0 tick {ONE}", *lines[place:]])
        self.assertEqual(why, f"line 6 of the journal is '2 0 tick {ONE}', and replica 0 doesn't run")


class Journals(unittest.TestCase):
    def test_other_ends_are_refused(self):
        run = run_of(3, "campaign 0", ROUND, "break 0 2 1", ROUND)
        lines = lines_of(played(run))
        place = lines.index(f"8 0 stop kept tick {ONE}")
        for other in (f"8 0 stop lost tick {ONE}", f"8 0 tick {ONE}", "8 0 stop", "8 0 stop kept campaign"):
            why = f"line 14 of the journal is {other!r}, and worked out here it is '8 0 stop kept tick {ONE}'"
            self.assertEqual(fault_of(run, [*lines[:place], other, *lines[place + 1 :]]), why)

    def test_those_who_show_a_run_follow_it(self):
        for seed in SEEDS:
            run = RunFile(break_run(seed))
            world = Recorded(run, seed).play()
            for other in (Followed(run, lines_of(world)).play(), Replay(run).play_lines(lines_of(world))):
                self.assertEqual((other.roles, other.heard, report_of(other)), (world.roles, world.heard, report_of(world)))

    def test_a_stop_in_which_nothing_is_saved(self):
        run = run_of(3, "campaign 0", ROUND, "break 0 2 1", ROUND)
        lines = lines_of(played(run))
        changes = [("6 0 hear 2", "6 0 stop lost hear 2"), (f"1 0 tick {ONE}", f"1 0 stop kept tick {ONE}"), ("6 0 hear 2", "6 0 stop kept")]
        changes += [("8 0 stop kept", "8 0 stop held"), ("8 0 stop kept tick", "8 0 stop kept tock")]
        for line, other in changes:
            with self.assertRaises(BadJournal):
                Replay(run).play_lines([told.replace(line, other) for told in lines])

    def test_made_runs(self):
        chance = random.Random(0)
        for seed in SEEDS:
            run = RunFile(break_run(seed))
            lines = lines_of(played(run, seed))
            self.assertIsNone(fault_of(run, lines), seed)
            other = changed(chance, lines)
            self.assertTrue(other == lines or fault_of(run, other), (seed, other))


class Watchers(unittest.TestCase):
    """A disk that counts or decides otherwise is found."""

    def found(self, law, run, name, value):
        with mock.patch.object(Disk, name, value), self.assertRaisesRegex(Broken, law):
            played(run)

    def test_wrong_disks(self):
        stands, within = "where a disk stops, its files stand for what is kept", "a disk stops within the call that its arm says"
        table = ["campaign 0", f"round {LAST} 129", "break 0 8 2", f"round {LAST} 1"]
        second = run_of(1, *table, entry="* * * * *", hours=2, grace=120)
        first = run_of(3, "campaign 0", ROUND, "break 0 1 1", ROUND)
        self.found(stands, second, "is_after", lambda disk, change, byte: byte % 2 == 1)
        self.found(within, first, "save", lambda disk, change: None)
        self.found(stands, first, "save", lambda disk, change: KEPT if disk.arm else None)


if __name__ == "__main__":
    unittest.main()
