#!/usr/bin/env python3
"""Tests of tables of several versions in the small world: when a version is adopted, which launches are due by it, and how that is drawn.
What has to come was worked out by hand.

Usage: tools/test_versions.py [NAME..]
"""
import re
import unittest
from unittest import mock

from small_world import launches
from small_world.instants import minute_of, stamp_of
from small_world.jobs import versions_of
from small_world.launches import LAUNCH, VOID, Call, End, Row, Start, Table, apply, choose, first_start, fresh_rows, rows_stand, takes_effect
from small_world.laws import Broken, WatchedWorld
from small_world.made import break_run, free_run, script_run
from small_world.replay import Recorded
from small_world.run_file import RunFile
from small_world.texts import journal_of, report_of
from small_world.verdict import fault_of
from small_world.versions_made import sort_of, version_run
from timeline_lib.launches import Launches
from timeline_lib.picture import Picture

SEEDS = range(15)
HOUR = "window 2024-03-31T00:00Z 2024-03-31T01:00Z"
DAY = "window 2024-03-31T00:00Z 2024-04-02T00:00Z"
TWENTIES = ["crontab alice UTC 1", "0,20,40 * * * * x"]
TENS = ["crontab alice UTC 1", "10,50 * * * * x"]
MINUTES = ["crontab bob UTC 1", "* * * * * x"]


def at(minutes, hours=0):
    """An instant by its time of that day."""
    return minute_of(f"2024-03-31T{hours:02}:{minutes:02}Z")


def read(lines, script=(), members=1, window=HOUR, grace=5):
    """The run whose tables, zones and versions these lines are."""
    head = ["cronrun 1", f"replicas {members}", window, f"grace {grace}"]
    return RunFile("\n".join([*head, *lines, "script", *script, "end", ""]))


def run_of(first, *later, **told):
    """A run of several versions: the tables of the first one, and of each later one the instant from which on it may be adopted too."""
    numbered = enumerate(later, 1)
    lines = [line for number, (instant, tables) in numbered for line in [f"version {number} {stamp_of(instant)}", *tables]]
    return read([*first, *lines], **told)


def played(*versions, **told):
    """The watched world of such a run."""
    return WatchedWorld(run_of(*versions, **told)).play()


# A version of another job from half past on.
HALF = at(30), MINUTES


def held(world, kind=LAUNCH):
    """The launches of a kind that are held, by the number of the job and the minute of the hour."""
    return [(call.job, call.at - at(0)) for call in sorted(world.ledger.held.values()) if call.kind == kind]


class RunFiles(unittest.TestCase):
    def test_versions_are_whole(self):
        """Each has the tables below its line alone, and zones hold for all; jobs are numbered by the first place of their names."""
        zoned = ["crontab carol Here 1", "0 1 * * * x", "zone Here fixed +01:00"]
        run = read([*MINUTES, "version 1 2024-03-31T00:00Z", "version 2 2024-03-31T00:30Z", *zoned, *TENS, *MINUTES])
        self.assertEqual([version.first for version in run.versions], [at(0), at(0), at(30)])
        self.assertEqual([job.name for job in run.jobs], ["bob:1", "carol:1", "alice:1"])
        counts = [[len(job.dues) for job in version.jobs] for version in run.versions]
        self.assertEqual(counts, [[60, 0, 0], [0, 0, 0], [60, 1, 2]])

    def test_no_version_before_the_first_table(self):
        run = read(["version 1 2024-03-31T00:59Z"], script=["heal"])
        self.assertEqual(([version.first for version in run.versions], run.jobs, run.script), ([at(0), at(59)], [], [["heal"]]))

    def test_lines_of_tables(self):
        """A line of a table is no version, no zone and no script, whatever it says."""
        lines = ["version = 2", "zone = x", "script =", "end ="]
        anacrontab = ["1 5 daily x \\", "script"]
        run = read(["crontab alice UTC 5", *lines, *TENS[1:], "anacrontab etc UTC 2", *anacrontab], script=["heal", "heal"])
        self.assertEqual(([job.name for job in run.jobs], len(run.versions)), (["alice:1", "etc/daily"], 1))
        self.assertEqual(run.script, [["heal"], ["heal"]])

    def test_versions_out_of_order(self):
        for number in (0, 2, 7):
            with self.assertRaisesRegex(ValueError, "line 7 of the run file should begin version 1"):
                read([*TWENTIES, f"version {number} 2024-03-31T00:30Z", *TENS])
        with self.assertRaisesRegex(ValueError, "line 7 of the run file is neither a zone nor a table nor a version"):
            read([*TWENTIES, "Version 1 2024-03-31T00:30Z", *TENS])

    def test_due_list(self):
        run = read([*TWENTIES, "anacrontab etc UTC 1", "1 5 daily x", "version 1 2024-03-31T00:30Z", *TENS])
        twenties, tens = (
            [f"due alice:1@20240331T00{minute}Z 2024-03-31T00:{minute}" for minute in minutes]
            for minutes in (("00", "20", "40"), ("10", "50"))
        )
        first = ["job alice:1 version 0 count 3", *twenties, "anacron etc/daily version 0"]
        self.assertEqual(run.listed(), [*first, "job alice:1 version 1 count 2", *tens, "job etc/daily version 1 count 0"])


class Adoptions(unittest.TestCase):
    def test_two_versions(self):
        world = played(TWENTIES, (at(30), TENS))
        self.assertEqual((held(world), held(world, VOID)), ([(0, 0), (0, 20), (0, 50)], []))
        self.assertEqual(world.adopted, [at(30)])
        self.assertEqual(world.replicas[0].launches[-1], Row(at(30), launched=1))

    def test_nobody_leads_for_a_while(self):
        """What is due by the first version is given up, and then the next one is adopted. A launch is just in time behind a grace of
        five minutes."""
        late = ["round 2024-03-31T00:45Z 1"]
        world = played(TWENTIES, (at(30), TENS), script=late, grace=4)
        self.assertEqual((held(world), held(world, VOID)), ([(0, 50)], [(0, 0), (0, 20), (0, 40)]))
        self.assertEqual(world.adopted, [at(45)])
        world = played(TWENTIES, (at(30), TENS), script=late, grace=5)
        self.assertEqual((held(world), held(world, VOID)), ([(0, 40), (0, 50)], [(0, 0), (0, 20)]))

    def test_a_job_that_a_version_lacks(self):
        """What is due as a version is adopted is started before; the new version counts from the minute after it on."""
        world = played(TWENTIES, (at(20), MINUTES))
        self.assertEqual(held(world), [(0, 0), (0, 20), *((1, minute) for minute in range(21, 60))])
        lines = report_of(world).split("\n")
        self.assertEqual(lines[4:6], ["job alice:1 launched 2 void 0", "job bob:1 launched 39 void 0"])
        self.assertIn("launch bob:1@20240331T0021Z", lines)

    def test_versions_of_one_instant(self):
        """They are adopted one after another, and by those between nothing is due."""
        world = played(TWENTIES, (at(30), MINUTES), (at(30), TENS))
        self.assertEqual(world.adopted, [at(30), at(30)])
        self.assertEqual(held(world), [(0, 0), (0, 20), (0, 50)])

    def test_dates(self):
        """The date on which a job was opened last, and that of its last launch, stay over an adoption."""
        anacrontab = ["anacrontab etc UTC 1", "{} 0 daily x"]
        daily, every_other = ([line.format(days) for line in anacrontab] for days in (1, 2))
        for later, days in ((daily, [0, 1]), (every_other, [0])):
            world = played(daily, (at(0, 12), TWENTIES), (at(0, 13), later), window=DAY)
            self.assertEqual(world.adopted, [at(0, 12), at(0, 13)])
            self.assertEqual([day - at(0) // 1440 for job, day in world.ended if job == 0], days)
            self.assertIn("launch etc/daily@2024-03-31", report_of(world))

    def test_three_replicas(self):
        """A leader that stops has proposed nothing yet, or has a vote of its own, or a majority, or has learned it, and told it: what is
        adopted is the same. Who was away learns it."""
        for rounds in range(5, 10):
            script = ["campaign 0", "round 2024-03-31T00:00Z 8", "stop 2", f"round 2024-03-31T00:35Z {rounds}", "stop 0", "restart 2", "campaign 1"]
            world = played(TWENTIES, (at(30), MINUTES), script=script, members=3, grace=60)
            self.assertEqual(world.adopted, [at(35)], rounds)
            self.assertEqual(held(world), [(0, 0), (0, 20), *((1, minute) for minute in range(36, 60))], rounds)
            self.assertEqual({replica.launches[-1] for replica in world.replicas}, {Row(at(35), launched=1)}, rounds)


class Tables(unittest.TestCase):
    """What is read off a launch table of three versions: two from the hour's first minute on, and one from 00:30 on."""

    def setUp(self):
        self.run = run_of(TWENTIES, (at(0), TWENTIES), (at(30), MINUTES))
        self.versions = self.run.versions
        self.rows = fresh_rows(self.versions)

    def take(self, *entries):
        """Applies entries that all take effect."""
        for entry in entries:
            self.assertTrue(takes_effect(self.versions, self.rows, entry), entry)
            apply(self.versions, self.rows, entry)

    def refuse(self, *entries):
        """Applies entries none of which takes effect."""
        before = list(self.rows)
        for entry in entries:
            apply(self.versions, self.rows, entry)
            self.assertEqual(self.rows, before, entry)

    def launch(self, minute, job=0):
        self.take(Start(job, at(minute), at(minute)), End(job, at(minute), LAUNCH))

    def test_not_while_a_launch_is_open(self):
        self.take(Start(0, at(0), at(0)))
        self.refuse(Table(1, at(0)), Table(1, at(5)))
        self.take(End(0, at(0), VOID), Table(1, at(5)))

    def test_not_while_a_launch_may_start(self):
        self.refuse(Table(1, at(0)))
        self.launch(0)
        self.refuse(Table(1, at(20)))
        self.take(Table(1, at(19)))

    def test_once_and_in_turn(self):
        self.launch(0)
        self.refuse(Table(0, at(5)), Table(2, at(5)), Table(3, at(5)))
        self.take(Table(1, at(5)))
        self.refuse(Table(1, at(5)), Table(1, at(6)), Table(0, at(6)))
        self.launch(20)
        self.refuse(Table(2, at(29)))
        self.take(Table(2, at(30)))
        self.refuse(Table(2, at(31)), Table(3, at(31)))

    def test_no_clock_is_put_back(self):
        self.launch(0)
        self.take(Start(0, at(20), at(45)), End(0, at(20), LAUNCH))
        self.refuse(Table(1, at(19)))
        self.take(Table(1, at(39)))
        self.launch(40)
        self.refuse(Table(2, at(38)), Table(2, at(39)))
        self.take(Table(2, at(40)))

    def test_not_before_the_version_in_force(self):
        self.run.take_versions([(at(0), read(MINUTES).jobs), (at(0), []), (at(0), [])])
        self.versions, self.rows = self.run.versions, fresh_rows(self.run.versions)
        self.launch(0)
        for minute in range(1, 6):
            self.launch(minute)
        self.take(Table(1, at(5)))
        self.rows[0] = self.rows[0]._replace(cursor=at(0))
        self.refuse(Table(2, at(4)))
        self.take(Table(2, at(5)))

    def test_what_an_adoption_changes(self):
        """The rows of jobs stay, and so a cursor carries over; what is due is later than it, and than the adoption."""
        self.launch(0)
        rows = list(self.rows)
        self.take(Table(1, at(15)))
        self.assertEqual(self.rows[:-1], rows[:-1])
        self.assertTrue(rows_stand(self.rows, self.versions))
        self.assertFalse(rows_stand(self.rows, self.versions[:1]))
        self.refuse(Start(0, at(0), at(15)), Start(0, at(40), at(40)))
        self.launch(20)
        self.take(Table(2, at(35)))
        self.refuse(Start(0, at(40), at(40)), Start(1, at(35), at(40)), Start(1, at(21), at(40)), Start(1, at(37), at(40)))
        self.launch(36, job=1)

    def test_what_a_leader_chooses(self):
        """Calls come first, then starts, and then the next version."""
        chosen = []
        while (wanted := choose(self.run, self.rows, at(31), 0)) is not None:
            chosen.append(wanted)
            self.take(End(wanted.job, wanted.at, wanted.kind) if isinstance(wanted, Call) else wanted)
        named = [(type(wanted).__name__, *wanted[:2]) for wanted in chosen]
        started = [(name, 0, at(minute)) for minute in (0, 20) for name in ("Start", "Call")]
        self.assertEqual(named, [*started, ("Table", 1, at(31)), ("Table", 2, at(31))])

    def test_jobs_keep_their_places(self):
        versions = versions_of([(0, read([*TWENTIES, *MINUTES]).jobs), (5, read(MINUTES).jobs), (9, read(TENS).jobs)])
        self.assertEqual([version.first for version in versions], [0, 5, 9])
        self.assertEqual([[job.name for job in version.jobs] for version in versions], [["alice:1", "bob:1"]] * 3)
        self.assertEqual([type(job).__name__ for version in versions for job in version.jobs], ["Entry", "Entry", "Never", "Entry", "Entry", "Never"])


def changes_of(run):
    """What changes from each version of a run to the next."""
    for before, after in zip(run.versions, run.versions[1:]):
        yield "two at once" if before.first == after.first else "one alone"
        for old, new in zip(before.jobs, after.jobs):
            kinds = type(old).__name__, type(new).__name__
            yield kinds if kinds[0] != kinds[1] else f"{kinds[0]} with another zone" if zone_of(old) is not zone_of(new) else kinds
    yield "at the first minute" if run.versions[1].first == run.first else "later"


def zone_of(job):
    return getattr(job, "zone", None)


class Made(unittest.TestCase):
    def test_made_runs(self):
        """The laws hold, in rounds, with free turns, and where disks stop; and a journal is judged as one of its run, of these versions."""
        for seed in SEEDS:
            run = RunFile(version_run(seed))
            world = WatchedWorld(run, seed).play()
            lines = journal_of(world).split("\n")[1:-2]
            self.assertIsNone(fault_of(run, lines), seed)

    def test_what_is_made(self):
        runs = [RunFile(version_run(seed)) for seed in range(120)]
        self.assertEqual({len(run.versions) for run in runs}, {2, 3, 4, 5, 8})
        found = {change for run in runs for change in changes_of(run)}
        wanted = {"two at once", "at the first minute", "Entry with another zone", "Periodic with another zone"}
        wanted |= {(one, other) for job in ("Entry", "Periodic") for one, other in (("Never", job), (job, "Never"))}
        self.assertEqual(wanted - found, set())
        for seed, sort in enumerate((script_run, free_run, break_run)):
            words = {command[0] for run in runs[seed::3] for command in run.script}
            self.assertEqual((sort_of(seed), "free" in words, "break" in words), (sort, sort is not script_run, sort is break_run))

    def test_the_same_run_each_time(self):
        """The run of a seed has the script of its sort, behind more commands or with some between."""
        for seed in SEEDS:
            text, other = version_run(seed), sort_of(seed)(seed)
            self.assertEqual(text, version_run(seed))
            self.assertEqual(text.split("\n")[:4], other.split("\n")[:4])
            commands = iter(RunFile(text).script)
            self.assertTrue(all(command in commands for command in RunFile(other).script), seed)

    def seen(self, *versions, **told):
        """What comes about with versions, of all that is counted."""
        counted = "adoption", "adoption by a later leader", "adoption that waits", "adoption in a snapshot", "job comes back"
        found = played(*versions, **told).seen
        return [found[what] for what in counted]

    def test_an_adoption_that_waits(self):
        """It is due while calls are lost, one before each of three calls that isn't answered or is the last."""
        self.assertEqual(self.seen(TWENTIES, HALF), [1, 0, 0, 0, 0])
        late = ["campaign 0", "fate 0 lost-before", "round 2024-03-31T00:30Z 4"]
        self.assertEqual(self.seen(TWENTIES, HALF, script=late), [1, 0, 3, 0, 0])

    def test_an_adoption_by_a_later_leader(self):
        """The leader stops behind its proposal, or once others have voted; or all know of it already."""
        for rounds, count in ((1, 1), (2, 1), (3, 0)):
            script = ["campaign 0", "round 2024-03-31T00:29Z 40", f"round 2024-03-31T00:30Z {rounds}", "stop 0", "campaign 1"]
            found = self.seen(TWENTIES, HALF, script=[*script, "round 2024-03-31T00:30Z 8"], members=3)
            self.assertEqual(found, [1, count, 0, 0, 0], rounds)

    def test_an_adoption_in_a_snapshot(self):
        """A replica that was away for an hour is sent a launch table."""
        missed = ["round 2024-03-31T00:30Z 250", "round 2024-03-31T00:59Z 200"]
        away = ["campaign 0", "stop 2", *missed, "restart 2", "round 2024-03-31T00:59Z 5"]
        self.assertEqual(self.seen(MINUTES, (at(30), MINUTES), members=3, grace=60, script=away)[3], 1)

    def test_a_job_that_comes_back(self):
        """The second adoption waits for what is due at that minute."""
        self.assertEqual(self.seen(TWENTIES, (at(15), MINUTES), (at(25), TWENTIES)), [2, 0, 1, 0, 1])

    def test_a_journal_of_other_versions(self):
        lines = journal_of(played(TWENTIES, (at(30), TENS))).split("\n")[1:-2]
        self.assertIsNone(fault_of(run_of(TWENTIES, (at(30), TENS)), lines))
        others = (
            (run_of(TWENTIES), "9 0 tick 2024-03-31T00:40Z"),
            (run_of(TWENTIES, (at(31), TENS)), "9 0 tick 2024-03-31T00:31Z"),
            (run_of(TWENTIES, (at(30), MINUTES)), "10 0 tick 2024-03-31T00:31Z"),
        )
        for other, line in others:
            self.assertIn(f"worked out here it is '{line}'", fault_of(other, lines))

    def broken(self, law, *versions, **wrong):
        """A law is found not to hold of launch tables that go by wrong rules."""
        with mock.patch.multiple(launches, **wrong), self.assertRaisesRegex(Broken, law):
            played(*versions)

    def test_wrong_adoptions(self):
        may_adopt = launches.may_adopt

        def too_early(versions, rows, version, now):
            return may_adopt([early._replace(first=at(0)) for early in versions], rows, version, now)

        versions = TWENTIES, (at(20), MINUTES)
        self.broken("no version is adopted before its first minute", *versions, may_adopt=too_early)
        self.broken("each version is adopted", *versions, may_adopt=lambda *_: False)

    def test_adoptions_too_soon(self):
        """A version is adopted while a launch is open that no clock has reached, since the leader's clock was ahead; or behind it."""
        ahead = ["skew 0 10", "campaign 0", "round 2024-03-31T00:10Z {}", "skew 0 0", "round 2024-03-31T00:10Z 9"]
        for rounds, law in ((8, "no launch is open"), (10, "no version is adopted before an instant that was started")):
            script = [line.format(rounds) for line in ahead]
            with mock.patch.object(launches, "is_ended_by", lambda *_: True), self.assertRaisesRegex(Broken, law):
                played(TWENTIES, (at(10), MINUTES), script=script, members=3)

    def test_wrong_starts(self):
        """A version that is adopted before what may start, and one that counts from before its adoption on."""
        start_of, law = launches.start_of, "each due instant is started once, in order"

        def before_starts(versions, rows, now):
            is_next = rows[-1].launched + 1 < len(versions) and now >= versions[rows[-1].launched + 1].first
            return None if is_next else first_start(versions, rows, now)

        def from_first(versions, rows, number, now):
            return start_of(versions, [*rows[:-1], rows[-1]._replace(cursor=None)], number, now)

        self.broken(law, TWENTIES, (at(20), MINUTES), first_start=before_starts)
        self.broken(law, TWENTIES, (at(30), ["crontab alice UTC 1", "25,50 * * * * x"]), start_of=from_first)


class Drawn(unittest.TestCase):
    def test_a_version_that_is_learned(self):
        """It is drawn as any entry, whatever jobs are asked for; it is on the way of no launch."""
        world = Recorded(run_of(TWENTIES, (at(30), ["crontab bob UTC 1", "50 * * * * x"]), members=2)).play()
        picture = Picture(Launches(world), 0, len(world.turns), "two versions")
        said = "version 1 2024-03-31T00:30Z"
        for jobs in (None, {0}, {1}):
            titles = re.findall("<title>(.*?)</title>", picture.text(jobs))
            self.assertEqual(sum(title.endswith(f"learns 4 {said}") for title in titles), 2, jobs)
            self.assertEqual(sum(title.endswith(f"votes 1.0 at 4 {said}") for title in titles), 2, jobs)
            self.assertTrue(any(f": accept 1.0 at 4 {said};" in title for title in titles), jobs)
        titles = ["alice:1@20240331T0000Z", "alice:1@20240331T0020Z", "bob:1@20240331T0050Z"]
        self.assertEqual(picture.launches.titles(), titles)
        self.assertFalse(any("version" in text for events in picture.launches.events.values() for _, text in events))

    def test_a_version_that_is_adopted(self):
        """It is drawn once across all tracks, in the turn in which a majority has voted for it, though a later leader proposes it again;
        no replica, no job and no launch that is left out leaves it out."""
        half = "round 2024-03-31T00:30Z"
        script = ["campaign 0", "round 2024-03-31T00:20Z 20", f"{half} 1", "stop 0", "campaign 1", f"{half} 6"]
        world = Recorded(run_of(TWENTIES, HALF, members=3, script=script)).play()
        picture = Picture(Launches(world), 0, len(world.turns), "two leaders")
        form = r"<title>turn (\d+): replica (\d) votes (\d.\d) at 4 version 1 2024-03-31T00:30Z</title>"
        voted = re.findall(form, picture.text())
        self.assertEqual([vote[1:] for vote in voted], [("0", "1.0"), ("2", "1.0"), ("1", "2.1"), ("2", "2.1")])
        [mark] = [mark for mark in picture.marks if mark.kind == "version"]
        said = f"turn {voted[1][0]}: a majority has voted for version 1 2024-03-31T00:30Z: it is adopted"
        self.assertTrue(mark.text.startswith(f"<g><title>{said}</title>"))
        self.assertEqual((mark.who, mark.jobs, mark.launches, mark.target), ((), None, (), None))


if __name__ == "__main__":
    unittest.main()
