#!/usr/bin/env python3
"""Tests of tools/run_file: what tables that change at a time change. The small world stands in for the program.

Usage: tools/test_run_file_changes.py [NAME..]
"""
import random
import re
import unittest
from collections import Counter
from datetime import datetime, timedelta
from unittest import mock

from run_file_lib.changes import LESS, MOVED, differences
from run_file_lib.due_list import ANACRON_JOB, INSTANT, LAUNCH, DueList
from run_file_lib.origins import jobs_of, of_sections
from run_file_lib.stamps import stamp_of
from run_file_lib.versions import changed_parts
from small_world.instants import minute_of
from small_world.run_file import RunFile
from small_world.texts import report_of
from small_world.world import World
from test_run_file_versions import DAYS, Versions

# Of what entries are made from a seed.
SEEDS = range(12)
MINUTES, HOURS, COMMANDS = ["0", "30", "*/20", "5,59"], ["*", "2", "1-3", "*/6"], ["backup", "fetch", "look", "%"]


def answer_of(_program, _word, made, _first):
    """What the program answers to `--list`, by the small world."""
    return [line for job in RunFile(made.data.decode()).jobs for line in job.listed()]


class Lists(Versions):
    """What changes."""

    def due(self, made):
        """The due list of a run file that was made last."""
        return DueList(None, made, "Europe/Paris", self.gatherer.zones.local_times)

    def told(self, *words):
        """The lines that tell the changes: of each its sign and its times, where it is from, and its command."""
        with mock.patch("run_file_lib.windows.answer_of", answer_of):
            status, lines, notes = self.answered("--list", *DAYS, *words)
        self.assertEqual((status, notes), (0, []))
        return [re.sub(f"{self.root}/(?:var/spool/cron/)?", "", re.sub(" +", " ", line)) for line in lines]

    def test_from_the_minute_behind_on(self):
        """What is due at the instant of a change is of the table before."""
        told = self.told(*self.changed((self.eve, ["5,6 8,9 * * * watch"], "2024-03-31 08:05")))
        sunday = [line.split(" ")[:4:3] for line in told if " Sun " in line]
        self.assertEqual(sunday[:4], [["+", "08:06"], ["-", "09:05"], ["+", "09:05"], ["+", "09:06"]])
        self.assertEqual(told[-1], "7 launches more, 39 less, 0 at another time")

    def test_several_changes(self):
        """Each is in force up to the next one; a table that is back is as it was."""
        none = self.write("none", "")
        change = ["--change", f"{self.eve}={none}", "--at", "2024-03-31 11:30", "--change", f"{self.eve}={self.eve}", "--at"]
        change.append("2024-03-31 13:04")
        rows = ["- Sun 2024-03-31 12:05 2024-03-31T10:05Z eve:1 eve look"]
        self.assertEqual(self.told(*change), [*rows, "0 launches more, 1 less, 0 at another time"])
        change[-1] = "2024-03-31 13:05"
        rows.append("- Sun 2024-03-31 13:05 2024-03-31T11:05Z eve:1 eve look")
        self.assertEqual(self.told(*change), [*rows, "0 launches more, 2 less, 0 at another time"])

    def test_changes_of_one_instant(self):
        """A job may go from one table to another."""
        changes = self.changed((self.eve, [], "2024-03-31 12:00"), (self.eve, ["5 * * * * look"], "2024-03-31 12:00"))
        self.assertEqual(self.told(*changes), ["0 launches more, 0 less, 0 at another time"])
        system = ["0 8 * * * root x", "5 * * * * eve look"]
        changes = self.changed((self.eve, [], "2024-03-31 12:00"), (self.system, system, "2024-03-31 12:00"))
        self.assertEqual(self.told(*changes), ["0 launches more, 0 less, 0 at another time"])

    def test_at_a_change_of_the_clock(self):
        """A time that is skipped is launched as the clock goes on, by the table that is in force up to that minute."""
        moved = "2024-03-31 03:00 2024-03-31T01:00Z"
        for stamp, rows in (
            (
                "2024-03-31T00:59Z",
                [f"- Sun {moved} bob:1 bob [moved from 02:30] backup", f"+ Sun {moved} new/0:1 bob [moved from 02:40] other"],
            ),
            ("2024-03-31 02:30", []),
        ):
            changes = self.changed((self.bob, ["40 2 * * * other", "*/30 2 * * * fetch"], stamp), (self.bob, [], "2024-03-31 20:00"))
            told = self.told(*changes)
            self.assertEqual(told[: len(rows)], rows)
            self.assertEqual(told[len(rows)][:16], "- Mon 2024-04-01")

    def test_rows_without_a_time(self):
        """Those of the machine as it is stand against those behind the last change, even if no minute is left."""
        slow = self.write("etc/anacrontab", "1 5 daily x\n")
        changes = ((slow, ["7 5 weekly x"], "2024-04-01 23:58"), (self.eve, ["5 * * * * look", "@reboot y"], "2024-04-01 23:59"))
        told = self.told(*self.changed(*changes))
        self.assertEqual([line.split(":")[0] for line in told[:2]], ["~ anacron - - - new/0", "+ @reboot - - - new/1"])
        self.assertIn("[instead of once a day, from 00", told[0])
        self.assertEqual((len(told), told[-1]), (3, "1 launch more, 0 less, 1 at another time"))

    def test_long_windows(self):
        """A list may be longer than a run file."""
        with mock.patch("run_file_lib.windows.answer_of", answer_of):
            words = ["--list", "--from", "2024-03-31", "--days", "1000", *self.changed((self.system, [], "2026-12-20"))]
            status, lines, _ = self.answered(*words)
        told = (0, "- Sun 2026-12-20 08:00", "0 launches more, 6 less, 0 at another time")
        self.assertEqual((status, lines[0][:22], lines[-1]), told)

    def test_lists_of_several_versions(self):
        """The answer to a run file with versions is read as one of a single version."""
        slow = self.write("etc/anacrontab", "1 5 daily x\n")
        made = self.run_of(*DAYS, *self.changed((self.bob, ["0 1 * * * backup"], "2024-04-01"), (slow, ["7 5 daily x"], "2024-04-01")))
        answer = ["job spool-bob:1 version 0 count 1", "due spool-bob:1@20240331T0100Z 2024-03-31T03:00"]
        answer += ["job spool-bob:2 version 0 count 0", "anacron etc-anacrontab/daily version 0"]
        answer += ["job spool-bob:1 version 1 count 1", "due spool-bob:1@20240331T2300Z 2024-04-01T01:00"]
        answer += ["job spool-bob:2 version 1 count 0", "anacron etc-anacrontab/daily version 1"]
        with mock.patch("run_file_lib.windows.answer_of", return_value=answer):
            rows = [row for part in self.due(made).rows() for row in part]
        self.assertEqual([row.instant for row in rows if row.kind == LAUNCH], ["20240331T0100", "20240331T2300"])
        self.assertEqual([row.kind for row in rows].count(ANACRON_JOB), 1)

    def test_against_runs(self):
        """The launches of the machine as it is, but for what is told of the changes, are those of a run that adopts each at once."""
        for seed in SEEDS:
            chance = random.Random(seed)
            made = self.run_of(*DAYS, *self.changed(*sorted(self.changes(chance), key=lambda change: change[2])))
            with mock.patch("run_file_lib.windows.answer_of", answer_of):
                before = Counter(key for key in self.launches(self.due(of_sections(made, made.versions[0].sections, made.window))))
                old, *new = map(self.due, changed_parts(made))
                for sign, told, other in differences([old], new):
                    before[key_of(told.row)] += -1 if sign == LESS else 1
                    if sign == MOVED:
                        before[key_of(other.row)] -= 1
            self.assertEqual(+before, Counter(self.launched(made)), seed)
            self.assertGreaterEqual(min(before.values()), 0)

    def changes(self, chance):
        """Some changes, each with its table, its lines, and a stamp of UTC near the change of the clock or elsewhere."""
        for _ in range(chance.randint(1, 7)):
            hours = chance.choice([chance.randint(0, 2), chance.randint(0, 44)])
            instant = datetime(2024, 3, 30, 23) + timedelta(hours=hours, minutes=chance.choice([0, 30, 59, chance.randint(0, 59)]))
            words = [[chance.choice(these) for these in (MINUTES, HOURS, COMMANDS)] for _ in range(chance.randint(0, 3))]
            entries = [f"{minute} {hour} * * * {command}" for minute, hour, command in words]
            yield chance.choice([self.bob, self.eve, self.file("var/spool/cron/new")]), entries, stamp_of(instant)

    def launches(self, due):
        """By what each launch of a due list is known."""
        return [key_of(row) for part in due.rows() for row in part if row.kind == LAUNCH]

    def launched(self, made):
        """By what each launch of a run is known that the small world plays, version by version."""
        runs = [RunFile(of_sections(made, version.sections, made.window).data.decode()) for version in made.versions]
        firsts = [runs[0].first, *(minute_of(stamp_of(version.first)) for version in made.versions[1:])]
        run = runs[0]
        run.take_versions([(first, other.jobs) for first, other in zip(firsts, runs)])
        named = [jobs_of(version.sections) for version in made.versions]
        for line in report_of(World(run).play()).split("\n"):
            if line.startswith(("launch ", "void ")):
                kind, name, instant = re.split("[ @]", line)
                at = datetime.strptime(instant, f"{INSTANT}Z")
                version = sum(version.first < at for version in made.versions[1:])
                _, job = named[version][name]
                yield kind, job.user, job.command, instant[:-1]


def key_of(row):
    """By what the launch of a row is known."""
    return "launch", row.origin.job.user, row.origin.job.command, row.instant


if __name__ == "__main__":
    unittest.main()
