#!/usr/bin/env python3
"""Tests of tools/run_file: the run files whose tables change at a time. What that changes stands in test_run_file_changes.py.

Usage: tools/test_run_file_versions.py [NAME..]
"""
import os
import unittest

from run_file_lib.gather import Gatherer
from run_file_lib.options import options_of
from run_file_lib.origins import origin_of
from run_file_lib.program import refusal_text
from test_run_file import NOW, Memory
from test_run_file_list import ProgramTest

# Round the change of the clock in Paris on 31 March 2024, by which 02:00 to 03:00 is skipped.
DAYS = ["--from", "2024-03-31", "--days", "2"]


class Versions(ProgramTest):
    """A test of a machine in Paris, with crontabs of bob and eve, and of the system."""

    def setUp(self):
        super().setUp()
        self.link("etc/localtime", "../usr/share/zoneinfo/Europe/Paris")
        self.system = self.write("etc/crontab", "0 8 * * * root x\n")
        self.bob = self.write("var/spool/cron/bob", "30 2 * * * backup\n*/30 2 * * * fetch\n")
        self.eve = self.write("var/spool/cron/eve", "5 * * * * look\n")

    def changed(self, *changes):
        """The options for changes, each with its table, the lines that it gets, and when."""
        words = []
        for number, (file, lines, stamp) in enumerate(changes):
            new = self.write(f"new/{number}", "".join(f"{line}\n" for line in lines))
            words += ["--change", f"{file}={new}", "--at", stamp]
        return words

    def run_of(self, *words):
        """The run file of some words, with its origins."""
        options = options_of(["--root", self.root, "--cron", "hevtsora", *words])
        self.gatherer = Gatherer(options, {}, Memory())
        return self.gatherer.run_file(NOW)


class RunFiles(Versions):
    """The run file."""

    def test_each_version_is_whole(self):
        changes = ((self.eve, ["7 * * * * look"], "2024-03-31 12:00"), (self.bob, ["0 1 * * * backup"], "2024-04-01T00:00Z"))
        lines = self.lines(*DAYS, *self.changed(*changes))
        first = ["system etc-crontab Europe/Paris 1", "0 8 * * * root x"]
        bob = ["crontab spool-bob Europe/Paris 2", "30 2 * * * backup", "*/30 2 * * * fetch"]
        eve = ["crontab spool-eve Europe/Paris 1", "7 * * * * look"]
        expected = [*first, *bob, eve[0], "5 * * * * look"]
        expected += ["version 1 2024-03-31T10:00Z", *first, *bob, *eve]
        expected += ["version 2 2024-04-01T00:00Z", *first, "crontab spool-bob Europe/Paris 1", "0 1 * * * backup", *eve]
        self.assertEqual(lines[5:], [*expected, "script", "end"])

    def test_notes(self):
        notes = self.comments(*DAYS, *self.changed((self.bob, ["0 1 * * * backup"], "2024-03-31 02:30")))
        skipped = "--at: 2024-03-31 02:30 is skipped in Europe/Paris, whose clock goes from 02:00 to 03:00"
        begins = f"version 1 begins at 2024-03-31T01:00Z: {self.bob} has the lines of {self.file('new/0')}"
        self.assertEqual(notes[0], f"{skipped}; 03:00 is taken, at 2024-03-31T01:00Z")
        self.assertEqual(notes[-2:], [begins, f"{self.file('new/0')} is spool-bob, 1 job"])

    def test_a_new_table(self):
        """It stands where cron reads it."""
        for path, place in (("etc/cron.d/a", 1), ("var/spool/cron/crontabs/amy", 1), ("var/spool/cron/carl", 2), ("etc/anacrontab", 3)):
            text = "1 5 a x" if path.endswith("anacrontab") else "1 1 1 1 1 x x"
            made = self.run_of(*DAYS, *self.changed((self.file(path), [text], "2024-03-31")))
            sections = made.versions[1].sections
            self.assertEqual((len(sections), sections[place].file), (4, self.file("new/0")), path)
            self.assertEqual([section.label for section in made.versions[0].sections], ["etc-crontab", "spool-bob", "spool-eve"])

    def test_a_table_that_is_named(self):
        """A table of an option is the one of its place."""
        mine = self.write("mine", "1 1 * * * x\n")
        made = self.run_of(*DAYS, "--user", f"bob={mine}", *self.changed((self.bob, ["? ? * * * x"], "2024-03-31")))
        found = [[(section.label, section.file) for section in version.sections] for version in made.versions]
        self.assertEqual(found, [[("spool-bob", mine)], [("spool-bob", self.file("new/0"))]])

    def test_tables_that_cron_ignores(self):
        """The label of a table's place stays, whatever stands there between."""
        self.write("etc/passwd", "root:x:0:0::/:/bin/sh\nbob:x:1:1::/:/bin/sh\n")
        self.bob = self.write("var/spool/cron/crontabs/bob", "30 2 * * * backup\n")
        good, bad = ["1 1 * * * x"], ["61 1 * * * x"]
        changes = [(self.bob, lines, "2024-03-31") for lines in (bad, good, bad)]
        changes += [(self.file(path), good, "2024-03-31") for path in ("etc/cron.d/a.b", "var/spool/cron/bob")]
        self.tells_cron = True
        words = [*DAYS, "--cron", "debian", *self.changed(*changes)]
        lines = [line for line in self.lines(*words) if line.startswith(("crontab", "version"))]
        section = "crontab crontabs-bob Europe/Paris 1"
        expected = [section, "version 1", "version 2", section, "version 3", "version 4", "version 5"]
        self.assertEqual([line.replace(" 2024-03-30T23:00Z", "") for line in lines], expected)
        notes = self.comments(*words)
        self.assertTrue(any(note.startswith(f"{self.file('new/0')}:1: Debian's cron ignores this file: bad minute") for note in notes))
        passed = [note.split(" is passed over")[0] for note in notes if "is passed over" in note]
        self.assertEqual(passed[-2:], [self.file("etc/cron.d/a.b"), self.file("var/spool/cron/bob")])

    def test_one_file_for_two_tables(self):
        """It is read once, since a pipe has its lines once."""
        reading, writing = os.pipe()
        self.addCleanup(os.close, reading)
        os.write(writing, b"1 1 * * * x\n")
        os.close(writing)
        words = [word for file in (self.bob, self.eve) for word in ("--change", f"{file}=/dev/fd/{reading}", "--at", "2024-03-31")]
        made = self.run_of(*DAYS, *words)
        self.assertEqual([section.lines for section in made.versions[2].sections[1:]], [["1 1 * * * x"]] * 2)

    def test_as_many_names_as_there_are(self):
        """A name that stands in several versions is one."""
        lines = [f"1 1 * * * {number}" for number in range(997)]
        changes = self.changed((self.eve, lines, "2024-03-31"), (self.eve, lines, "2024-04-01"))
        self.assertEqual(len(self.run_of(*DAYS, *changes).versions[2].sections[2].jobs), 997)
        notes = self.faults(*DAYS, *self.changed((self.eve, [*lines, "1 1 * * * x"], "2024-03-31")))
        self.assertIn("new/0:998: this job is one too many: a run has at most 1,000 (cause 23)", notes[0])

    def test_origins_of_lines(self):
        """A line of the run file, a version's own too, comes from where it says."""
        made = self.run_of(*DAYS, *self.changed((self.bob, ["0 1 * * * backup"], "2024-03-31")))
        lines = made.data.decode().split("\n")
        for number, line in enumerate(lines, 1):
            found = origin_of(made.sections, number)
            if found and found[1]:
                self.assertEqual(found[0].lines[found[1] - 1], line)
        number = lines.index("version 1 2024-03-30T23:00Z") + 1
        self.assertEqual(origin_of(made.sections, number), None)
        self.assertTrue(refusal_text(made, number, 36, 0).endswith(f"line {number} is `version 1 ..`"))
        self.assertEqual(sum(origin_of(made.sections, number) is None for number in range(1, len(lines) + 1)), 5 + 1 + 3)

    def test_words(self):
        change = ["--change", f"{self.bob}={self.eve}"]
        out = "isn't within the window, which is from 2024-03-30T23:00Z on and before 2024-04-01T22:00Z"
        many = [word for _ in range(8) for word in (*change, "--at", "2024-03-31")]
        for words, message in (
            (["--at", "2024-03-31"], "--at is a part of --change"),
            ([*change, *change, "--at", "2024-03-31"], "2 --change and 1 --at are given; each --change has its --at"),
            (many, "--at: 8 changes are more than a run file has, which are 7 at most"),
            ([*change, "--at", "2024-04-02"], f"--at: 2024-04-01T22:00Z {out}"),
            ([*change, "--at", "2024-03-30T22:59Z"], f"--at: 2024-03-30T22:59Z {out}"),
            (
                [*change, "--at", "2024-04-01", *change, "--at", "2024-03-31"],
                "--at: 2024-03-30T23:00Z stands behind 2024-03-31T22:00Z; give the changes in order of time",
            ),
            (["--change", "/etc/passwd=x", "--at", "2024-03-31"], "--change: `/etc/passwd` is no place of a table"),
            (["--change", f"{self.bob}=", "--at", "2024-03-31"], f"--change: `{self.bob}=` isn't FILE=NEWFILE"),
            (["--list", "--json", *change, "--at", "2024-03-31"], "--json and --csv are no forms of what changes"),
            (["--list", *change], "--list and --change are two answers; take one of them"),
            (["--next", "1", "a", *change, "--at", "2024-03-31"], "--next and --change are two answers; take one of them"),
            (["--list", "--check", *change, "--at", "2024-03-31"], "--list and --check are two answers; take one of them"),
        ):
            self.assertEqual(self.faults(*DAYS, *words), [f"run_file: {message}"])
        self.assertEqual(len(self.run_of(*DAYS, *many[4:]).versions), 8)
        self.assertEqual(self.faults("--days", "401", *many[4:]), ["run_file: --days: `401` is no number from 1 to 400"])

    def test_check(self):
        """A check judges the tables that are there and those that come, each line once."""
        words = [*DAYS, "--check", *self.changed((self.bob, ["61 1 * * * x"], "2024-03-31"), (self.eve, [], "2024-03-31"))]
        lines = self.run_of(*words).data.decode().split("\n")
        faults = [f"line {number} cause 3 at 0" for number, line in enumerate(lines, 1) if line.startswith("61 ")]
        self.program("\n".join(["cron check 1", *faults, f"faults {len(faults)}", "end", ""]))
        text = f"{self.file('new/0')}:1:1: the minute is 0 to 59, not 61 (cause 3)"
        self.assertEqual((len(faults), self.answered(*words)), (2, (1, [text, "1 fault"], [])))
        self.program("cron check 1\nfaults 0\nend\n")
        words = [*DAYS, "--check", "--hints", *self.changed((self.eve, ["0 0 31 2 * x"], "2024-03-31"))]
        hints = self.answered(*words)[1]
        self.assertEqual(hints[1:], [f"{self.file('new/0')}:1: hint: no month has such a day, so it is never due", "0 faults, 2 hints"])


if __name__ == "__main__":
    unittest.main()
