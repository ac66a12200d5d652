#!/usr/bin/env python3
"""Tests of tools/run_file: messages that are told once, quoted names, and where each job and each line comes from.

Usage: tools/test_run_file_notes.py [NAME..]
"""
import glob
import os
import re
import unittest
from pathlib import Path

from run_file_lib.gather import Gatherer
from run_file_lib.faults import lines_told
from run_file_lib.options import parser
from run_file_lib.origins import Job, jobs_of, origin_of
from test_run_file import DOCUMENTS, HERE, NOTHING, NOW, Memory, RunFileTest

MINUS = "the entry begins with a `-`, which asks cron for no line in its log; leave the `-` out (cause 1)"


class Messages(RunFileTest):
    """Messages that are equal."""

    def test_equal_messages(self):
        lines = ["-5 * * * * a", "0 8 * * * b", "-6 * * * * c", "-7 * * * * d", "0 8 * *", "-8 * * * * e"]
        file = self.write("var/spool/cron/bob", "\n".join(lines))
        more = "; the same in 3 more lines: 3 to 4, 6"
        fields = "there is no day of the week: an entry has five fields (cause 10)"
        expected = [f"{file}:1: {MINUS}{more}", f"{file}:5: {fields}", NOTHING.format("5 faults")]
        self.assertEqual(self.faults(), expected)
        notes = [note for note in self.ran("--skip")[2] if not note.startswith("#")]
        self.assertEqual(notes, [f"{file}:1: left out: {MINUS}{more}", f"{file}:5: left out: {fields}"])

    def test_one_more_line(self):
        file = self.write("var/spool/cron/bob", "-5 * * * * a\n-6 * * * * b\n")
        self.assertEqual(self.faults()[0], f"{file}:1: {MINUS}; the same in 1 more line: 2")

    def test_equal_messages_of_two_tables(self):
        files = [self.write(f"var/spool/cron/{name}", "-5 * * * * a\n") for name in ("al", "bob")]
        self.assertEqual(self.faults()[:2], [f"{file}:1: {MINUS}" for file in files])

    def test_lines_below_one_that_is_left_out(self):
        file = self.write("var/spool/cron/bob", "CRON_TZ=.\n@daily a\n\n@daily b\n@daily c\n")
        below = "left out: it stands below line 1, which can't be taken; the same in 2 more lines: 4 to 5"
        self.assertIn(f"{file}:2: {below}", self.ran("--skip")[2])

    def test_many_lines(self):
        self.assertEqual(lines_told([]), "")
        self.assertEqual(lines_told([7]), "7")
        self.assertEqual(lines_told([7, 8, 9, 11]), "7 to 9, 11")
        self.assertEqual(lines_told(list(range(1, 41, 2))), ", ".join(map(str, range(1, 41, 2))))
        self.assertEqual(lines_told(list(range(1, 51, 2))), ", ".join(map(str, range(1, 41, 2))) + ", ..")


class QuotedNames(RunFileTest):
    """Variables whose names stand in quotes."""

    def faults_of(self, path, line):
        """The message of a table of one line."""
        file = self.write(path, line)
        fault, end = self.faults()
        self.assertEqual(end, NOTHING.format("1 fault"))
        return fault[len(f"{file}:1: ") :]

    def test_crontabs(self):
        message = "the name MAILTO of the variable stands in quotes; write it without them (cause {})"
        for path in ("var/spool/cron/bob", "etc/crontab"):
            for line in ('"MAILTO"=x', "'MAILTO' = x y", '\t"MAILTO"\t=', '"MAILTO"=/bin/sh', '"MAILTO"=a,b-c'):
                self.assertEqual(self.faults_of(path, line), message.format(9))
            # The program takes the `~` of the first word for that of a field.
            self.assertEqual(self.faults_of(path, '"MAILTO"=~/x'), message.format(8))
            self.assertEqual(self.faults_of(path, '"MAILTO" = ~/x'), message.format(9))
            self.write(path, "")

    def test_anacrontabs(self):
        message = "the name RANDOM_DELAY of the variable stands in quotes; write it without them (cause 16)"
        self.assertEqual(self.faults_of("etc/anacrontab", '"RANDOM_DELAY"=5'), message)

    def test_other_quotes(self):
        for line in ('"MAILTO\'=x', '"MAIL TO"=x', '"MAILTO"', '""=x', '"5" * * * * x'):
            self.assertNotIn("stands in quotes", self.faults_of("var/spool/cron/bob", line))
        self.write("var/spool/cron/bob", 'MAILTO="x"\n')
        self.assertEqual(self.ran()[0], 0)


class Manual(unittest.TestCase):
    """The notes and messages of the manual."""

    # What stands for something in a message: a word of capitals, two dots, or a number.
    PLACE = re.compile(r"\b[A-Z]+\b(?<!TZ)|\.\.|\d[\d,]*")

    def setUp(self):
        manual = Path(DOCUMENTS, "MACHINE.md").read_text(encoding="utf-8")
        rows = [line.split(" | ")[0] for line in manual[manual.index("## Notes") :].split("\n") if line.startswith("| `")]
        self.told = [told for row in rows for told in re.findall(r"(`+) ?(.+?) ?\1(?:, (?=`)|$)", row[2:])]
        self.told = [re.sub(r" \(cause \w+\)$", "", text) for _, text in self.told]

    def test_messages_are_those_of_the_command(self):
        """Each piece of a message between such places, colons and semicolons stands in the source."""
        files = glob.glob(os.path.join(HERE, "run_file_lib", "*.py"))
        source = "".join(Path(file).read_text(encoding="utf-8") for file in files)
        parts = [part for text in self.told for part in re.split("[:;] ", text)]
        pieces = [piece.strip(" ,`") for part in parts for piece in self.PLACE.split(part)]
        self.assertEqual([piece for piece in pieces if len(piece) > 8 and piece not in source], [])
        self.assertGreater(len(self.told), 40)

    def test_notes_of_testdata_are_in_the_manual(self):
        forms = [".+".join(re.escape(piece) for piece in self.PLACE.split(text)) for text in self.told]
        forms = [re.compile(re.sub("(job|line)s", r"\1s?", form)) for form in forms]
        for file in glob.glob(os.path.join(HERE, "testdata", "*.notes")):
            for note in Path(file).read_text(encoding="utf-8").split("\n"):
                if note.startswith("# "):
                    self.assertTrue(any(form.fullmatch(note[2:]) for form in forms), note)


class Origins(RunFileTest):
    """Where jobs and lines come from."""

    def setUp(self):
        super().setUp()
        self.all = self.write("etc/crontab", "# a comment\nCRON_TZ=Europe/Paris\n-5 * * * * root a\n0 8 * * * root  echo b \n")
        self.mine = self.write("var/spool/cron/bob", "\n@daily   water the plants\n0 9 * * mon mail%Joe\n")
        self.slow = self.write("etc/anacrontab", "0 5 a x\n@daily 5 \\\n disks \\\n make a backup\n")

    def test_lines_of_jobs_with_skip(self):
        status, _, notes = self.ran("--skip")
        told = [note[2:] for note in notes if note.startswith("# ") and ("/bob:" in note or ":" in note.split(" is ")[0])]
        expected = [f"etc-crontab:1 is {self.all}:4", f"spool-bob:1 is {self.mine}:2", f"spool-bob:2 is {self.mine}:3"]
        self.assertEqual((status, told), (0, expected))
        self.assertIn(f"# etc-anacrontab/disks is {self.slow}:2", notes)

    def test_no_lines_of_jobs_without_skip(self):
        self.write("etc/crontab", "0 8 * * * root b\n")
        self.write("etc/anacrontab", "")
        self.assertEqual(len(self.comments()), 3)

    def run_file(self):
        """The run file of the root, with its origins."""
        return Gatherer(parser().parse_args(["--root", self.root, "--skip"]), {}, Memory()).run_file(NOW)

    def test_jobs(self):
        when, text = "once a day, from 00:05 on and before 24:00", "@daily 5    disks    make a backup"
        expected = {
            "etc-crontab:1": (self.all, Job(":1", 4, "echo b ", "", "root", "Europe/Paris", "0 8 * * * root  echo b ")),
            "spool-bob:1": (self.mine, Job(":1", 2, "water the plants", "", "bob", None, "@daily   water the plants")),
            "spool-bob:2": (self.mine, Job(":2", 3, "mail%Joe", "", "bob", None, "0 9 * * mon mail%Joe")),
            "etc-anacrontab/disks": (self.slow, Job("/disks", 2, "make a backup", when, "root", None, text)),
        }
        found = {name: (section.file, job) for name, (section, job) in jobs_of(self.run_file().sections).items()}
        self.assertEqual(found, expected)

    def test_lines(self):
        made = self.run_file()
        lines = made.data.decode().split("\n")
        found = [origin_of(made.sections, number) for number in range(1, len(lines) + 1)]
        found = [origin and (origin[0].file, origin[1]) for origin in found]
        # Four lines of the head, one of a zone, and three sections.
        expected = [None] * 5 + [(self.all, number) for number in range(5)] + [(self.mine, number) for number in range(4)]
        expected += [(self.slow, number) for number in range(5)] + [None] * 3
        self.assertEqual(found, expected)
        for number, place in enumerate(found, 1):
            if place and place[1]:
                with open(place[0], encoding="utf-8") as file:
                    self.assertIn(lines[number - 1], [file.read().split("\n")[place[1] - 1], "# left out by run_file"])


if __name__ == "__main__":
    unittest.main()
