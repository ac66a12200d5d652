#!/usr/bin/env python3
"""Tests of tools/explain: what it tells of each usual mistake in a script, and that it judges the examples of docs/RUN_FILE.md,
those of docs/SCRIPTS.md, and made scripts as the program does.

Usage: tools/test_explain.py [NAME..]
"""
import os
import re
import subprocess
import tempfile
import unittest

from script_lib.command import explained, is_run_file, plain_text, run_faults
from script_lib.run_lines import lines_of
from small_world.made import break_run, script_run
from small_world.manual import examples
from small_world.versions_made import version_run

ROOT = os.path.dirname(os.path.dirname(os.path.abspath(__file__)))
TOOL = os.path.join(ROOT, "tools", "explain")
HEAD = """\
cronrun 1
replicas 3
window 2024-03-31T00:00Z 2024-03-31T04:00Z
grace 5
crontab alice UTC 2
# script
0 1 * * * make a backup
script
"""
FIRST = HEAD.count("\n") + 1
LEFT_OUT = "the program takes none in a script; `tools/timeline` leaves it out, and so does `tools/explain --plain`"
AS = "write it as 2024-03-31T01:00Z"
# A mistake, the column, and what is told of it.
MISTAKES = [
    ("# a comment", 0, f"a comment: {LEFT_OUT}"),
    ("", 0, f"an empty line: {LEFT_OUT}"),
    ("Campaign 0", 1, "a command has small letters: write `campaign`"),
    ("campain 0", 1, "there is no command `campain`; `campaign R` has R stand for leader"),
    ("partition 0 1", 1, "there is no command `partition`; `cut A B` loses letters from A to B from now on"),
    ("crash 0", 1, "there is no command `crash`; `stop R` stops R"),
    ("campaign", 9, "R is missing in `campaign R`: the number of a replica"),
    ("campaign 3", 10, "replicas are numbered from 0 on, and R is 0 to 2"),
    ("campaign one", 10, "`one` is no number; replicas are numbered from 0 on, and R is 0 to 2"),
    ("campaign 00", 10, "a number has no leading zeros: write 0"),
    ("campaign 0 # it leads", 12, "nothing stands behind `campaign R`, and no comment either"),
    ("campaign  0", 9, "words stand one space apart"),
    ("cut\t0 1", 4, "words stand one space apart"),
    ("  campaign 0", 1, "nothing stands before a command, no blank either"),
    ("campaign 0 ", 11, "nothing stands behind the last word, no blank either"),
    ("campaign 0\r", 11, "the line ends with a carriage return: write the file with plain line ends"),
    ("cut 0", 6, "B is missing in `cut A B`: the number of a replica"),
    ("heal 0", 6, "nothing stands behind `heal`"),
    ("round 2024-03-31T01:00Z", 24, "K is missing in `round STAMP K`: a number of rounds, 1 to 10,000"),
    ("round 2024-03-31T01:00Z 0", 25, "K is 1 to 10,000"),
    ("round 2024-03-31T01:00Z 10001", 25, "K is 1 to 10,000"),
    ("round 2024-03-31T04:00Z 1", 7, "the stamp isn't in the window, whose minutes are 2024-03-31T00:00Z to 2024-03-31T03:59Z"),
    ("round 01:00 1", 7, f"`01:00` is no stamp; {AS}"),
    ("walk 2024-03-31T01:00", 6, f"`2024-03-31T01:00` is no stamp; {AS}, with a `Z` at its end, since it is in UTC"),
    ("settle 2024-03-32T01:00Z", 8, "there is no minute 2024-03-32T01:00Z"),
    ("fate 0 lost", 8, "`lost` is no fate; write `done`, `lost-before`, `lost-after` or `late`"),
    ("skew 0 -0", 8, "0 has no sign: write 0"),
    ("skew 0 +5", 8, "a number has no `+`: write 5"),
    ("skew 0 -05", 8, "a number has no leading zeros: write -5"),
    ("skew 0 10001", 8, "M is -10,000 to 10,000"),
    ("again -1", 7, "`-1` is no number; L is 0 to 4,294,967,295"),
    ("arrive 4294967296", 8, "C is 0 to 4,294,967,295"),
    ("arrive " + "9" * 5000, 8, "C is 0 to 4,294,967,295"),
    ("break", 6, "R is missing in `break R C I`: the number of a replica"),
    ("break 0", 8, "C is missing in `break R C I`: how many more calls the disk does"),
    ("break 0 3", 10, "I is missing in `break R C I`: the number of the image that is left"),
    ("break 3 3 1", 7, "replicas are numbered from 0 on, and R is 0 to 2"),
    ("break 0 4294967296 1", 9, "C is 0 to 4,294,967,295"),
    ("break 0 3 4294967296", 11, "I is 0 to 4,294,967,295"),
    ("break 0 -1 1", 9, "`-1` is no number; C is 0 to 4,294,967,295"),
    ("break 0 3 01", 11, "a number has no leading zeros: write 1"),
    ("break 0 3 1 2", 13, "nothing stands behind `break R C I`"),
    ("break 0  3 1", 8, "words stand one space apart"),
    ("power 0", 1, "there is no command `power`; `break R C I` has the disk of R stop within a write"),
    ("cut \u00fc 0", 5, "`\u00fc` is no number; replicas are numbered from 0 on, and A is 0 to 2"),
    ("campaign 0 \u00fc  0", 14, "words stand one space apart"),
]


def with_script(*lines):
    return HEAD + "".join(f"{line}\n" for line in lines) + "end\n"


def changed(text, other):
    """A run file without a command, with another text in place of one."""
    return with_script().replace(text, other)


def faults_in(text):
    """Of each fault its line, its column, its text and its cause."""
    return [tuple(fault) for fault in run_faults(lines_of(text))]


def rows_of_manual():
    """The examples of docs/RUN_FILE.md that a script's end or its lines are at fault in: the cause, the line of the first run file
    that is replaced, the lines in its place, the line at fault, and the right lines; and that run file."""
    with open(os.path.join(ROOT, "docs", "RUN_FILE.md"), encoding="utf-8") as file:
        text = file.read()
    run = re.search(r"(?s)```run\n(.*?)```", text)[1].split("\n")[:-1]
    row = re.compile(r"(?m)^\| (30|31) \| (\d+) \| (.*?) \| (\d+) \| .*? \| (.*?) \|$")
    return run, row.findall(text)


class Explain(unittest.TestCase):
    def test_mistakes(self):
        for line, column, text in MISTAKES:
            self.assertEqual(faults_in(with_script("heal", line, "heal")), [(FIRST + 1, column, text, 30)])

    def test_a_script_that_is_taken(self):
        at = "2024-03-31T00:00Z"
        script = ["campaign 2", f"round {at} 10000", "skew 1 -10000", "fate 0 late", "again 4294967295", "cut 1 1", f"free {at} 4"]
        script += ["break 2 0 4294967295", "break 0 4294967295 0"]
        self.assertEqual(faults_in(with_script(*script, "walk 2024-03-31T03:59Z")), [])
        self.assertEqual(explained("x", with_script(*script)), (["each line of the script is taken"], False))

    def test_limits(self):
        self.assertEqual(faults_in(with_script(*["heal"] * 1000)), [])
        text = "the command is one too many: a script has at most 1,000"
        self.assertEqual(faults_in(with_script(*["heal"] * 1010)), [(FIRST + 1000, 1, text, 30)])
        rounds = ["round 2024-03-31T00:00Z 10000"] * 10
        text = "with this line the script has 100,001 rounds, and may have 100,000"
        self.assertEqual(faults_in(with_script(*rounds, "round 2024-03-31T00:00Z 1")), [(FIRST + 10, 25, text, 30)])

    def test_around_a_script(self):
        for text, line, told, cause in (
            (HEAD, FIRST, "the file ends before `end`", 31),
            (with_script("heal") + "heal\n", FIRST + 2, "a line stands behind `end`; `end` is the last line", 30),
            (changed("replicas 3", "replicas 8"), 2, "line 2 of a run file is `replicas N`, with N from 1 to 7", 26),
            (changed("T04", "T00"), 3, "line 3 of a run file is `window STAMP STAMP`, the first before the second", 27),
            (changed("UTC 2", "UTC 4"), FIRST + 1, "a table takes `script` for a line of its own: mend its COUNT", 31),
            ("".join(HEAD.splitlines(True)[:4]), 5, "the file ends before `script`", 31),
        ):
            self.assertEqual(faults_in(text), [(line, 0, told, cause)])
        self.assertEqual(faults_in(changed("UTC 2", "UTC 1"))[0][:2], (FIRST - 2, 0))

    def test_versions(self):
        """The lines of versions are passed over, with their tables, in which a line `script` or `version 2` is one of the table."""
        table = ["crontab bob UTC 2", "script", "version 2"]
        lines = ["version 1 2024-03-31T00:30Z", *table, "version 2 2024-03-31T00:30Z", "zone A fixed +01:00"]
        text = changed("backup\n", "\n".join(["backup", *lines, ""]))
        self.assertEqual((faults_in(text), plain_text(text)), ([], text))
        told = "replicas are numbered from 0 on, and R is 0 to 2"
        self.assertEqual(faults_in(text.replace("end\n", "stop 3\nend\n")), [(FIRST + len(lines), 6, told, 30)])
        told = "here a zone, a table or a version begins, or `script` stands; does the table before have the right COUNT?"
        self.assertEqual(faults_in(text.replace("version 1", "versions 1")), [(FIRST - 1, 0, told, 31)])

    def test_bytes(self):
        self.assertEqual(faults_in(with_script("heal\udcff")), [(FIRST, 0, "the line isn't UTF-8", 15)])
        self.assertEqual(faults_in(with_script("heal\0")), [(FIRST, 0, "the line has a zero byte", 15)])
        self.assertEqual(faults_in(with_script().replace("\n", "\r\n"))[0][0], 1)
        self.assertEqual(faults_in("\ufeff" + with_script())[0][:2], (1, 1))

    def test_examples_of_the_manual(self):
        run, rows = rows_of_manual()
        self.assertGreater(len(rows), 8)
        for cause, number, told, line, right in rows:
            for cell, wanted in ((told, [(int(line), int(cause))]), (right, [])):
                lines = [*run[: int(number) - 1], *re.findall("`([^`]*)`", cell), *run[int(number) :]]
                self.assertEqual([(fault[0], fault[3]) for fault in faults_in("\n".join([*lines, ""]))[:1]], wanted, cell)

    def test_scripts_that_the_program_takes(self):
        texts = [example.text for example in examples()] + [made(seed) for made in (script_run, break_run, version_run) for seed in range(60)]
        folder = os.path.join(ROOT, "examples")
        for name in sorted(os.listdir(folder)):
            if "." not in name and f"{name}.stderr" not in os.listdir(folder):
                with open(os.path.join(folder, name), encoding="utf-8") as file:
                    texts += [text for text in [file.read()] if is_run_file(text)]
        for text in texts:
            self.assertEqual((faults_in(text), plain_text(text)), ([], text))

    def test_plain(self):
        commented = with_script("# first", "campaign 0", "", "  # then", "stop 0")
        self.assertEqual(plain_text(commented), with_script("campaign 0", "stop 0"))
        self.assertEqual(plain_text("# first\ncampaign 0\n \nheal"), "campaign 0\nheal\n")
        self.assertEqual(plain_text("cronrun 1\n# x\n"), "cronrun 1\n# x\n")

    def test_a_script_alone(self):
        self.assertEqual(explained("x", "# a comment\n\ncampaign 6\n \t# \udcff\0\r\n"), (["each line of the script is taken"], False))
        lines, wrong = explained("x", "campaign 6\nround 1999-01-01T00:00Z 3\ncampaign 7\nend\n")
        self.assertTrue(wrong)
        told = ["x:3:10: replicas are numbered from 0 on, and R is 0 to 6", "x:4: `tools/run_file` writes the line `end`"]
        self.assertEqual(lines, [*(f"{line} (cause 30)" for line in told), "2 lines aren't taken"])

    def test_what_the_manual_shows(self):
        run = with_script("# replica 0 leads", "round 2024-03-31T01:00Z", "crash 0")
        run = run.replace("UTC 2\n# script\n", "UTC 1\n")
        with open(os.path.join(ROOT, "docs", "SCRIPTS.md"), encoding="utf-8") as file:
            self.assertIn("".join(f"    {line}\n" for line in explained("my.run", run)[0]), file.read())

    def ran(self, *words, text=""):
        done = subprocess.run([TOOL, *words], input=text.encode("utf-8", "surrogateescape"), capture_output=True, check=False)
        return done.returncode, done.stdout.decode(), done.stderr.decode()

    def test_the_command(self):
        told = "-:10:1: there is no command `\\x1b[2J`; the commands are "
        status, output, notes = self.ran("-", text=with_script("heal", "\x1b[2J"))
        self.assertEqual((status, output[: len(told)], notes), (1, told, ""))
        self.assertEqual(self.ran("-", text=with_script("heal")), (0, "each line of the script is taken\n", ""))
        self.assertEqual(self.ran("--plain", "-", text=with_script("#", "heal")), (0, with_script("heal"), ""))
        with tempfile.TemporaryDirectory() as folder:
            none = os.path.join(folder, "none")
            self.assertEqual(self.ran(none), (2, "", f"explain: {none}: No such file or directory\n"))
        self.assertEqual(self.ran("--why")[0], 2)


if __name__ == "__main__":
    unittest.main()
