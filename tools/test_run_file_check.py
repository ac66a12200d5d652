#!/usr/bin/env python3
"""Tests of tools/run_file: what it shows of the program's check.

Usage: tools/test_run_file_check.py [NAME..]
"""
import unittest

from test_run_file import LOOP, NO_FILE
from test_run_file_list import ProgramTest

CARRIAGE = "the line ends with a carriage return, which would be a part of what it says"
# The lines of the run file's head and the one that opens the first table.
HEAD = 5


class Checks(ProgramTest):
    """The check."""

    def answer(self, *faults):
        """Makes the program answer these faults: of each the line of the run file, the cause and the place."""
        lines = [f"line {line} cause {cause} at {before}" for line, cause, before in faults]
        self.program("\n".join(["cron check 1", *lines, f"faults {len(faults)}", "end", ""]))

    def checked(self, *words):
        """The status of a check and its lines."""
        status, lines, notes = self.answered("--check", *words)
        self.assertEqual(notes, [])
        return status, lines

    def test_no_fault(self):
        self.write("var/spool/cron/bob", "@daily x\n")
        self.answer()
        self.assertEqual(self.checked(), (0, ["0 faults"]))
        self.assertEqual(self.kept("words"), "--check\n")

    def test_faults(self):
        system = self.write("etc/crontab", "60 * * * * root x\n# a comment\n0 8 * * monday root x\n")
        user = self.write("var/spool/cron/bob", "@daily\n")
        self.answer((HEAD + 1, 3, 0), (HEAD + 3, 4, 8), (HEAD + 5, 11, 6))
        expected = [
            f"{system}:1:1: the minute is 0 to 59, not 60 (cause 3)",
            f"{system}:3:9: the day of the week has no name `monday` (cause 4)",
            f"{user}:1:7: there is no command (cause 11)",
            "3 faults",
        ]
        self.assertEqual(self.checked(), (1, expected))

    def test_the_program_decides(self):
        """What the script alone takes for a fault of a line isn't told, and what the program alone does is."""
        file = self.write("var/spool/cron/bob", "60 * * * * a\n@daily b\n0~9 * * * * c\n")
        self.answer((HEAD + 2, 13, 0), (HEAD + 3, 9, 2))
        expected = [
            f"{file}:2:1: a word that begins with `@` and is no nickname (cause 13)",
            f"{file}:3:3: something else that is no number and no name (cause 9)",
            "2 faults",
        ]
        self.assertEqual(self.checked(), (1, expected))

    def test_lines_that_go_on(self):
        file = self.write("etc/anacrontab", "# a comment\n1 5 \\\n  a/b \\\n x\n")
        self.answer((HEAD + 2, 18, 8))
        message = "the identifier has a `/` or more than 64 bytes (cause 18)"
        self.assertEqual(self.checked(), (1, [f"{file}:3:3: {message}", "1 fault"]))

    def test_what_the_program_gets(self):
        """The lines as they are, but for those that are no text."""
        lines = [b"60 * * * * a", b"CRON_TZ=Mars", b"@daily b\r", b"# \xff", b"@daily \0", b"@daily c"]
        self.write("var/spool/cron/bob", b"\n".join(lines))
        self.write("etc/anacrontab", b"1 5 a \\\n \xff\n1 5 b x\n")
        self.answer()
        self.checked()
        left_out = "# left out by run_file"
        user = ["60 * * * * a", "CRON_TZ=Mars", "@daily b\r", left_out, left_out, "@daily c"]
        tables = ["crontab spool-bob UTC 6", *user, "anacrontab etc-anacrontab UTC 3", left_out, left_out, "1 5 b x"]
        self.assertEqual(self.kept("run").split("\n")[4:], [*tables, "script", "end", ""])

    def test_what_the_script_finds(self):
        """What the program's check doesn't tell, each in its place."""
        lines = [b"60 * * * * a", b"CRON_TZ=Mars", b"@daily b", b"# \xff", b"# \0", b"@daily c\r", b"CRON_TZ=."]
        user = self.write("var/spool/cron/bob", b"\n".join(lines))
        slow = self.write("etc/anacrontab", "1 5 a x\n1 5 a x\n2 5 b\n")
        self.answer((HEAD + 1, 3, 0), (HEAD + 11, 11, 5))
        zone = self.file("usr/share/zoneinfo/Mars")
        expected = [
            f"{user}:1:1: the minute is 0 to 59, not 60 (cause 3)",
            f"{user}:2: there is no zone Mars: {zone}: {NO_FILE} (cause 21)",
            f"{user}:4: the line isn't UTF-8 (cause 15)",
            f"{user}:5: there is a zero byte in the line (cause 15)",
            f"{user}:6: {CARRIAGE}",
            f"{user}:7: `.` is no zone's name (cause 21)",
            f"{slow}:2: a job above has the identifier `a` (cause 22)",
            f"{slow}:3:6: there is no command (cause 11)",
            "8 faults",
        ]
        self.assertEqual(self.checked(), (1, expected))

    def test_carriage_return_of_a_line_at_fault(self):
        file = self.write("var/spool/cron/bob", "\r\n@daily x\r\n")
        self.answer((HEAD + 1, 9, 0))
        expected = [f"{file}:1:1: {CARRIAGE} (cause 9)", f"{file}:2: {CARRIAGE}", "2 faults"]
        self.assertEqual(self.checked(), (1, expected))

    def test_files(self):
        """Tables that can't be read, or are too long, in the order of the tables."""
        self.answer((HEAD + 3, 13, 0))
        system = self.link("etc/crontab", "crontab")
        packaged = self.write("etc/cron.d/a", "#\n" * 65_536)
        user = self.write("var/spool/cron/bob", "\n@daylight x\n")
        expected = [
            f"{system}: it can't be read: {LOOP}",
            f"{packaged}: it has more than 65,535 lines, the most of a table (cause 29)",
            f"{user}:2:1: `@daylight` is no nickname (cause 13)",
            "3 faults",
        ]
        self.assertEqual(self.checked(), (1, expected))

    def test_one_job_too_many(self):
        file = self.write("var/spool/cron/bob", "@reboot x\n" * 1002)
        self.answer()
        message = "this job is one too many: a run has at most 1,000 (cause 23)"
        self.assertEqual(self.checked(), (1, [f"{file}:{line}: {message}" for line in (1001, 1002)] + ["2 faults"]))

    def test_with_skip(self):
        message = "run_file: --check tells each line at fault, and --skip leaves it out; take one of them"
        self.assertEqual(self.faults("--check", "--skip"), [message])

    def test_zone_of_the_machine(self):
        """What ends the command ends a check too."""
        file = self.link("etc/localtime", "../usr/share/zoneinfo/Mars/Base")
        status, lines, notes = self.answered("--check")
        self.assertEqual((status, lines), (1, []))
        self.assertTrue(notes[0].startswith(f"{file}: there is no zone Mars/Base: "), notes)

    def test_answers_that_are_none(self):
        self.write("var/spool/cron/bob", "@daily x\n")
        for lines, message in (
            ([], "the program's answer has a line ``"),
            (["line 6 cause 3 at 0"], "the program's answer has a line `line 6 cause 3 at 0`"),
            (["line 6 cause 3", "faults 1"], "the program's answer has a line `line 6 cause 3`"),
            (["faults 1"], "the program's answer has 0 faults, and tells `faults 1`"),
            (["line 5 cause 3 at 0", "faults 1"], "the program's answer has line 5, which is of no table"),
            (["line 99 cause 3 at 0", "faults 1"], "the program's answer has line 99, which is of no table"),
        ):
            self.program("\n".join(["cron check 1", *lines, "end", ""]))
            self.assertEqual(self.answered("--check"), (2, [], [f"run_file: {message}"]))


if __name__ == "__main__":
    unittest.main()
