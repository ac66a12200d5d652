#!/usr/bin/env python3
"""Tests of tools/run_file: why an entry is due, its next launches, hints, and what a new table changes.

Usage: tools/test_run_file_questions.py [NAME..]
"""
import os
import unittest
from datetime import datetime

from run_file_lib.clocks import Change
from run_file_lib.matching import times_of
from test_run_file_list import ProgramTest

NO_JOBS = "cron check 1\nfaults 0\nend\n"
FIELDS = ["day of the month `*`: 31 matches", "month `*`: 3 matches", "day of the week `*`: Sunday matches"]
BOTH = "  the date matches: one of the day's fields begins with `*`, so both have to match"


class Questions(ProgramTest):
    """A test of a machine in Paris, with a crontab of bob."""

    def setUp(self):
        super().setUp()
        self.link("etc/localtime", "../usr/share/zoneinfo/Europe/Paris")
        lines = ["# a comment", "30 2 * * * backup", "*/30 2 * * * fetch", "@reboot start", "0 0 31 2 * never"]
        self.bob = self.write("var/spool/cron/bob", "\n".join([*lines, ""]))

    def due(self, *instants, job="spool-bob:1"):
        """Makes the program answer these instants of a job, with their local times."""
        lines = [f"due {job}@{instant} {local}" for instant, local in instants]
        self.program("\n".join(["cron due 1", f"job {job} version 0 count {len(lines)}", *lines, "end", ""]))


class Why(Questions):
    """Why an entry is due, or isn't."""

    def why(self, line, stamp):
        """The lines of an answer behind the first one."""
        status, lines, notes = self.answered("--why", f"{self.bob}:{line}", stamp)
        self.assertEqual((status, notes), (0, []))
        return lines

    def test_a_time_that_is_skipped(self):
        self.due(("20240331T0100Z", "2024-03-31T03:00"))
        skipped = "--why: 2024-03-31 02:30 is skipped in Europe/Paris, whose clock goes from 02:00 to 03:00; "
        expected = [
            f"{skipped}03:00 is taken, at 2024-03-31T01:00Z",
            f"{self.bob}:2: 30 2 * * * backup",
            "due at Sun 2024-03-31 03:00 in Europe/Paris, 2024-03-31T01:00Z",
            "  the minute `30`: 0 doesn't match",
            "  the hour `2`: 3 doesn't match",
            *(f"  the {text}" for text in FIELDS),
            BOTH,
            "  Europe/Paris goes from 02:00 to 03:00 at 2024-03-31T01:00Z",
            "  02:30 is skipped, and a fixed time that is skipped is launched at once after the change",
        ]
        self.assertEqual(self.why(2, "2024-03-31 02:30"), expected)
        self.assertEqual(self.kept("run").split("\n")[2], "window 2024-03-31T01:00Z 2024-03-31T01:01Z")

    def test_a_time_that_comes_twice(self):
        told = self.why(2, "2024-10-27T01:30Z")
        self.assertEqual(told[1], "not due at Sun 2024-10-27 02:30 in Europe/Paris, 2024-10-27T01:30Z")
        end = "it has fixed times, and each of them is launched once: the clock showed this one at 2024-10-27T00:30Z already"
        self.assertEqual(told[-1], f"  {end}")

    def test_a_frequent_entry(self):
        self.due(("20241027T0130Z", "2024-10-27T02:30"), job="spool-bob:2")
        told = self.why(3, "2024-10-27T01:30Z")
        self.assertEqual(told[1], "due at Sun 2024-10-27 02:30 in Europe/Paris, 2024-10-27T01:30Z")
        self.assertTrue(told[-1].startswith("  its minute or its hour begins with `*`, so it follows the clock as it shows"))

    def test_jobs_without_minutes(self):
        self.assertEqual(self.why(4, "2024-10-27")[1:], ["it is launched as cron starts, and is due at no minute"])
        slow = self.write("etc/anacrontab", "7 5 disks x\n")
        _, lines, _ = self.answered("--why", f"{slow}:1", "2024-10-27")
        self.assertEqual(lines[1], "a job of an anacrontab is launched on dates, once in 7 days, from 00:05 on and before 24:00")

    def test_places(self):
        self.due(("20240331T0100Z", "2024-03-31T03:00"))
        self.assertEqual(self.answered("--why", "spool-bob:1", "2024-03-31 03:00")[0], 0)
        for place in (f"{self.bob}:1", f"{self.bob}:9", "bob"):
            message = f"run_file: no entry that is taken stands at `{place}`; --list shows the places"
            self.assertEqual(self.answered("--why", place, "2024-03-31"), (1, [], [message]))

    def test_another_answer_of_the_program(self):
        message = "run_file: whether spool-bob:1 is due, the script finds otherwise than the program, which says no"
        self.assertEqual(self.answered("--why", f"{self.bob}:2", "2024-03-30 02:30"), (2, [], [message]))


class Next(Questions):
    """The next launches of an entry."""

    def test_launches(self):
        self.due(("20240331T0100Z", "2024-03-31T03:00"), ("20240401T0030Z", "2024-04-01T02:30"))
        row = f"Sun 2024-03-31 03:00  2024-03-31T01:00Z  {self.bob}:2  bob  [moved from 02:30] backup"
        self.assertEqual(self.answered("--next", "1", f"{self.bob}:2"), (0, [row], []))
        # From now on, and of this entry alone.
        run = self.kept("run").split("\n")
        self.assertEqual((run[2][:24], run[6:-3]), ("window 2024-03-30T17:45Z", ["# a comment", "30 2 * * * backup", "#", "#", "#"]))
        self.answered("--next", "1", f"{self.bob}:2", "--from", "2024-03-31")
        self.assertEqual(self.kept("run").split("\n")[2][:24], "window 2024-03-30T23:00Z")

    def test_name_of_a_job(self):
        self.due(("20240331T0030Z", "2024-03-31T01:30"))
        _, lines, _ = self.answered("--next", "1", f"{self.bob}:3", "--csv")
        self.assertEqual(lines[1].split(",")[10:14], [self.bob, "3", "spool-bob:2", "fetch"])

    def test_never(self):
        for line in (4, 5):
            status, lines, notes = self.ran("--program", self.made, "--next", "3", f"{self.bob}:{line}")
            self.assertEqual((status, lines, notes[-1]), (0, [], "# it is never due at a minute"))

    def test_numbers(self):
        for text in ("0", "10001", "x"):
            message = f"run_file: --next: `{text}` is no number from 1 to 10000"
            self.assertEqual(self.answered("--next", text, f"{self.bob}:2"), (1, [], [message]))


class Hints(Questions):
    """Hints."""

    def hints(self, *lines, kind="--user"):
        """The hints for these lines of a table."""
        self.program(NO_JOBS)
        self.write("etc/passwd", "root:x:0:0::/:/bin/sh\nmail:x:8:8::/:/bin/sh\n")
        self.write("usr/bin/mail", "")
        file = self.write("table", "\n".join([*lines, ""]))
        status, told, _ = self.answered("--check", "--hints", kind, file)
        self.assertEqual((status, told[-1]), (0, f"0 faults, {len(told) - 1} hint{'' if len(told) == 2 else 's'}"))
        return [line[len(file) + 1 :].replace("hint: ", "") for line in told[:-1]]

    def test_hints(self):
        percent = "the command ends at its first `%`, and what is behind that is its standard input; write `\\%` for a percent sign"
        user = "the command begins with `root`, a user of the machine, as an entry of a system table does"
        for line, told in (
            ("0 5 * * * date +%F", percent),
            ("0 5 * * * date +\\%F", None),
            ("0 5 * * * root x", user),
            ("@daily root x", user),
            ("0 5 * * * root", None),
            ("0 5 * * * mail -s x", None),
            ("*/45 * * * * x", "`*/45` of the minute is 0, 45 of each hour, since 45 doesn't divide 60"),
            ("0 */5 * * * x", "`*/5` of the hour is 0, 5, 10, 15, 20 of each day, since 5 doesn't divide 24"),
            ("*/15 */6 * * * x", None),
            ("* 3 * * * x", "it is due at each minute of the hour `3`; a `0` for its minute is once"),
            ("* * * * * x", None),
            ("0 9 1-7 * 1 x", "both of the day's fields are restricted, so it is due on each date that one of them matches"),
            ("0 0 31 2,4 * x", "no month has such a day, so it is never due"),
            ("0 0 29 2 * x", None),
            ("0 0 31 2 1 x", "both of the day's fields are restricted, so it is due on each date that one of them matches"),
            ("30 2 * * * x", "02:30 is skipped on 2024-03-31 in Europe/Paris: it is launched at 03:00 then"),
            ("30 2,3 * * * x", "02:30 is skipped on 2024-03-31 in Europe/Paris: it is launched at 03:00 then"),
            ("*/30 2 * * * x", None),
            ("30 2 1 1 * x", None),
        ):
            self.assertEqual(self.hints(line), [f"1: {told}"] if told else [], line)

    def test_system_tables(self):
        self.assertEqual(self.hints("0 5 * * * root x", kind="--system"), [])

    def test_one_line_twice(self):
        lines = ["0 5 * * * x", "0  5 * * * x", "0 5 * * * y", "CRON_TZ=UTC", "0 5 * * * x"]
        self.assertEqual(self.hints(*lines), ["2: the same entry stands in line 1, so it is launched twice"])

    def test_they_change_no_status(self):
        self.program("cron check 1\nline 7 cause 3 at 0\nfaults 1\nend\n")
        self.write("var/spool/cron/bob", "60 * * * * x\n0 5 * * * date +%F\n")
        status, lines, _ = self.answered("--check", "--hints")
        self.assertEqual((status, lines[-1]), (1, "1 fault, 1 hint"))
        self.assertEqual(self.faults("--hints"), ["run_file: --hints are a part of --check"])


class Changes(Questions):
    """What a new table changes."""

    # A program that answers by what the table of the run file says.
    PROGRAM = """#!/bin/sh
cat > '{room}/run'; echo 'cron due 1'
grep -q '^30 2 .* backup' '{room}/run' && printf 'due %s:1@20240330T0130Z 2024-03-30T02:30\\n' {label}
grep -q '^30 4 .* backup' '{room}/run' && printf 'due %s:1@20240330T0330Z 2024-03-30T04:30\\n' {label}
grep -q ' fetch' '{room}/run' && printf 'due %s:2@20240330T0100Z 2024-03-30T02:00\\n' {label}
echo end
"""

    def changed(self, file, *lines):
        """The lines of an answer, but for where the rows come from."""
        made = self.write("room/program", self.PROGRAM.format(room=self.file("room"), label="spool-bob"))
        os.chmod(made, 0o755)
        new = self.write("new", "\n".join([*lines, ""]))
        status, told, notes = self.answered("--change", f"{file}={new}")
        self.assertEqual((status, notes), (0, []))
        return [line.replace(f"{new}:", "NEW:").replace(f"{self.bob}:", "BOB:") for line in told]

    def test_more_less_and_moved(self):
        told = self.changed(self.bob, "30 4 * * * backup", "@reboot start", "@reboot other")
        self.assertEqual([line.split("  ")[0][:24] for line in told[:2]], ["- Sat 2024-03-30 02:00", "~ Sat 2024-03-30 04:30"])
        self.assertTrue(told[1].endswith("bob  [instead of 02:30] backup"), told)
        self.assertIn("NEW:3", told[2])
        self.assertEqual((len(told), told[-1]), (4, "1 launch more, 1 less, 1 at another time"))

    def test_nothing(self):
        same = ["30 2 * * * backup", "*/30 2 * * * fetch", "@reboot start", "0 0 31 2 * never"]
        self.assertEqual(self.changed(self.bob, *same), ["0 launches more, 0 less, 0 at another time"])

    def test_a_table_that_is_new_or_goes(self):
        os.remove(self.bob)
        told = self.changed(self.bob, "30 2 * * * backup")
        self.assertEqual((told[0][0], told[-1]), ("+", "1 launch more, 0 less, 0 at another time"))
        self.bob = self.write("var/spool/cron/bob", "30 2 * * * backup\n")
        told = self.changed("/var/spool/cron/bob", "")
        self.assertEqual((told[0][0], told[-1]), ("-", "0 launches more, 1 less, 0 at another time"))

    def test_words(self):
        for text, message in (
            ("bob", "`bob` isn't FILE=NEWFILE"),
            ("=new", "`=new` isn't FILE=NEWFILE"),
            ("/etc/passwd=new", "`/etc/passwd` is no place of a table"),
        ):
            self.assertEqual(self.faults("--change", text), [f"run_file: --change: {message}"])
        self.assertEqual(self.faults("--list", "--change", "a=b"), ["run_file: --list and --change are two answers; take one of them"])


class Matching(unittest.TestCase):
    """When an entry is due by its fields. .ci/run_file compares it with the program."""

    def test_hashed_fields(self):
        """The values are those of the example in docs/TABLES.md, whose label is `alice`."""
        for command, hour, minute in (("backup", 4, 59), ("rotate-logs", 9, 14)):
            times = times_of(f"? ? * * * {command}", "alice", command)
            self.assertEqual((times.hour.values, times.minute.values), ({hour}, {minute}))

    def test_the_day_rule(self):
        for text, days in (
            ("0 0 13 * 5", [4, 11, 13, 18, 25]),
            ("0 0 */2 * sun", [13, 27]),
            ("0 0 *,13 * sun", [6, 13, 20, 27]),
            ("0 0 31 * *", [31]),
        ):
            times = times_of(f"{text} x", "a", "x")
            self.assertEqual([day for day in range(1, 32) if times.matches(datetime(2024, 10, day))], days, text)

    def test_corrections_of_the_clock(self):
        times = times_of("30 2 * * * x", "a", "x")
        before = datetime(2024, 3, 31, 2)
        for hour, skipped in ((3, datetime(2024, 3, 31, 2, 30)), (4, datetime(2024, 3, 31, 2, 30)), (5, None), (1, None)):
            self.assertEqual(times.first_skipped(Change(before, before, before.replace(hour=hour))), skipped)


if __name__ == "__main__":
    unittest.main()
