#!/usr/bin/env python3
"""Tests of tools/run_file: what it shows of the program's due list, and what it tells where the program refuses or fails.

Usage: tools/test_run_file_list.py [NAME..]
"""
import csv
import json
import os
import re
import subprocess
import unittest
from pathlib import Path

from run_file_lib.anacrontabs import AnacronLines
from run_file_lib.causes import CAUSES
from run_file_lib.due_list import DueList, rows_of
from run_file_lib.formats import FIELDS, Csv, Json, Text
from run_file_lib.gather import Gatherer
from run_file_lib.options import options_of
from run_file_lib.origins import Section, place_of
from run_file_lib.program import PROGRAM
from test_run_file import DOCUMENTS, HERE, NOW, TOOL, Memory, RunFileTest

# A program that keeps its words and its input, and answers what is written in a file.
FAKE = """#!/bin/sh
cd '{room}' && echo "$@" > words && cat > run && cat answer && cat note >&2
exit {status}
"""
EMPTY = "cron due 1\nend\n"


class ProgramTest(RunFileTest):
    """A test with a program that gives a known answer."""

    def setUp(self):
        super().setUp()
        self.program(EMPTY)

    def program(self, answer, note="", status=0):
        """Makes the program."""
        self.write("room/answer", answer)
        self.write("room/note", note)
        self.made = self.write("room/program", FAKE.format(room=self.file("room"), status=status))
        os.chmod(self.made, 0o755)

    def kept(self, name):
        """What the program kept, of its words or of its input."""
        return Path(self.file("room"), name).read_bytes().decode()

    def answered(self, *words):
        """The status of a run with the program, its lines, and its notes without the comments."""
        status, lines, notes = self.ran("--program", self.made, *words)
        return status, lines, [note for note in notes if not note.startswith("# ")]


class Lists(ProgramTest):
    """The due list."""

    def machine(self):
        """Writes the tables of a machine in Paris."""
        self.link("etc/localtime", "../usr/share/zoneinfo/Europe/Paris")
        table = "# a comment\n30 2 * * * root  make a backup \n@reboot root start\n"
        return [
            self.write("etc/crontab", table),
            self.write("var/spool/cron/bob", "0 3 * * * a\nCRON_TZ=UTC\n0 1 * * * b\tc\n"),
            self.write("etc/anacrontab", "START_HOURS_RANGE=3-22\n7 5 disks x\n1 1140 late y\n"),
        ]

    ANSWER = """cron due 1
job etc-crontab:1 version 0 count 2
due etc-crontab:1@20240330T0130Z 2024-03-30T02:30
due etc-crontab:1@20240331T0100Z 2024-03-31T03:00
job etc-crontab:2 version 0 count 0
job spool-bob:1 version 0 count 1
due spool-bob:1@20240331T0100Z 2024-03-31T03:00
job spool-bob:2 version 0 count 1
due spool-bob:2@20240330T0100Z 2024-03-30T01:00
anacron etc-anacrontab/disks version 0
anacron etc-anacrontab/late version 0
end
"""

    def test_list(self):
        system, user, slow = self.machine()
        self.program(self.ANSWER)
        hours = "from 03:05 on and before 22:00"
        never = "never, since its first minute would be 22:00, and its hours end at 22:00"
        rows = [
            ("Sat 2024-03-30 02:00  2024-03-30T01:00Z", f"{user}:3", "bob", "[01:00 UTC] b\\tc"),
            ("Sat 2024-03-30 02:30  2024-03-30T01:30Z", f"{system}:2", "root", "make a backup "),
            ("Sun 2024-03-31 03:00  2024-03-31T01:00Z", "-", "-", "-- Europe/Paris goes from 02:00 to 03:00 --"),
            ("Sun 2024-03-31 03:00  2024-03-31T01:00Z", f"{system}:2", "root", "[moved from 02:30] make a backup "),
            ("Sun 2024-03-31 03:00  2024-03-31T01:00Z", f"{user}:1", "bob", "a"),
            ("@reboot -      -      -                ", f"{system}:3", "root", "start"),
            ("anacron -      -      -                ", f"{slow}:2", "root", f"once in 7 days, {hours}: x"),
            ("anacron -      -      -                ", f"{slow}:3", "root", f"{never}: y"),
        ]
        width = len(f"{user}:3")
        expected = [f"{times}  {place:{width}}  {name:4}  {text}" for times, place, name, text in rows]
        self.assertEqual(self.answered("--list", "--days", "2"), (0, expected, []))
        self.assertEqual([line.split()[4] for line in expected], [place for _, place, _, _ in rows])

    def test_lines_of_minutes(self):
        """What a form writes at once of a minute is what it writes of its rows, one by one."""
        self.machine()
        self.write("var/spool/cron/bob", '0 3 * * * "a", b\nCRON_TZ=UTC\n0 1 * * * b\tc\n')
        self.program(self.ANSWER.replace("20240330T0100Z 2024-03-30T01:00", "20240330T0130Z 2024-03-30T01:30"))
        options = options_of(["--root", self.root, "--cron", "hevtsora", "--list", "--days", "2"])
        gatherer = Gatherer(options, {}, Memory())
        due = DueList(self.made, gatherer.run_file(NOW), gatherer.zone, gatherer.zones.local_times)
        minutes = [minute for part in due.parts() for minute in part]
        self.assertEqual([[launch.is_plain for launch in minute.launches] for minute in minutes], [[True, False], [False, False]])
        for form in (Text(due), Json(due), Csv(due)):
            for minute in minutes:
                self.assertEqual(form.lines(minute), [form.line(row) for row in rows_of(minute)])

    def test_forms(self):
        """The same rows as objects of JSON and as comma-separated values."""
        system, user, _ = self.machine()
        self.program(self.ANSWER)
        _, lines, _ = self.answered("--list", "--json", "--days", "2")
        objects = [json.loads(line) for line in lines]
        self.assertEqual([list(it) for it in objects], [FIELDS] * 8)
        kinds = ["launch", "launch", "clock", "launch", "launch", "reboot", "anacron", "anacron"]
        self.assertEqual([it["kind"] for it in objects], kinds)
        first = [1, "launch", "2024-03-30T02:00", "Sat", "Europe/Paris", "2024-03-30T01:00Z", "2024-03-30T01:00", "UTC", None, "bob"]
        self.assertEqual(list(objects[0].values()), [*first, user, 3, "spool-bob:2", "b\tc", None])
        self.assertEqual((objects[3]["moved_from"], objects[3]["file"]), ("2024-03-31T02:30", system))
        self.assertEqual((objects[2]["entry_zone"], objects[2]["text"]), ("Europe/Paris", "Europe/Paris goes from 02:00 to 03:00"))
        self.assertIsNone(objects[5]["utc"])
        _, lines, _ = self.answered("--list", "--csv", "--days", "2")
        rows = list(csv.reader(lines))
        self.assertEqual(rows[0], FIELDS)
        self.assertEqual(rows[1:], [["" if value is None else str(value) for value in it.values()] for it in objects])

    def test_words_of_forms(self):
        for words, message in (
            (["--list", "--json", "--csv"], "--json and --csv are two forms; take one of them"),
            (["--json"], "--json and --csv are forms of --list and of --next"),
            (["--check", "--csv"], "--json and --csv are forms of --list and of --next"),
        ):
            self.assertEqual(self.faults(*words), [f"run_file: {message}"])

    def test_windows(self):
        """The program is asked about 400 days at most."""
        self.write("var/spool/cron/bob", "0 0 1 1 * x\n")
        self.write("room/program", f"#!/bin/sh\ncd '{self.file('room')}' && sed -n 3p >> windows; cat answer\n")
        self.write("room/windows", "")
        self.assertEqual(self.answered("--list", "--from", "2024-01-01T00:00Z", "--days", "1000"), (0, [], []))
        ends = ["2024-01-01", "2025-02-04", "2026-03-11", "2026-09-27"]
        windows = [f"window {first}T00:00Z {last}T00:00Z" for first, last in zip(ends, ends[1:])]
        self.assertEqual(self.kept("windows").split("\n")[:-1], windows)

    def test_a_minute_that_is_refused(self):
        """A run has at most 1,000 jobs, so the program takes each minute: a refusal of one is told."""
        self.write("var/spool/cron/bob", "0 0 1 1 * x\n")
        self.program("", "cron_cluster: line 0: cause 24 at 0\n", 2)
        status, lines, notes = self.answered("--list", "--until", "2024-03-30T00:01Z")
        message = "run_file: the program refuses the run file: more than 20,000 due instants, over all versions (cause 24)"
        self.assertEqual((status, lines, notes), (1, [], [message]))

    def test_halves(self):
        """The parts follow each other, and each is taken at half its length where it is refused."""
        self.write("var/spool/cron/bob", "0 0 1 1 * x\n")
        longest = "test $(( $(date -ud $last +%s) - $(date -ud $first +%s) )) -gt 21600"
        refuse = "echo 'cron_cluster: line 0: cause 24 at 0' >&2; exit 2"
        body = f"set -- $(sed -n 3p run); first=$2 last=$3; if {longest}; then {refuse}; fi; echo $first $last >> windows; cat answer"
        self.write("room/program", f"#!/bin/sh\ncd '{self.file('room')}' && cat > run\n{body}\n")
        self.write("room/windows", "")
        self.assertEqual(self.answered("--list", "--from", "2024-01-01T00:00Z"), (0, [], []))
        windows = [line.split() for line in self.kept("windows").split("\n")[:-1]]
        hours = ["01T00", "01T06", "01T12", "01T18", "02T00"]
        self.assertEqual([windows[0][0], *(last for _, last in windows)], [f"2024-01-{hour}:00Z" for hour in hours])
        self.assertTrue(all(one[1] == other[0] for one, other in zip(windows, windows[1:])))

    def test_parts_have_no_script(self):
        """The stamps of a script may lie in another part of the window."""
        script = self.write("duel", "# x\ncampaign 0\nround 2024-03-30T00:00Z 1\n")
        self.answered("--list", "--script", script)
        self.assertEqual(self.kept("run").split("\n")[4:], ["script", "campaign 0", "round 2024-03-30T00:00Z 1", "end", ""])
        self.answered("--list", "--script", script, "--days", "401")
        self.assertEqual(self.kept("run").split("\n")[2:], ["window 2025-05-04T00:00Z 2025-05-05T00:00Z", "grace 0", "script", "end", ""])

    def test_what_the_program_gets(self):
        self.machine()
        run = self.lines("--days", "3")
        self.answered("--days", "3", "--list")
        self.assertEqual(self.kept("words"), "--list\n")
        self.assertEqual(self.kept("run").split("\n"), [*run, ""])

    def test_nothing_due(self):
        self.assertEqual(self.answered("--list"), (0, [], []))

    def test_tables_at_fault(self):
        self.write("var/spool/cron/bob", "60 * * * * a\n0 1 * * * b\n")
        self.assertEqual(self.answered("--list")[:2], (1, []))
        self.assertFalse(os.path.exists(self.file("room/words")))
        self.program("cron due 1\njob spool-bob:1 version 0 count 1\ndue spool-bob:1@20240330T0100Z 2024-03-30T01:00\nend\n")
        status, lines, notes = self.answered("--list", "--skip")
        self.assertEqual((status, len(notes)), (0, 1))
        self.assertEqual(lines, [f"Sat 2024-03-30 01:00  {'-':17}  {self.file('var/spool/cron/bob')}:2  bob  b"])

    def test_together(self):
        message = "run_file: --list and --check are two answers; take one of them"
        self.assertEqual(self.faults("--list", "--check"), [message])

    def test_output_that_nobody_reads(self):
        """As with `--list | head`: nothing is at fault."""
        self.program("cron due 1\nanacron etc-anacrontab/a version 0\nend\n")
        self.write("etc/anacrontab", "1 5 a x\n")
        reading, writing = os.pipe()
        os.close(reading)
        words = [TOOL, "--root", self.root, "--program", self.made, "--list"]
        done = subprocess.run(words, stdout=writing, stderr=subprocess.PIPE, check=False)
        os.close(writing)
        self.assertEqual((done.returncode, [line for line in done.stderr.split(b"\n")[:-1] if not line.startswith(b"# ")]), (0, []))

    def test_output_that_fails(self):
        self.program("cron due 1\nanacron etc-anacrontab/a version 0\nend\n")
        self.write("etc/anacrontab", "1 5 a x\n")
        words = ["sh", "-c", '"$0" --root "$1" --program "$2" --list > /dev/full', TOOL, self.root, self.made]
        done = subprocess.run(words, stderr=subprocess.PIPE, check=False)
        note = b"run_file: standard output can't be written: No space left on device"
        self.assertEqual((done.returncode, done.stderr.split(b"\n")[-2]), (1, note))


class Periods(RunFileTest):
    """When the jobs of anacrontabs are launched, in words."""

    def when(self, *lines):
        """The words of the last one of these lines."""
        judge = AnacronLines()
        self.assertEqual([judge.fault_of(line) for line in lines], [None] * len(lines))
        return judge.when_of(lines[-1])

    def test_periods(self):
        hours = "from 00:05 on and before 24:00"
        for period, words in (
            ("1", "once a day"),
            ("@daily", "once a day"),
            ("7", "once in 7 days"),
            ("@weekly", "once in 7 days"),
            ("9999", "once in 9999 days"),
            ("@monthly", "once a month"),
            ("@yearly", "once a year"),
            ("@annually", "once a year"),
        ):
            self.assertEqual(self.when(f"{period} 5 a x"), f"{words}, {hours}")

    def test_variables(self):
        """The minutes are those of the example in docs/TABLES.md."""
        lines = ["START_HOURS_RANGE = 3-22", 'RANDOM_DELAY="45"']
        self.assertEqual(self.when(*lines, "1 5    a  water the plants"), "once a day, from 03:43 on and before 22:00")
        self.assertEqual(self.when(*lines, "1 5    foobar  feed the fish"), "once a day, from 03:05 on and before 22:00")
        never = "never, since its first minute would be 22:00, and its hours end at 22:00"
        self.assertEqual(self.when(*lines, "RANDOM_DELAY=0", "1 1140 late  lock the doors"), never)
        self.assertEqual(self.when("1 1439 a x"), "once a day, from 23:59 on and before 24:00")
        self.assertEqual(self.when("1 9999 a x")[:44], "never, since its first minute would be 166:3")


class Refusals(ProgramTest):
    """What is told where the program refuses the run file, or gives no answer."""

    def told(self, note, status=2, answer="", words=()):
        """The status and the message for a note of the program."""
        self.program(answer, note, status)
        status, lines, notes = self.answered("--list", *words)
        self.assertEqual((len(lines), len(notes)), (0, 1), notes)
        return status, notes[0]

    def refused(self, line, cause, before, *words):
        """The message for a refusal."""
        status, message = self.told(f"cron_cluster: line {line}: cause {cause} at {before}\n", words=words)
        self.assertEqual(status, 1)
        return message.replace(f"the program refuses the run file: {CAUSES.get(cause)} (cause {cause})", "REFUSED")

    def test_refusals(self):
        self.link("etc/localtime", "../usr/share/zoneinfo/Europe/Paris")
        file = self.write("etc/crontab", "# a comment\n0 8 * * * root x\n")
        slow = self.write("etc/anacrontab", "1 5 \\\n a x\n")
        for line, before, message in (
            (0, 0, "run_file: REFUSED"),
            (1, 0, "run_file: REFUSED; line 1 is `cronrun 1 ..`"),
            (5, 0, "run_file: REFUSED; line 5 is `zone Europe/Paris ..`"),
            (6, 0, f"{file}: REFUSED"),
            (8, 2, f"{file}:2:3: REFUSED"),
            (10, 6, f"{slow}:2:1: REFUSED"),
            (10, 2, f"{slow}:1:3: REFUSED"),
            (12, 0, "run_file: REFUSED; line 12 is `script ..`"),
        ):
            self.assertEqual(self.refused(line, 3, before), message)
        script = self.write("duel", "# a comment\nheal\n\nheal 0\n")
        for line, message in ((12, "run_file: REFUSED; line 12 is `script ..`"), (13, f"{script}:2: REFUSED"), (14, f"{script}:4: REFUSED")):
            self.assertEqual(self.refused(line, 30, 0, "--script", script), message)
        self.assertEqual(self.refused(15, 30, 0, "--script", script), "run_file: REFUSED; line 15 is `end ..`")
        known = "run_file: the program refuses the run file: a fault that the script doesn't know (cause 99)"
        self.assertEqual(self.refused(0, 99, 0), known)

    def test_ends(self):
        end = "run_file: the program ends with status"
        self.assertEqual(self.told("cron_cluster: out of memory\n", 5), (2, f"{end} 5: cron_cluster: out of memory"))
        usage = "cron_cluster: usage: cron_cluster"
        self.assertEqual(self.told(f"{usage}\n", 1), (2, f"{end} 1: {usage}"))
        self.assertEqual(self.told("line 5\nline 6\n", 2), (2, f"{end} 2: line 5\\nline 6"))

    def test_programs_that_are_not_there(self):
        missing = self.file("missing")
        how = "`rt run` in crates/cron_cluster builds it, as README.md says, and --program names another"
        status, _, notes = self.ran("--program", missing, "--list")
        self.assertEqual((status, notes[-1]), (2, f"run_file: there is no program {missing}; {how}"))
        status, _, notes = self.ran("--program", self.root, "--list")
        self.assertEqual((status, notes[-1]), (2, f"run_file: the program {self.root} can't be run: Permission denied"))

    def test_usual_program(self):
        self.assertEqual(os.path.relpath(PROGRAM, os.path.dirname(HERE)), "crates/cron_cluster/out/cron_cluster")

    def test_answers_that_are_none(self):
        self.write("etc/anacrontab", "1 5 a x\n")
        whole = "run_file: the program's answer isn't one from `cron due 1` to `end`"
        a_line = "run_file: the program's answer has a line `{}`"
        for answer, message in (
            ("", whole),
            ("cron due 1\n", whole),
            ("cron due 1\nend", whole),
            ("cron due 2\nend\n", whole),
            ("cron due 1\n\nend\n", a_line.format("")),
            ("cron due 1\njob a:1\nend\n", a_line.format("job a:1")),
            ("cron due 1\ndue a:1@20240330T0100 x\nend\n", a_line.format("due a:1@20240330T0100 x")),
            ("cron due 1\nanacron a/b version 0\nend\n", "run_file: the program's answer has a job `a/b`, which no table has"),
        ):
            self.assertEqual(self.told("", 0, answer), (2, message))


class Parts(unittest.TestCase):
    """What the answers are made with."""

    def test_causes_of_the_manual(self):
        manual = Path(DOCUMENTS, "RUN_FILE.md").read_text(encoding="utf-8")
        rows = re.findall(r"(?m)^\| (\d+) \| ([^|]+) \| [^|]+ \| [^|]+ \|$", manual)
        self.assertEqual({int(cause): text for cause, text in rows}, CAUSES)

    def test_places(self):
        lines = ["# a comment \\", "1 5 \\", "\u00e9 \\", "x\\"]
        for kind, line, before, place in (
            ("anacrontab", 2, 4, (2, 5)),
            ("anacrontab", 2, 6, (3, 1)),
            ("anacrontab", 2, 9, (3, 4)),
            ("anacrontab", 2, 11, (4, 1)),
            ("anacrontab", 2, 13, (4, 3)),
            ("crontab", 2, 9, (2, 10)),
        ):
            self.assertEqual(place_of(Section(kind, "a", "UTC", "a", 6, lines, []), line, before), place)


if __name__ == "__main__":
    unittest.main()
