#!/usr/bin/env python3
"""Tests of tools/ran: the forms of logs, how cron writes a command, years and zones of stamps, and what is found. The log
testdata/debian.syslog is what Debian's own cron (3.0pl1-162) wrote to /dev/log over the tables of testdata/logged, in four minutes
of a namespace of its own. In place of the program the small world tells when entries are due.

Usage: tools/test_ran.py [NAME..]
"""
import gzip
import json
import os
import re
import unittest
from calendar import timegm
from datetime import datetime
from unittest import mock

from ran_lib.clock import Clock
from ran_lib.command import run
from ran_lib.commands import forms_of
from ran_lib.lines import log_of
from ran_lib.stamps import iso_second
from run_file_lib.clocks import UTC, read_zone
from run_file_lib.faults import Stop
from small_world.run_file import RunFile
from test_run_file import DOCUMENTS, HERE, PARIS, Memory, RunFileTest

TESTDATA = os.path.join(HERE, "testdata")
NOW = timegm((2024, 6, 1, 0, 0, 0))
MOST = 1_000
AS = "write it as 2024-03-31, or `today` or `yesterday`"
HOUR = ["--from", "2024-03-01T00:00Z", "--until", "2024-03-01T01:00Z"]
FORMS = {
    "3164": "{old} host CRON[7]: ({user}) CMD ({command})",
    "raw": "<78>{old} CRON[7]: ({user}) CMD ({command})",
    "crond": "{old} host CROND[7]: ({user}) CMD ({command})",
    "path": "{old} host /usr/sbin/crond[7]: ({user}) CMD ({command})",
    "5424": '<78>1 {iso}.123456+01:00 host CRON 7 - [a@1 b="\\]c\\""][d] ({user}) CMD ({command})',
    "short-iso": "{iso}+0100 host CRON[7]: ({user}) CMD ({command})",
    "rsyslog": "{iso}.000001+01:00 host CRON[7]: ({user}) CMD ({command})",
}


def answer_of(program, word, made, first):
    """What the program answers to `--list`, by the small world."""
    lines = RunFile(made.data.decode()).listed()
    if sum(line.startswith("due ") for line in lines) > MOST:
        raise Stop("run_file: the program refuses the run file: too many due instants (cause 24)")
    return lines


def logged(form, *launches):
    """Lines of a log of Paris in winter: of each launch its time and its command."""
    lines = []
    for time, command in launches:
        shown = datetime.strptime(f"2024-03-01 {time}", "%Y-%m-%d %H:%M:%S")
        values = {"old": f"{shown:%b} {shown.day:2} {time}", "iso": f"2024-03-01T{time}", "user": "bob", "command": command}
        lines.append(FORMS[form].format(**values))
    return "\n".join([*lines, ""])


class RanTest(RunFileTest):
    def setUp(self):
        super().setUp()
        patch = mock.patch("run_file_lib.windows.answer_of", answer_of)
        patch.start()
        self.addCleanup(patch.stop)
        self.addCleanup(os.chdir, os.getcwd())
        self.link("etc/localtime", "../usr/share/zoneinfo/Europe/Paris")

    def judged(self, *words):
        """The status, the lines and the notes that are no comments."""
        streams = Memory()
        status = run(["--root", self.root, *words], {}, NOW, streams)
        lines = streams.written.decode().split("\n")[:-1]
        return status, lines, [note for note in streams.notes if not note.startswith("# ")]

    def found(self, log, *words):
        """The status, and of each finding its kind, its time, its place and its command."""
        status, lines, notes = self.judged(self.write("log", log), *HOUR, *words)
        self.assertEqual(notes, [])
        rows = [re.fullmatch(r"(\S+(?: \S+)?) +2024-03-01 (\S+)  \S+ +(\S+) +(.*)", line).groups() for line in lines[:-1]]
        return status, [(kind, time, place.replace(self.root, ""), told) for kind, time, place, told in rows]


class Logs(RanTest):
    """What is read of a log."""

    def test_forms(self):
        self.write("var/spool/cron/bob", "0 1 * * * one\n30 1 * * * two\n")
        for form in FORMS:
            log = logged(form, ("01:00:01", "one"), ("01:30:59", "two"))
            self.assertEqual(self.found(log), (0, []), form)
            self.assertEqual(self.found(log.replace("CMD", "END"))[0], 1, form)

    def entry(self, second, message, identifier="CRON"):
        stamp = str(1_000_000 * (timegm((2024, 3, 1, 0, 0, 0)) + second) + 5)
        return json.dumps({"__REALTIME_TIMESTAMP": stamp, "SYSLOG_IDENTIFIER": identifier, "MESSAGE": message})

    def test_a_journal_as_json(self):
        self.write("var/spool/cron/bob", "0 1 * * * one\n30 1 * * * two \u00fc\n")
        two = self.entry(1801, list("(bob) CMD (two \u00fc)".encode()))
        log = [self.entry(1, "(bob) CMD (one)"), "", "{", "[]", two, self.entry(1900, "(bob) CMD (one)", "sshd")]
        self.assertEqual(self.found("\n".join(log)), (0, []))

    def test_names(self):
        self.write("var/spool/cron/bob", "0 1 * * * one\n30 1 * * * two\n")
        log = "2024-03-01T00:00Z spool-bob:1\n2024-03-01T01:31:30+01:00 spool-bob:2@20240301T0030Z\n2024-03-01T00:40Z mail:1\n"
        rows = [("late 1", "01:30", "/var/spool/cron/bob:2", "two"), ("no table", "01:40", "-", "mail:1")]
        self.assertEqual(self.found(log), (1, rows))

    def test_packed_logs_one_behind_another(self):
        self.write("var/spool/cron/bob", "* * * * * one\n")
        times = [f"01:{minute:02}:01" for minute in range(10)]
        old = self.write("old.gz", gzip.compress(logged("3164", *((time, "one") for time in times[:5])).encode()))
        new = self.write("new", logged("3164", *((time, "one") for time in times[5:])))
        status, lines, _ = self.judged(old, new)
        self.assertEqual((status, len(lines)), (0, 1))
        window = "from 2024-03-01T00:01Z until 2024-03-01T00:09Z"
        self.assertRegex(lines[0], f"{window}: 8 due instants of 1 entry, 8 launched in their minute, 0 late, 0 missing; ")

    def test_years(self):
        cron = "host CRON[1]: (bob) CMD (x)"
        lines = ["Dec 31 23:59:30 host x: y", f"Jan  1 00:00:01 {cron}", f"Feb 29 00:00:01 {cron}"]
        clock = Clock(UTC)
        stamps = [event.stamp for event in log_of(lines, clock, None, NOW).events]
        self.assertEqual(stamps, [timegm((2024, 1, 1, 0, 0, 1)), timegm((2024, 2, 29, 0, 0, 1))])
        now = timegm((2024, 2, 1, 0, 0, 0))
        self.assertEqual(log_of(lines, clock, None, now).events[1].stamp, timegm((2020, 2, 29, 0, 0, 1)))
        self.assertEqual(log_of(lines[:2], clock, 1999, now).events[0].stamp, timegm((2000, 1, 1, 0, 0, 1)))

    def test_hours_that_come_twice_or_not(self):
        clock = Clock(read_zone("Here", PARIS))
        twice, never = timegm((2024, 10, 27, 2, 30, 0)), timegm((2024, 3, 31, 2, 30, 0))
        self.assertEqual(clock.seconds_of(twice), [twice - 7200, twice - 3600])
        self.assertEqual(clock.seconds_of(never), [])
        times = ["02:30:01", "02:45:01", "02:15:01", "03:00:01"]
        log = log_of([f"Oct 27 {time} h CRON[1]: (bob) CMD (x)" for time in times], clock, 2024, NOW)
        self.assertEqual([event.stamp - log.first for event in log.events], [0, 900, 2700, 5400])

    def test_stamps(self):
        second = timegm((2024, 3, 1, 1, 2, 3))
        for text in ("2024-03-01T01:02:03Z", "2024-03-01T02:02:03.5+01:00", "2024-03-01 00:32:03,25-0030"):
            self.assertEqual(iso_second(text), second)
        for text in ("2024-03-01T01:02:03", "2024-13-01T01:02:03Z", "today"):
            self.assertIsNone(iso_second(text))


class Commands(RanTest):
    """How cron writes a command."""

    def test_forms_of_commands(self):
        for command, form in (
            ('date "+\\%F" % input', 'date "+%F"'),
            ("a\tb\x7f", "a^Ib^?"),
            ("caf\u00e9 ", "caf\\303\\251"),
            ("a\\\\b", "a\\b"),
            ("a\\nb", "a\\nb"),
            ("  x", "x"),
        ):
            self.assertEqual(forms_of(command)[0], form)
        self.assertEqual(forms_of("\u00e9\\\\"), ["\\303\\251\\", "\u00e9\\", "\\303\\251\\\\", "\u00e9\\\\"])

    def test_a_log_of_debians_cron(self):
        streams = Memory()
        words = ["--root", os.path.join(TESTDATA, "logged"), "--year", "2026", os.path.join(TESTDATA, "debian.syslog")]
        self.assertEqual(run(words, {}, NOW, streams), 0, streams.written)
        kept = "28 launched in their minute, 0 late, 0 missing; 0 twice, 0 not due, 0 of no table"
        self.assertEqual(streams.written.decode().count(kept), 1)

    def test_a_message_that_was_cut(self):
        self.write("var/spool/cron/bob", f"0 1 * * * {'x' * 300}\n")
        log = logged("3164", ("01:00:01", "x" * 200)).replace("x)", "x")
        self.assertEqual(self.found(log), (0, []))


class Verdicts(RanTest):
    """What is found."""

    def test_missing_late_twice_and_not_due(self):
        self.write("etc/crontab", "0 1 * * * bob one\n30 1 * * * bob  two\n40 1 * * * bob three\n50 1 * * * bob four\n")
        times = [("01:32:00", "two"), ("01:40:00", "three"), ("01:40:59", "three"), ("01:45:00", "four"), ("01:50:00", "four")]
        rows = [
            ("missing", "01:00", "/etc/crontab:1", "one"),
            ("late 2", "01:30", "/etc/crontab:2", "two"),
            ("twice", "01:40", "/etc/crontab:3", "three"),
            ("not due", "01:45", "/etc/crontab:4", "four"),
            ("no table", "01:50", "(bob)", "five"),
        ]
        log = logged("3164", *times, ("01:50:01", "five"))
        self.assertEqual(self.found(log), (1, rows))
        self.assertEqual([row[0] for row in self.found(log, "--grace", "2")[1]], ["missing", "twice", "not due", "no table"])

    def test_a_launch_is_late_as_long_as_no_other_is_due(self):
        self.write("var/spool/cron/bob", "0 1 * * * one\n")
        rows = [("late 55", "01:00", "/var/spool/cron/bob:1", "one")]
        self.assertEqual(self.found(logged("3164", ("01:55:01", "one")))[1], rows)

    def test_a_delay_beyond_the_next_minute(self):
        self.write("var/spool/cron/bob", "0-2 1 * * * one\n")
        log = logged("3164", ("01:00:01", "one"), ("01:02:00", "one"), ("01:02:01", "one"))
        self.assertEqual(self.found(log)[1], [("late 1", "01:01", "/var/spool/cron/bob:1", "one")])
        kinds = [row[0] for row in self.found(log, "--late", "0")[1]]
        self.assertEqual(kinds, ["missing", "twice"])

    def test_one_command_in_two_lines(self):
        self.write("var/spool/cron/bob", "0 1 * * * one\n0,30 1 * * * one\n")
        self.assertEqual(self.found(logged("3164", *[("01:00:01", "one")] * 2, ("01:30:01", "one"))), (0, []))
        rows = [("missing", "01:00", "/var/spool/cron/bob:2", "one")]
        self.assertEqual(self.found(logged("3164", ("01:00:01", "one"), ("01:30:01", "one")))[1], rows)

    def test_at_a_start(self):
        self.write("var/spool/cron/bob", "@reboot one\n")
        self.assertEqual(self.found(logged("3164", ("01:10:01", "one"))), (0, []))

    def test_users(self):
        file = self.write("my.crontab", "0 1 * * * one\n")
        log = logged("3164", ("01:00:01", "one")).replace("(bob)", "(eve)")
        self.assertEqual(self.found(log, "--user", file), (0, []))
        self.assertEqual(self.found(log, "--user", f"eve={file}"), (0, []))
        # A launch of another user is none of the tables that are named.
        self.assertEqual([row[0] for row in self.found(log, "--user", f"bob={file}")[1]], ["missing"])

    def test_many_due_instants(self):
        self.write("etc/crontab", "".join(f"* * * * * u{number} x\n" for number in range(5)))
        log = self.write("log", "2024-03-01T00:00:00Z h a: b\n2024-03-01T10:00:00Z h a: b\n")
        status, lines, _ = self.judged(log)
        self.assertEqual((status, len(lines)), (1, 1 + 5 * 600))
        self.assertRegex(lines[-1], "3,000 due instants of 5 entries, 0 launched in their minute, 0 late, 3,000 missing")

    def test_a_day(self):
        self.write("etc/crontab", "0 * * * * bob one\n")
        log = self.write("log", logged("3164", ("01:00:01", "one")))
        for day, first, end, dues in (
            ("2024-03-01", "2024-02-29T23:00Z", "2024-03-01T23:00Z", 24),
            ("2024-03-31", "2024-03-30T23:00Z", "2024-03-31T22:00Z", 23),
            ("yesterday", "2024-05-30T22:00Z", "2024-05-31T22:00Z", 24),
        ):
            lines = self.judged(log, "--day", day)[1]
            self.assertRegex(lines[-1], f"from {first} until {end}: {dues} due instants")
        # A cron that logged nothing is told, too.
        empty = self.write("empty", "")
        self.assertEqual(len(self.judged(empty, "--day", "2024-03-01")[1]), 25)

    def test_json(self):
        self.write("var/spool/cron/bob", "0 1 * * * one\n")
        self.write("etc/anacrontab", "1 5 disks x\n")
        log = logged("3164", ("01:03:02", "one"), ("01:04:00", "(two)"))
        status, lines, _ = self.judged(self.write("log", log), "--json", *HOUR)
        late, none, told = map(json.loads, lines)
        file = self.file("var/spool/cron/bob")
        entry = {"file": file, "line": 1, "job": "spool-bob:1", "user": "bob", "command": "one"}
        stamps = {"due": "2024-03-01T00:00Z", "launched": "2024-03-01T00:03:02Z", "late": 3}
        self.assertEqual((status, late), (1, {"kind": "late", **stamps, **entry}))
        self.assertEqual((none["kind"], none["file"], none["command"]), ("no-table", None, "(two)"))
        self.assertEqual((told["kind"], told["version"], told["late"], told["no-table"], told["entries"]), ("summary", 1, 1, 1, 1))


class Ends(RanTest):
    """What is told of faults."""

    def test_stamps_by_the_clock(self):
        """In Paris the hour is one later in winter."""
        self.write("var/spool/cron/bob", "*/20 * * * * a\n")
        log = self.write("log", logged("short-iso", ("01:00:01", "a"), ("01:20:01", "a")))
        hour = ["--from", "2024-03-01 01:00", "--until", "2024-03-01T02:00"]
        self.assertEqual(self.judged(log, *hour), self.judged(log, *HOUR))
        self.assertEqual(self.judged(log, *hour)[0], 1)

    def test_faults(self):
        log = self.write("log", logged("3164", ("01:00:01", "one")))
        bad = self.write("bad", "no stamp\n")
        for words, note in (
            ([], "ran: which log? --help lists the options"),
            ([bad], "ran: the log has no line with a stamp"),
            ([log], "ran: no whole minute is judged; --from and --until say which are"),
            ([log, "--year", "24"], "ran: --year: `24` is no number from 1971 to 2199"),
            ([log, "--from", "today"], "ran: --from: `today` is no stamp; write it as 2024-03-31, '2024-03-31 02:00' or 2024-03-31T00:00Z"),
            ([log, "--day", "31.3."], f"ran: --day: `31.3.` is no date; {AS}"),
            ([log, "--day", "today", "--from", "x"], "ran: --day says both ends; take it, or --from and --until"),
            ([f"{log}.none"], f"ran: {log}.none: it can't be read: No such file or directory"),
            ([log, "--lines"], "ran: unrecognized arguments: --lines; --help lists the options"),
        ):
            self.assertEqual(self.judged(*words), (2, [], [note]))
        self.write("etc/crontab", "60 1 * * * bob one\n")
        words = [log, *HOUR]
        status, lines, notes = self.judged(*words)
        self.assertEqual((status, lines, notes[0].split(": ")[1]), (2, [], "the minute is 0 to 59, not 60 (cause 3)"))
        self.assertEqual(self.judged(*words, "--skip")[0], 1)

    def test_what_the_manual_shows(self):
        os.chdir(os.path.dirname(HERE))
        self.root = "tools/testdata/machine"
        status, lines, _ = self.judged("--year", "2024", "tools/testdata/machine.syslog")
        self.assertEqual(status, 1)
        with open(os.path.join(DOCUMENTS, "MACHINE.md"), encoding="utf-8") as file:
            self.assertIn("".join(["```output\n", *(f"{line}\n" for line in lines), "```\n"]), file.read())

    def test_help(self):
        status, lines, _ = self.judged("--help")
        self.assertEqual(status, 0)
        with open(os.path.join(DOCUMENTS, "MACHINE.md"), encoding="utf-8") as file:
            manual = file.read()
        part = manual[manual.index("## What ran") : manual.index("## Options")]
        for word in re.findall(r"(?m)^  (--\w+)", "\n".join(lines)):
            if word not in ("--help", "--version", "--cron"):
                self.assertIn(f"`{word}", part)


if __name__ == "__main__":
    unittest.main()
