#!/usr/bin/env python3
"""Tests of tools/run_file: its words, the lines of tables, the limits, and its ends. Tests of its places, users, zones and
notes stand beside this file.

Usage: tools/test_run_file.py [NAME..]
"""
import importlib.machinery
import importlib.util
import os
import re
import subprocess
import tempfile
import unittest
from datetime import datetime
from pathlib import Path
from unittest import mock

from run_file_lib.command import run
from run_file_lib.gather import Gatherer
from run_file_lib.options import OPTIONS
from run_file_lib.tables import JobCount, TableReader, lines_of

HERE = os.path.dirname(os.path.abspath(__file__))
TOOL = os.path.join(HERE, "run_file")
DOCUMENTS = os.path.join(os.path.dirname(HERE), "docs")
NOW = datetime(2024, 3, 30, 17, 45)
LOOP = "Too many levels of symbolic links"
NO_FILE = "No such file or directory"
OWN_RULES = "# the cron is Hevtsora, by --cron"
NOTHING = "run_file: nothing is written, for {}; --skip leaves out what is at fault"


def write_zones():
    """The module tools/testdata/write_zones."""
    file = os.path.join(HERE, "testdata", "write_zones")
    loader = importlib.machinery.SourceFileLoader("write_zones", file)
    module = importlib.util.module_from_spec(importlib.util.spec_from_loader("write_zones", loader))
    loader.exec_module(module)
    return module


ZONES = write_zones()
PARIS = ZONES.zone_bytes(ZONES.RULES["Europe/Paris"])


class Memory:
    """Streams in memory."""

    def __init__(self):
        self.written = b""
        self.notes = []

    def output(self, data):
        self.written += data

    def note(self, text):
        self.notes.append(text)


class RunFileTest(unittest.TestCase):
    """A test with a file system of its own, below the folder `root`."""

    # Whether the file system tells which cron it has.
    tells_cron = False

    def setUp(self):
        room = tempfile.TemporaryDirectory()
        self.addCleanup(room.cleanup)
        self.root = os.path.join(room.name, "root")
        self.write("usr/share/zoneinfo/Europe/Paris", PARIS)

    def file(self, path):
        """Where a path is on this machine."""
        return os.path.join(self.root, path)

    def write(self, path, data):
        """Writes a file, with the folders above it; gives where it is."""
        file = self.file(path)
        os.makedirs(os.path.dirname(file), exist_ok=True)
        with open(file, "wb") as opened:
            opened.write(data if isinstance(data, bytes) else data.encode())
        return file

    def link(self, path, target):
        """Makes a link; gives where it is."""
        os.makedirs(os.path.dirname(self.file(path)), exist_ok=True)
        os.symlink(target, self.file(path))
        return self.file(path)

    def ran(self, *words, environment=None):
        """The status of a run, the lines that it wrote, and its notes."""
        streams = Memory()
        # Most tests are of the program's own rules, whatever their root looks like.
        rules = [] if "--cron" in words or self.tells_cron else ["--cron", "hevtsora"]
        status = run(["--root", self.root, *rules, *words], environment or {}, NOW, streams)
        return status, streams.written.decode().split("\n")[:-1], [note for note in streams.notes if note != OWN_RULES]

    def lines(self, *words):
        """The lines of a run that ends well."""
        status, lines, notes = self.ran(*words)
        self.assertEqual(status, 0, notes)
        return lines

    def faults(self, *words):
        """The notes of a run that ends at a fault, without the comments."""
        status, lines, notes = self.ran(*words)
        self.assertEqual((status, lines), (1, []))
        return [note for note in notes if not note.startswith("# ")]

    def comments(self, *words):
        """The comments of a run that ends well, without the first, which tells the zone."""
        status, _, notes = self.ran(*words)
        self.assertEqual(status, 0, notes)
        return [note[2:] for note in notes if note.startswith("# ")][1:]


class Words(RunFileTest):
    """The options."""

    def head(self, *words):
        return self.lines(*words)[1:4]

    def test_defaults(self):
        day = "window 2024-03-30T00:00Z 2024-03-31T00:00Z"
        self.assertEqual(self.lines(), ["cronrun 1", "replicas 1", day, "grace 0", "script", "end"])

    def test_from(self):
        self.assertEqual(self.head("--from", "2024-02-29T12:30Z")[1], "window 2024-02-29T12:30Z 2024-03-01T12:30Z")
        self.assertEqual(self.head("--from", "2024-02-29T12:30+02:00")[1], "window 2024-02-29T10:30Z 2024-03-01T10:30Z")
        wrong = ["2024-02-30T00:00Z", "2024-2-3T00:00Z", "2024-02-03T24:00Z", "0000-01-01T00:00Z", "2024-02-03Z", "tomorrow"]
        for text in [*wrong, "\u0662024-02-03T00:00Z"]:
            message = f"run_file: --from: `{text}` is no stamp; write it as 2024-03-31, '2024-03-31 02:00' or 2024-03-31T00:00Z"
            self.assertEqual(self.faults("--from", text), [message])

    def test_from_by_the_clock(self):
        """Stamps of the tables' zone, in which days are those of its clock."""
        words = ["--zone", "Europe/Paris", "--from"]
        for text, window in (
            ("2024-03-31", "2024-03-30T23:00Z 2024-03-31T22:00Z"),
            ("2024-10-27", "2024-10-26T22:00Z 2024-10-27T23:00Z"),
            ("2024-03-31 04:00", "2024-03-31T02:00Z 2024-04-01T02:00Z"),
            ("2024-03-30T04:00", "2024-03-30T03:00Z 2024-03-31T02:00Z"),
        ):
            self.assertEqual(self.head(*words, text)[1], f"window {window}")
        self.assertEqual(self.head(*words, "2024-03-31", "--until", "2024-04-01")[1], "window 2024-03-30T23:00Z 2024-03-31T22:00Z")

    def test_times_that_the_clock_skips_or_shows_twice(self):
        words = ["--zone", "Europe/Paris", "--from"]
        skipped = "--from: 2024-03-31 02:10 is skipped in Europe/Paris, whose clock goes from 02:00 to 03:00; "
        skipped += "03:00 is taken, at 2024-03-31T01:00Z"
        twice = "--from: 2024-10-27 02:10 comes twice in Europe/Paris, at 2024-10-27T00:10Z and 2024-10-27T01:10Z; the first is taken"
        for text, first, note in (("2024-03-31 02:10", "2024-03-31T01:00Z", skipped), ("2024-10-27 02:10", "2024-10-27T00:10Z", twice)):
            self.assertEqual(self.head(*words, text)[1][7:24], first)
            self.assertIn(note, self.comments(*words, text))

    def test_years(self):
        for year in ("0001", "1970", "2200", "9999"):
            message = f"run_file: --from: {int(year)} isn't within the years 1971 to 2199"
            for stamp in ("01-01T00:00Z", "01-01", "12-31 23:59"):
                self.assertEqual(self.faults("--from", f"{year}-{stamp}"), [message])
        self.assertEqual(self.head("--from", "2199-12-31T00:00Z")[1], "window 2199-12-31T00:00Z 2200-01-01T00:00Z")
        message = "run_file: the window ends behind 2200-01-01T00:00Z"
        self.assertEqual(self.faults("--from", "2199-12-31T00:01Z"), [message])

    def test_days(self):
        self.assertEqual(self.head("--days", "3")[1], "window 2024-03-30T00:00Z 2024-04-02T00:00Z")
        self.assertEqual(self.head("--days", "400")[1], "window 2024-03-30T00:00Z 2025-05-04T00:00Z")
        for text in ("0", "401", "03", "1.5", "", "a week", "99999999999999999999"):
            self.assertEqual(self.faults("--days", text), [f"run_file: --days: `{text}` is no number from 1 to 400"])

    def test_until(self):
        self.assertEqual(self.head("--until", "2024-03-30T00:01Z")[1], "window 2024-03-30T00:00Z 2024-03-30T00:01Z")
        for text, message in (
            ("2024-03-30T00:00Z", "the window is empty: --until isn't behind --from"),
            ("2025-05-04T00:01Z", "the window is longer than 400 days of 24 hours"),
            ("2200-01-01T00:01Z", "--until: 2200 isn't within the years 1971 to 2199"),
            ("tomorrow", "--until: `tomorrow` is no stamp; write it as 2024-03-31, '2024-03-31 02:00' or 2024-03-31T00:00Z"),
        ):
            self.assertEqual(self.faults("--until", text), [f"run_file: {message}"])
        both = self.faults("--until", "2024-04-01T00:00Z", "--days", "1")
        self.assertEqual(both, ["run_file: --days and --until say the same; take one of them"])

    def test_grace(self):
        self.assertEqual(self.head("--grace", "525600")[2], "grace 525600")
        message = "run_file: --grace: `525601` is no number from 0 to 525600"
        self.assertEqual(self.faults("--grace", "525601"), [message])

    def test_replicas(self):
        self.assertEqual(self.head("--replicas", "1")[0], "replicas 1")
        self.assertEqual(self.head("--replicas", "7")[0], "replicas 7")
        self.assertEqual(self.faults("--replicas", "8"), ["run_file: --replicas: `8` is no number from 1 to 7"])

    def test_script(self):
        file = self.write("duel", "campaign 0\nround 2024-03-30T00:00Z 1")
        self.assertEqual(self.lines("--script", file)[4:], ["script", "campaign 0", "round 2024-03-30T00:00Z 1", "end"])
        self.assertEqual(self.comments("--script", file)[0], f"{file} is the script")
        self.assertEqual(self.lines("--script", self.write("empty", ""))[4:], ["script", "end"])

    def test_script_with_comments(self):
        """They say nothing to the program, and so do empty lines; whatever bytes a comment has."""
        file = self.write("duel", b"# \xff \0\r\ncampaign 0\n\n \t# then\n\r\nround 2024-03-30T00:00Z 1\n#end\n")
        self.assertEqual(self.lines("--script", file)[4:], ["script", "campaign 0", "round 2024-03-30T00:00Z 1", "end"])
        self.assertEqual(self.lines("--script", self.write("none", "# nothing\n"))[4:], ["script", "end"])

    def test_bad_scripts(self):
        return_fault = "the line ends with a carriage return, which would be a part of what it says"
        for data, line, message in (
            (b"# x\n\nheal\nend\n", 4, "the line `end` is written by run_file (cause 30)"),
            (b"heal\r\n", 1, return_fault),
            (b"heal \xff\n", 1, "the line isn't UTF-8 (cause 15)"),
            (b"heal \0\n", 1, "there is a zero byte in the line (cause 15)"),
        ):
            file = self.write("duel", data)
            self.assertEqual(self.faults("--script", file), [f"{file}:{line}: {message}"])
        missing = self.file("missing")
        self.assertEqual(self.faults("--script", missing), [f"{missing}: it can't be read: {NO_FILE}"])

    def test_root(self):
        missing = self.file("missing")
        self.assertEqual(self.faults("--root", missing), [f"run_file: --root: `{missing}` is no folder"])

    def test_zone(self):
        self.write("etc/crontab", "0 8 * * * root echo\n")
        lines = self.lines("--zone", "Europe/Paris")
        self.assertEqual(lines[4:6], [f"zone Europe/Paris tzif {PARIS.hex()}", "system etc-crontab Europe/Paris 1"])
        message = f"--zone: there is no zone Mars/Base: {self.file('usr/share/zoneinfo/Mars/Base')}: {NO_FILE} (cause 21)"
        self.assertEqual(self.faults("--zone", "Mars/Base"), [message])

    def test_zoneinfo(self):
        file = self.write("zones/Base", PARIS)
        lines = self.lines("--zoneinfo", os.path.dirname(file), "--zone", "Base")
        self.assertEqual(lines[4], f"zone Base tzif {PARIS.hex()}")

    def test_tables_by_options(self):
        self.write("etc/crontab", "0 8 * * * root echo this is no table of the run\n")
        files = [self.write(f"home/{name}", text) for name, text in (("mine", "@daily x\n"), ("theirs", "@daily root x\n"))]
        files.append(self.write("home/anacron", "1 5 a x\n"))
        lines = self.lines("--anacron", files[2], "--user", files[0], "--user", files[1], "--system", files[1])
        kinds = [line.split(" ")[0] for line in lines if re.match("crontab|system|anacrontab", line)]
        # The user's table that is the system table too is taken once.
        self.assertEqual(kinds, ["system", "crontab", "anacrontab"])

    def test_skip(self):
        file = self.write("etc/crontab", "-5 8 * * * root echo\n0 8 * * * root echo\n")
        fault = "the entry begins with a `-`, which asks cron for no line in its log; leave the `-` out (cause 1)"
        self.assertEqual(self.faults(), [f"{file}:1: {fault}", NOTHING.format("1 fault")])
        self.assertEqual(self.lines("--skip")[5:7], ["# left out by run_file", "0 8 * * * root echo"])
        self.assertIn(f"{file}:1: left out: {fault}", self.ran("--skip")[2])

    def test_help(self):
        status, lines, notes = self.ran("--help")
        self.assertEqual((status, notes), (0, []))
        for word, _, text, example in OPTIONS:
            self.assertTrue(any(line.startswith(f"  {word} ") and line.endswith(text) for line in lines), word)
            self.assertIn(f"for example: {example}", "\n".join(lines))

    def test_options_of_the_manual(self):
        """The manual's table has each option as the help has it."""
        manual = Path(DOCUMENTS, "MACHINE.md").read_text(encoding="utf-8")
        for word, value, text, example in OPTIONS:
            option = word if value is None else f"{word} {value}"
            self.assertIn(f"\n| `{option}` | {text} | `{example}` |\n", manual)

    def test_other_words(self):
        end = "; --help lists the options"
        for words, message in (
            (["--loud"], "unrecognized arguments: --loud"),
            (["tables"], "unrecognized arguments: tables"),
            (["--day", "1"], "unrecognized arguments: --day 1"),
            (["--days"], "argument --days: expected one argument"),
            (["a\nb\udcff"], "unrecognized arguments: a\\nb\\udcff"),
        ):
            self.assertEqual(self.faults(*words), [f"run_file: {message}{end}"])


class Lines(RunFileTest):
    """The lines of tables."""

    def table(self, *lines):
        """Writes a user's crontab of these lines; gives where it is."""
        return self.write("var/spool/cron/bob", "\n".join([*lines, ""]))

    def test_zones_of_tables(self):
        self.table("CRON_TZ = 'Europe/Paris'", "@daily x", "CRON_TZ=UTC", "@daily x", "CRON_TZ=Europe/Paris")
        zones = [line.split(" ")[1] for line in self.lines() if line.startswith("zone ")]
        self.assertEqual(zones, ["Europe/Paris"])

    def test_zones_that_are_not_there(self):
        self.write("usr/share/zoneinfo/tzdata.zi", "# version 2024a\n")
        folder = self.file("usr/share/zoneinfo")
        os.mkfifo(os.path.join(folder, "pipe"))
        for name, message in (
            ("Mars/Base", f"there is no zone Mars/Base: {folder}/Mars/Base: {NO_FILE} (cause 21)"),
            ("Europe", f"there is no zone Europe: {folder}/Europe: it is no regular file (cause 21)"),
            ("pipe", f"there is no zone pipe: {folder}/pipe: it is no regular file (cause 21)"),
            ("tzdata.zi", "`tzdata.zi` is no zone's name (cause 21)"),
            ("../../etc/passwd", "`../../etc/passwd` is no zone's name (cause 21)"),
            ("/Europe/Paris", "`/Europe/Paris` is no zone's name (cause 21)"),
            ("", "`` is no zone's name (cause 21)"),
            ("Z" * 65, f"`{'Z' * 65}` is no zone's name (cause 21)"),
        ):
            file = self.table("@daily x", f"CRON_TZ={name}", "@daily x")
            self.assertEqual(self.faults(), [f"{file}:2: {message}", NOTHING.format("1 fault")])
        self.write("usr/share/zoneinfo/leap", "# leap seconds\n")
        file = self.table("CRON_TZ=leap")
        message = f"{file}:1: the zone leap can't be taken: {folder}/leap is no TZif file (cause 32)"
        self.assertEqual(self.faults()[0], message)

    def test_entries_below_a_zone_that_is_left_out(self):
        file = self.table("CRON_TZ=Mars", "@daily a", "CRON_TZ=UTC", "@daily b")
        status, lines, notes = self.ran("--skip")
        self.assertEqual((status, lines[5:9]), (0, ["# left out by run_file"] * 2 + ["CRON_TZ=UTC", "@daily b"]))
        self.assertIn(f"{file}:2: left out: it stands below line 1, which can't be taken", notes)

    def test_jobs_below_a_setting_that_is_left_out(self):
        lines = ["RANDOM_DELAY=x", "1 5 a x", "RANDOM_DELAY=0"]
        lines += ["START_HOURS_RANGE=x", "1 5 b x", "START_HOURS_RANGE=3-22", "1 5 c x"]
        file = self.write("etc/anacrontab", "\n".join(lines))
        status, kept, notes = self.ran("--skip")
        left_out = "# left out by run_file"
        expected = [left_out, left_out, lines[2], left_out, left_out, *lines[5:]]
        self.assertEqual((status, kept[5:12]), (0, expected))
        for number in (2, 5):
            self.assertIn(f"{file}:{number}: left out: it stands below line {number - 1}, which can't be taken", notes)

    def test_last_line_without_newline(self):
        self.write("var/spool/cron/bob", "# a\n\n@daily x")
        self.assertEqual(self.lines()[4:8], ["crontab spool-bob UTC 3", "# a", "", "@daily x"])

    def test_empty_table(self):
        self.write("var/spool/cron/bob", "")
        self.write("etc/anacrontab", "")
        self.assertEqual(self.lines()[4:6], ["crontab spool-bob UTC 0", "anacrontab etc-anacrontab UTC 0"])

    def test_anacrontab_lines_that_go_on(self):
        self.write("etc/anacrontab", "1 5 a \\\n x\n0 5 b \\\n y\n# c \\\n0 5\n1 5 c x\\\n")
        lines = self.ran("--skip")[1]
        kept = ["1 5 a \\", " x", "# left out by run_file", "# left out by run_file", "# c \\", "0 5", "1 5 c x\\"]
        self.assertEqual(lines[5:12], kept)

    def manual_rows(self):
        """The rows of the documents about lines of tables: the cause, the table, the line, and what to write."""
        texts = [path.read_text(encoding="utf-8") for path in sorted(Path(DOCUMENTS).glob("*.md"))]
        lines = [line for text in texts for line in text.split("\n") if line.startswith("|")]
        rows = [[cell.strip() for cell in line.strip("|").split("|")] for line in lines]
        rows = [row for row in rows if len(row) == 6 and row[0].isdigit() and row[1] in ("crontab", "system", "anacrontab")]
        for cause, kind, line, _, _, instead in rows:
            text = re.match("`([^`]+)`", line)[1]
            yield int(cause), kind, text[:-1] + "x" * 1001 if "C of 1,001 bytes" in line else text, instead[1:-1]

    def test_lines_of_the_manual(self):
        rows = list(self.manual_rows())
        for cause, kind, line, instead in rows:
            reader, good = (TableReader(kind, None, JobCount()) for _ in range(2))
            reader.read([line])
            self.assertEqual([re.search(r"cause (\d+)", it.text)[1] for it in reader.troubles], [str(cause)], line)
            good.read([instead])
            self.assertEqual(good.troubles, [], instead)
        self.assertEqual({row[0] for row in rows}, set(range(1, 21)) - {15})

    def test_lines_at_their_limits(self):
        """A line at the last value of a limit, which is good, and one beyond, with its cause."""
        for kind, last, beyond, cause in (
            ("crontab", "* * * * * " + "x" * 1000, "* * * * * " + "x" * 1001, 14),
            ("crontab", "* * * * * " + "\u00e9" * 500, "* * * * * " + "\u00e9" * 501, 14),
            ("crontab", "000000059 23 31 12 7 x", "0000000059 23 31 12 7 x", 2),
            ("crontab", "0 0 1 1 0 x", "0 0 0 1 0 x", 3),
            ("crontab", "*/999999999 * * * * x", "*/1000000000 * * * * x", 2),
            ("system", "@daily " + "a" * 32 + " x", "@daily " + "a" * 33 + " x", 12),
            ("anacrontab", "9999 9999 a x", "10000 9999 a x", 16),
            ("anacrontab", "1 0 a x", "1 10000 a x", 17),
            ("anacrontab", "1 5 " + "a" * 64 + " x", "1 5 " + "a" * 65 + " x", 18),
            ("anacrontab", "START_HOURS_RANGE=0-24", "START_HOURS_RANGE=0-25", 19),
            ("anacrontab", "START_HOURS_RANGE=3-4", "START_HOURS_RANGE=4-4", 19),
            ("anacrontab", "RANDOM_DELAY=9999", "RANDOM_DELAY=10000", 20),
        ):
            for line, causes in ((last, []), (beyond, [str(cause)])):
                reader = TableReader(kind, None, JobCount())
                reader.read([line])
                self.assertEqual([re.search(r"cause (\d+)", it.text)[1] for it in reader.troubles], causes, line)

    def test_lines_beside_the_manual(self):
        """Troubles that the manual has no line of."""
        delay = "there is no delay: a job has a period, a delay, an identifier and a command (cause 10)"
        for kind, lines, message in (
            ("crontab", ["*/ * * * * x"], "a step of the minute is missing (cause 1)"),
            ("system", ["0 8 * * * root "], "there is no command (cause 11)"),
            ("anacrontab", ["1"], delay),
            ("anacrontab", ["1 5 a x", "7 5 a x"], "a job above has the identifier `a` (cause 22)"),
        ):
            reader = TableReader(kind, None, JobCount())
            reader.read(lines)
            self.assertEqual([trouble.text for trouble in reader.troubles], [message])

    def test_comments(self):
        file = self.write("var/spool/cron/bob", b"# a carriage return\r\n# \xff\n# \0\n\r\n")
        expected = [(2, "the line isn't UTF-8 (cause 15)"), (3, "there is a zero byte in the line (cause 15)")]
        expected.append((4, "the line ends with a carriage return, which would be a part of what it says"))
        faults = [f"{file}:{line}: {text}" for line, text in expected]
        self.assertEqual(self.faults(), [*faults, NOTHING.format("3 faults")])

    def test_bytes_that_are_no_text(self):
        self.assertEqual(lines_of(b"a\xc3\nb\n"), ["a\udcc3", "b"])
        self.assertEqual(lines_of(b"\xed\xa0\x80"), ["\udced\udca0\udc80"])


class Limits(RunFileTest):
    """The limits of a run, at the last value and one beyond."""

    def test_jobs(self):
        file = self.write("var/spool/cron/bob", "@reboot x\n" * 999)
        other = self.write("etc/anacrontab", "1 5 a x\n")
        self.assertEqual(self.ran()[0], 0)
        self.write("var/spool/cron/bob", "@reboot x\n" * 1001)
        message = "this job is one too many: a run has at most 1,000 (cause 23)"
        expected = [f"{file}:1001: {message}", f"{other}:1: {message}", NOTHING.format("2 faults")]
        self.assertEqual(self.faults(), expected)

    def test_zones(self):
        for number in range(33):
            self.write(f"usr/share/zoneinfo/Zone{number}", PARIS)
        lines = [f"CRON_TZ=Zone{number}" for number in range(33)]
        file = self.write("var/spool/cron/bob", "\n".join(lines[:32] + ["CRON_TZ=UTC", "CRON_TZ=Zone0"]))
        self.assertEqual(sum(line.startswith("zone ") for line in self.lines()), 32)
        self.write("var/spool/cron/bob", "\n".join(lines))
        message = f"{file}:33: the zone Zone32 is one too many: a run has at most 32 (cause 34)"
        self.assertEqual(self.faults()[0], message)

    def test_lines_of_a_table(self):
        file = self.write("var/spool/cron/bob", "#\n" * 65_535)
        self.assertIn("crontab spool-bob UTC 65535", self.lines())
        self.write("var/spool/cron/bob", "#\n" * 65_536)
        message = "it has more than 65,535 lines, the most of a table (cause 29)"
        self.assertEqual(self.faults()[0], f"{file}: {message}")
        self.assertEqual(self.ran("--skip")[2][-1], f"{file}: left out: {message}")

    def test_bytes(self):
        self.write("etc/crontab", "#")
        rest = 1_048_576 - len("\n".join([*self.lines(), ""]))
        self.write("etc/crontab", "#" * (rest + 1))
        self.assertEqual(self.ran()[0], 0)
        self.write("etc/crontab", "#" * (rest + 2))
        message = "run_file: the run file would have 1,048,577 bytes, and the program takes 1,048,576 (cause 33)"
        self.assertEqual(self.faults(), [message])


class Ends(RunFileTest):
    """What the process does where its streams fail, or it is stopped."""

    def process(self, command, **streams):
        """The status and the standard error of a shell's command, in which $0 is the tool and $1 the root."""
        words = ["sh", "-c", command, TOOL, self.root]
        streams.setdefault("stdout", subprocess.PIPE)
        ran = subprocess.run(words, stderr=subprocess.PIPE, check=False, **streams)
        return ran.returncode, ran.stdout, ran.stderr.decode().split("\n")[:-1]

    def test_outputs_that_fail(self):
        for command, reason in (
            ('"$0" --root "$1" > /dev/full', "No space left on device"),
            ('"$0" --help > /dev/full', "No space left on device"),
            ('"$0" --root "$1" >&-', "Bad file descriptor"),
        ):
            status, _, notes = self.process(command)
            self.assertEqual((status, notes[-1]), (1, f"run_file: standard output can't be written: {reason}"))

    def test_closed_pipe(self):
        for command in ('"$0" --root "$1"', '"$0" --help'):
            reading, writing = os.pipe()
            os.close(reading)
            status, _, notes = self.process(command, stdout=writing)
            os.close(writing)
            self.assertEqual((status, notes[-1]), (1, "run_file: standard output can't be written: Broken pipe"))

    def test_notes_that_fail(self):
        for stream in ("2>&-", "2> /dev/full"):
            status, written, _ = self.process(f'"$0" --root "$1" --from 2024-03-30T00:00Z {stream}')
            self.assertEqual((status, written.decode().split("\n")[:-1]), (0, self.lines()))

    def test_standard_input_as_a_table(self):
        reading, writing = os.pipe()
        os.write(writing, b"@daily x\n")
        os.close(writing)
        status, written, _ = self.process('"$0" --root "$1" --user /dev/stdin', stdin=reading)
        os.close(reading)
        self.assertEqual(status, 0)
        self.assertIn(b"\n@daily x\n", written)

    def test_stops(self):
        for fault, message in ((KeyboardInterrupt, "interrupted"), (MemoryError, "out of memory")):
            with mock.patch.object(Gatherer, "tables", side_effect=fault):
                self.assertEqual(self.faults(), [f"run_file: {message}"])


if __name__ == "__main__":
    unittest.main()
