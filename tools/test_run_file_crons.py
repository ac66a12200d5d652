#!/usr/bin/env python3
"""Tests of tools/run_file: what the cron of a machine ignores, and what it takes otherwise than the program.

Usage: tools/test_run_file_crons.py [NAME..]
"""
import os
import re
import unittest
from collections import namedtuple

from run_file_lib.cron_lines import Owner, cronie_fault, debian_fault
from run_file_lib.daemons import CRONIE, DEBIAN, Verdict, cron_of, file_reasons, verdict_of, why_no_name
from run_file_lib.places import Root
from run_file_lib.tables import JobCount, TableReader, lines_of
from test_crontab_n import ANSWERS, cases
from test_run_file import RunFileTest
from test_run_file_list import ProgramTest

PASSWD = "root:x:0:0:root:/root:/bin/sh\nbob:x:1000:1000::/home/bob:/bin/sh\n"
# What is known of a file: its mode, its owner, and how many names it has.
State = namedtuple("State", "st_mode st_uid st_nlink", defaults=[1])
FILE, LINK = 0o100000, 0o120000


class Crons(RunFileTest):
    """Which cron a machine has."""

    def cron(self):
        """The cron of the root."""
        return cron_of(Root(self.root)).name

    def test_release_decides(self):
        self.write("var/spool/cron/crontabs/bob", "")
        for text, cron in (
            ("ID=debian\n", "debian"),
            ('NAME="Ubuntu"\nID=ubuntu\nID_LIKE=debian\n', "debian"),
            ('ID="linuxmint"\nID_LIKE="ubuntu debian"\n', "debian"),
            ("ID=fedora\n", "cronie"),
            ('ID="rocky"\nID_LIKE="rhel centos fedora"\n', "cronie"),
            ('ID="opensuse-leap"\nID_LIKE="suse opensuse"\n', "cronie"),
            ("ID=hevtsora\n", "hevtsora"),
        ):
            self.write("etc/os-release", text)
            self.assertEqual(self.cron(), cron, text)

    def test_cronie_on_debian(self):
        self.write("etc/os-release", "ID=debian\n")
        self.write("usr/sbin/crond", "")
        self.assertEqual(self.cron(), "cronie")
        self.write("usr/sbin/cron", "")
        self.assertEqual(self.cron(), "debian")

    def test_spools(self):
        self.assertEqual(self.cron(), "hevtsora")
        self.write("var/spool/cron/bob", "")
        self.assertEqual(self.cron(), "hevtsora")
        self.write("var/spool/cron/tabs/bob", "")
        self.assertEqual(self.cron(), "cronie")
        self.write("var/spool/cron/crontabs/bob", "")
        self.assertEqual(self.cron(), "debian")
        # An os-release that names no system that is known says nothing.
        self.write("etc/os-release", "ID=plan9\n")
        self.assertEqual(self.cron(), "debian")

    def test_it_is_told(self):
        self.tells_cron = True
        file = self.write("etc/os-release", "ID=debian\n")
        self.assertIn(f"# the cron is Debian's cron, by {file}", self.ran()[2])
        self.assertIn("# the cron is cronie, by --cron", self.ran("--cron", "cronie")[2])
        os.remove(file)
        told = f"# the cron is Hevtsora, by default: neither {file} nor a spool tells another"
        self.assertIn(told, self.ran()[2])

    def test_no_such_cron(self):
        message = "run_file: --cron: `vixie` is none of debian, cronie, hevtsora"
        self.assertEqual(self.faults("--cron", "vixie"), [message])


class Ignored(ProgramTest):
    """What Debian's cron and cronie ignore, as --check and --list tell it."""

    def setUp(self):
        super().setUp()
        self.write("etc/passwd", PASSWD)

    def told(self, cron, path, text):
        """What a check tells of one table, without the file, and what stands in the run file of it."""
        file = self.write(path, text)
        self.program("cron check 1\nfaults 0\nend\n")
        status, lines, _ = self.answered("--cron", cron, "--check")
        self.assertEqual(status, 1 if lines[:-1] else 0)
        kept = self.lines("--cron", cron)[4:-2]
        os.remove(file)
        return [line[len(file) + 1 :] for line in lines[:-1]], kept[1:]

    # The rows of the note: a table, what Debian's cron says of it, and what cronie says.
    CASES = [
        ("* * * * * root x", [" {} file: its last line has no newline"], ["1: {} line: missing newline before EOF"]),
        (
            "* * * * * root x\n* * * * * no y\n",
            ["2: {} file: bad username: no user has that name"],
            ["2: {} line: getpwnam() failed - user unknown"],
        ),
        ("MAILTO=\n* * * * * root x\n", ['1: {} file: bad minute: a variable without a value; write `NAME=""`'], []),
        ('A="b c" d\n* * * * * root x\n', *[["1: {} WHAT: bad minute: the quotes don't stand round the whole value"]] * 2),
        ("A='b\n* * * * * root x\n", *[["1: {} WHAT: bad minute: the quotes don't stand round the whole value"]] * 2),
        ("* * * * * root " + "x" * 999 + "\n", ["1: {} file: command too long: it has 999 bytes or more"], []),
        ("? * * * * root x\n", *[["1: {} WHAT: bad minute: no cron takes a `?`"]] * 2),
        ("-*/15 * * * * root x\n", ["1: {} file: bad minute: cronie alone takes a `-` before an entry"], []),
        ("#\n" * 10_003 + "* * * * * root x\n", [" {} file: it has more than 10,003 lines"], []),
    ]

    def test_system_tables(self):
        for text, *expected in self.CASES:
            for cron, name, what, lines in ((DEBIAN, "Debian's cron", "file", expected[0]), (CRONIE, "cronie", "line", expected[1])):
                with self.subTest(cron=cron, text=text[:40]):
                    told, kept = self.told(cron, "etc/cron.d/a", text)
                    ignores = [line.replace("WHAT", what).format(f"{name} ignores this") for line in lines]
                    self.assertEqual(told, ignores)
                    self.assertEqual(bool(kept), cron == CRONIE or not lines)

    def test_six_fields(self):
        for cron, name, what in ((DEBIAN, "Debian's cron", "file"), (CRONIE, "cronie", "line")):
            told, _ = self.told(cron, "var/spool/cron/crontabs/bob", "0 0 5 * * * x\n")
            self.assertEqual(told[0][: len(f"1: {name} ignores this {what}: bad command")], f"1: {name} ignores this {what}: bad command")

    def test_lines_that_cronie_ignores(self):
        """The others of the table are taken."""
        told, kept = self.told(CRONIE, "etc/cron.d/a", "* * * * * root x\n5#1 * * * * root y\n* * * * * root z\n")
        self.assertEqual(told, ["2: cronie ignores this line: bad minute"])
        self.assertEqual(kept, ["* * * * * root x", "# left out by run_file", "* * * * * root z"])

    def test_a_line_without_its_minus(self):
        """As openSUSE's /etc/crontab has one. Columns are those of the table."""
        self.write("etc/crontab", "-*/15 * * * * root x\n -60 * * * * root y\n")
        self.program("cron check 1\nline 7 cause 3 at 1\nfaults 1\nend\n")
        _, lines, _ = self.answered("--cron", "cronie", "--check")
        fault = f"{self.file('etc/crontab')}:2:3: the minute is 0 to 59, not 60 (cause 3); cronie ignores this line: bad minute"
        self.assertEqual(lines, [fault, "1 fault"])
        self.assertEqual(self.kept("run").split("\n")[5:7], ["*/15 * * * * root x", " 60 * * * * root y"])

    def test_minus_of_a_user(self):
        """Only root may ask for no line in the log."""
        for user, told in (("bob", ["1: cronie ignores this line: bad option"]), ("root", [])):
            self.assertEqual(self.told(CRONIE, f"var/spool/cron/{user}", "-* * * * * x\n")[0], told)

    def test_zone_that_is_a_plain_variable(self):
        self.write("etc/cron.d/a", "CRON_TZ=Mars/Base\n* * * * * root x\n")
        expected = ["system cron-d-a UTC 2", "# CRON_TZ is a plain variable here", "* * * * * root x"]
        self.assertEqual(self.lines("--cron", "debian")[4:7], expected)
        note = f"{self.file('etc/cron.d/a')} has CRON_TZ in 1 line (1), a plain variable to Debian's cron"
        self.assertIn(note, self.comments("--cron", "debian"))
        self.assertIn("there is no zone Mars/Base", self.faults("--cron", "cronie")[0])

    def test_users_who_are_not_known(self):
        file = self.write("var/spool/cron/crontabs/carol", "@daily x\n")
        for cron, name in ((DEBIAN, "Debian's cron"), (CRONIE, "cronie")):
            reason = f"{file}: {name} ignores this file: carol isn't in {self.file('etc/passwd')}"
            self.assertIn(reason, self.comments("--cron", cron))
            self.program("cron check 1\nfaults 0\nend\n")
            self.assertEqual(self.answered("--cron", cron, "--check")[:2], (1, [reason, "1 fault"]))

    def test_spools_of_debian(self):
        file = self.write("var/spool/cron/bob", "@daily x\n")
        self.assertIn(f"{file} is passed over: Debian's cron reads /var/spool/cron/crontabs alone", self.comments("--cron", "debian"))

    def test_several_reasons(self):
        file = self.write("etc/cron.d/a", "60 * * * * root x\nMAILTO=\n* * * * * root x")
        told = f"{file}: Debian's cron ignores this file: its last line has no newline; and for 2 more faults"
        self.assertIn(told, self.comments("--cron", "debian"))

    def test_modes_below_a_root(self):
        file = self.write("etc/cron.d/a", "* * * * * root x\n")
        os.chmod(file, 0o664)
        self.assertEqual(self.lines("--cron", "debian")[5], "* * * * * root x")
        told = [note for note in self.comments("--cron", "debian", "--modes") if "ignores" in note]
        self.assertEqual(len(told), 1)
        self.assertIn(f"{file}: Debian's cron ignores this file: its mode is 664, and root alone may write it", told[0])


class Files(unittest.TestCase):
    """What a cron ignores a file for."""

    def test_files(self):
        owner = "it belongs to the user of number 7"
        for cron, is_system, mode, more, told in (
            (DEBIAN, True, 0o644, {}, []),
            (DEBIAN, True, 0o755, {}, []),
            (DEBIAN, True, 0o664, {}, ["its mode is 664, and root alone may write it"]),
            (DEBIAN, True, 0o644, {"st_uid": 7}, [owner]),
            (DEBIAN, True, 0o644, {"st_nlink": 2}, ["it has 2 names"]),
            (DEBIAN, False, 0o600, {"st_uid": 1000}, []),
            (DEBIAN, False, 0o644, {}, ["its mode is 644 in place of 600"]),
            (DEBIAN, False, 0o600, {"st_uid": 7}, [owner]),
            (CRONIE, True, 0o644, {"st_nlink": 2}, []),
            (CRONIE, True, 0o664, {}, ["its mode is 664, and the owner has to read it, nobody to execute it, and no other to write it"]),
            (CRONIE, True, 0o755, {}, ["its mode is 755, and the owner has to read it, nobody to execute it, and no other to write it"]),
            (CRONIE, True, 0o644, {"st_uid": 1000}, ["it belongs to the user of number 1000"]),
            (CRONIE, False, 0o600, {"st_nlink": 2, "st_uid": 1000}, ["it has 2 names"]),
        ):
            state = State(FILE | mode, 0)._replace(**more)
            self.assertEqual(list(file_reasons(cron, state, state, 1000, is_system)), told, (cron, is_system, mode, more))

    def test_links(self):
        state, link = State(FILE | 0o644, 0), State(LINK | 0o777, 0)
        self.assertEqual(list(file_reasons(DEBIAN, state, link, None, True)), [])
        told = list(file_reasons(DEBIAN, state, link._replace(st_uid=7), None, True))
        self.assertEqual(told, ["it is a link that doesn't belong to root"])
        state = state._replace(st_mode=FILE | 0o600)
        self.assertEqual(list(file_reasons(DEBIAN, state, link, 1000, False)), ["it is a link"])

    def test_names(self):
        for name, debian, cronie in (
            ("php", True, True),
            ("with.dot", False, True),
            (".placeholder", False, False),
            ("a~", False, False),
            ("#a#", False, False),
            ("a.rpmsave", False, False),
            ("a.rpmnew", False, False),
            ("a.dpkg-old", False, True),
        ):
            self.assertEqual([why_no_name(cron, name) is None for cron in (DEBIAN, CRONIE)], [debian, cronie], name)


class Lines(unittest.TestCase):
    """Lines by the rules of cronie's source, and where Debian's cron has another rule."""

    def test_lines(self):
        owner = Owner(False, lambda name: None)
        for line, debian, cronie in (
            ("* * * * * x", None, None),
            ("5#2 * * * * x", None, "bad minute"),
            ("5-64/30 * * * * x", "bad minute", None),
            ("~ * * * * x", "bad minute", None),
            ("0~30 * * * * x", None, None),
            ("30~0 * * * * x", None, "bad minute"),
            ("6-0 * * * * x", None, None),
            ("0 5 * * *", None, "bad command"),
            ("@daily", None, "bad command"),
            ("@midday x", "bad time specifier", "bad time specifier"),
            ("* * * * * -n x", None, None),
            ("* * * * * -n -n x", None, "bad option"),
            ("* * * * * -x", None, "bad option"),
            ("A= ", "bad minute", None),
            ("1,2, * * * * x", "bad minute", "bad minute"),
            ("0 0 * jan,13 * x", "bad month", "bad month"),
            ("* * * * 8 x", "bad day-of-week", "bad day-of-week"),
        ):
            data = line.encode()
            self.assertEqual((debian_fault(data, owner), cronie_fault(data, owner)), (debian, cronie), line)

    def test_comments_before_an_entry(self):
        data = b"# " + b"x" * 32_800 + b"\n* * * * * x\n"
        self.assertEqual([line for line, _ in verdict_of(CRONIE, data, Owner(False, None), True).reasons], [1])
        self.assertEqual(verdict_of(CRONIE, data, Owner(True, lambda name: None), True).reasons, [])
        self.assertEqual(verdict_of("hevtsora", data, Owner(False, None), True), Verdict())

    def test_what_debian_takes_and_the_program_refuses(self):
        """The differences are those that docs/TABLES.md tells."""
        with open(ANSWERS, encoding="utf-8") as file:
            answers = file.read().split("\n")
        found = set()
        for data, answer in zip(cases(), answers):
            reader = TableReader("crontab", None, JobCount())
            lines = [line for line in lines_of(data) if not line.startswith("CRON_TZ")]
            if answer == "successfully checked" and len(lines) < 100:
                reader.read(lines)
                found.update(re.search(r"\(cause (\d+)\)", trouble.text)[1] for trouble in reader.troubles)
        self.assertEqual(found, {"1", "2", "5", "8", "9", "11", "13"})


if __name__ == "__main__":
    unittest.main()
