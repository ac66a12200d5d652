#!/usr/bin/env python3
"""Tests of tools/run_file: which tables it takes, and their labels.

Usage: tools/test_run_file_places.py [NAME..]
"""
import os
import re
import subprocess
import unittest
from unittest import mock

from run_file_lib import labels
from run_file_lib.faults import Stop
from test_run_file import LOOP, NO_FILE, NOTHING, TOOL, RunFileTest


class Places(RunFileTest):
    """The tables of a root."""

    def test_order_and_labels(self):
        for path in ("etc/crontab", "etc/cron.d/b", "etc/cron.d/a_1", "etc/cron.d/-"):
            self.write(path, "@daily root x\n")
        for path in ("var/spool/cron/crontabs/bob", "var/spool/cron/tabs/bob", "var/spool/cron/bob"):
            self.write(path, "@daily x\n")
        self.write("etc/anacrontab", "1 5 a x\n2 5 b x\n")
        told = [comment.split(" is ")[1] for comment in self.comments()]
        names = "etc-crontab cron-d-- cron-d-a_1 cron-d-b crontabs-bob tabs-bob spool-bob".split()
        self.assertEqual(told, [f"{name}, 1 job" for name in names] + ["etc-anacrontab, 2 jobs"])
        sections = [line for line in self.lines() if re.fullmatch(r"(system|crontab|anacrontab) \S+ UTC \d", line)]
        self.assertEqual([line.split(" ")[1] for line in sections], [*names, "etc-anacrontab"])

    def test_what_is_passed_over(self):
        for path in ("etc/cron.d/a.dpkg-old", "etc/cron.d/a~", "etc/cron.d/folder/a"):
            self.write(path, "@daily root x\n")
        for path in ("var/spool/cron/.bob.swp", "var/spool/cron/lastrun/a"):
            self.write(path, "@daily x\n")
        by_name = "is passed over: cron takes names of letters, digits, `_` and `-`"
        expected = [
            f"{self.file('etc/cron.d/a.dpkg-old')} {by_name}",
            f"{self.file('etc/cron.d/a~')} {by_name}",
            f"{self.file('etc/cron.d/folder')} is passed over: it is a folder",
            f"{self.file('var/spool/cron/.bob.swp')} is passed over: cron takes no name that begins with a dot",
            f"{self.file('var/spool/cron/lastrun')} is passed over: it is a folder",
            "there is no table",
        ]
        self.assertEqual(self.comments(), expected)

    def test_unreadable_tables(self):
        files = [self.link(path, "loop") for path in ("etc/cron.d/loop", "etc/anacrontab")]
        self.link("etc/loop", "loop")
        faults = [f"{file}: it can't be read: {LOOP}" for file in files]
        self.assertEqual(self.faults(), [*faults, NOTHING.format("2 faults")])
        skipped = [note for note in self.ran("--skip")[2] if not note.startswith("# ")]
        self.assertEqual(skipped, [f"{file}: left out: it can't be read: {LOOP}" for file in files])

    def test_unreadable_folder(self):
        file = self.link("etc/cron.d", "cron.d")
        self.assertEqual(self.faults()[0], f"{file}: it can't be read: {LOOP}")

    def test_unreadable_crontabs_of_users(self):
        self.link("var/spool/cron/crontabs", "crontabs")
        self.link("var/spool/cron/bob", "bob")
        told = [f"{self.file(path)} can't be read: {LOOP}" for path in ("var/spool/cron/crontabs", "var/spool/cron/bob")]
        self.assertEqual(self.comments(), [*told, "there is no table"])

    def test_tables_that_are_no_files(self):
        os.makedirs(self.file("etc/crontab"))
        os.mkfifo(self.file("etc/anacrontab"))
        faults = [f"{self.file(path)}: it can't be read: it is no regular file" for path in ("etc/crontab", "etc/anacrontab")]
        self.assertEqual(self.faults()[:2], faults)

    def test_long_file(self):
        file = self.write("etc/crontab", "#" * 1_048_577)
        self.assertEqual(self.faults()[0], f"{file}: it can't be read: it has more than 1,048,576 bytes")

    def test_links_stay_below_the_root(self):
        self.write("srv/tables/all", "@daily root x\n")
        self.link("etc/crontab", "/srv/link/../tables/all")
        self.link("srv/link", "./other")
        os.mkdir(self.file("srv/other"))
        self.link("etc/cron.d/up", "../../../../../../../../../../srv/tables/all")
        told = f"{self.file('etc/cron.d/up')} is passed over: it is {self.file('etc/crontab')} again"
        self.assertEqual(self.comments(), [f"{self.file('etc/crontab')} is etc-crontab, 1 job", told])

    def test_link_that_leads_nowhere(self):
        file = self.link("etc/crontab", "/srv/missing")
        self.assertEqual(self.faults()[0], f"{file}: it can't be read: {NO_FILE}")

    def test_named_file_that_is_not_there(self):
        missing = self.file("missing")
        for word in ("--user", "--system", "--anacron"):
            self.assertEqual(self.faults(word, missing)[0], f"{missing}: it can't be read: {NO_FILE}")

    def test_names_that_are_no_text(self):
        self.write(os.fsdecode(b"var/spool/cron/a\xff\n"), "-5 * * * * x\n")
        fault = self.faults()[0]
        self.assertTrue(fault.startswith(self.file("var/spool/cron/a\\udcff\\n:1: the entry")), fault)


class Locales(RunFileTest):
    """What doesn't depend on the locale."""

    def test_labels(self):
        self.write(os.fsdecode("var/spool/cron/Zo\u00eb".encode()), "@daily x\n")
        self.write(os.fsdecode(b"var/spool/cron/Zo\xeb"), "@daily x\n")
        runs = []
        for locale, is_utf_8 in (("C.UTF-8", "1"), ("C.UTF-8", "0"), ("C", "0"), ("POSIX", "1")):
            environment = {**os.environ, "LC_ALL": locale, "PYTHONUTF8": is_utf_8, "PYTHONCOERCECLOCALE": "0"}
            words = [TOOL, "--root", self.root, "--from", "2024-03-30T00:00Z"]
            done = subprocess.run(words, stdout=subprocess.PIPE, stderr=subprocess.PIPE, env=environment, check=True)
            runs.append(done.stdout)
        labels_of_runs = [re.findall(rb"crontab (\S+) UTC", run) for run in runs]
        self.assertEqual([len(found) for found in labels_of_runs], [2] * 4)
        self.assertEqual(len({tuple(found) for found in labels_of_runs}), 1, labels_of_runs)


class Labels(unittest.TestCase):
    """The labels of tables."""

    def test_usual_places(self):
        for path, label in (
            ("/etc/crontab", "etc-crontab"),
            ("/etc/cron.d/php", "cron-d-php"),
            ("/var/spool/cron/crontabs/alice", "crontabs-alice"),
            ("/var/spool/cron/tabs/alice", "tabs-alice"),
            ("/var/spool/cron/d-php", "spool-d-php"),
            ("/etc/cron.d/" + "a" * 25, "cron-d-" + "a" * 25),
        ):
            self.assertEqual(labels.label_of(path, set()), label)

    def test_other_names(self):
        paths = ["/etc/cron.d/PHP", "/etc/cron.d/" + "a" * 26, "/etc/cron.d/" + "a" * 27, "/var/spool/cron/a.b"]
        paths += ["/var/spool/cron/A.B", "my.crontab", "./my.crontab", "/", "", "-", "é", "/home/1/2", "/srv/\udcff"]
        made = [labels.label_of(path, set()) for path in paths]
        for label in made:
            self.assertTrue(labels.LABEL.fullmatch(label), label)
        self.assertEqual(len(set(made)), len(paths))
        self.assertEqual(made[0], "cron-d-php-" + made[0][-8:])
        self.assertEqual(made, [labels.label_of(path, {"another"}) for path in paths])

    def test_taken_labels(self):
        first = labels.label_of("/etc/cron.d/php", {"cron-d-php"})
        second = labels.label_of("/etc/cron.d/php", {"cron-d-php", first})
        self.assertEqual(first[:11], "cron-d-php-")
        self.assertNotEqual(first, second)
        with self.assertRaises(Stop) as stopped:
            labels.label_of("/a", mock.MagicMock(__contains__=lambda taken, label: True))
        self.assertEqual(str(stopped.exception), "/a: there is no label left for this table")


if __name__ == "__main__":
    unittest.main()
