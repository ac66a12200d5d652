#!/usr/bin/env python3
"""Tests of tools/run_file: the tables of users, in a spool and by --user.

Usage: tools/test_run_file_users.py [NAME..]
"""
import unittest

from run_file_lib.users import split_user
from test_run_file import NO_FILE, NOTHING, RunFileTest

PASSWD = "root:x:0:0:root:/root:/bin/sh\nbob:x:1:1::/home/bob:/bin/sh\ntmp.smith:x:2:2::/:/bin/sh\n"


class Spools(RunFileTest):
    """The tables in the spools."""

    def orphan(self, path, name):
        """What is told of the table of a user whom nobody knows."""
        return f"{path} is a table of {name}, who isn't in {self.file('etc/passwd')}: cron runs no table without its user"

    def test_users_who_are_not_in_passwd(self):
        for name in ("bob", "carol"):
            self.write(f"var/spool/cron/crontabs/{name}", "@daily x\n")
        carol = self.file("var/spool/cron/crontabs/carol")
        taken = [f"{self.file('var/spool/cron/crontabs')}/{name} is crontabs-{name}, 1 job" for name in ("bob", "carol")]
        # Without a passwd nothing is told.
        self.assertEqual(self.comments(), taken)
        self.write("etc/passwd", PASSWD)
        self.assertEqual(self.comments(), [taken[0], self.orphan(carol, "carol"), taken[1]])

    def test_names_that_are_no_users(self):
        self.write("etc/passwd", PASSWD)
        copy, temporary = "it is an editor's copy", "it is a temporary file of crontab(1)"
        for name, reason in (("#root#", copy), ("root~", copy), ("tmp.4711", temporary), ("tmp.aB3dE9", temporary)):
            path = f"var/spool/cron/crontabs/{name}"
            self.write(path, "no table\n")
            self.assertIn(f"{self.file(path)} is passed over: {reason}, and no user's table", self.comments())
        self.assertEqual(len(self.comments()), 5)

    def test_user_with_the_name_of_a_temporary_file(self):
        self.write("etc/passwd", PASSWD)
        file = self.write("var/spool/cron/crontabs/tmp.smith", "@daily x\n")
        told = self.comments()
        self.assertTrue(len(told) == 1 and told[0].startswith(f"{file} is crontabs-tmp-smith-"), told)

    def test_links_to_null(self):
        paths = ["etc/crontab", "etc/cron.d/masked", "var/spool/cron/crontabs/bob", "etc/anacrontab"]
        for path in paths:
            self.link(path, "/dev/null")
        self.link("etc/cron.d/masked-too", "masked")
        expected = [f"{self.file(path)} is passed over: it is a link to /dev/null, which has no jobs" for path in paths]
        expected.insert(2, expected[1].replace("masked", "masked-too"))
        self.assertEqual(self.comments(), [*expected, "there is no table"])


class Options(RunFileTest):
    """The tables of --user."""

    HASHED = "? ? * * * backup\n"

    def section(self, *words):
        """The lines of the one section of a run."""
        lines = self.lines(*words)
        return lines[4 : lines.index("script")]

    def test_table_of_a_user_is_as_in_the_spool(self):
        """One table has one answer by the spool and by --user."""
        for spool, label in (("crontabs", "crontabs-bob"), ("tabs", "tabs-bob"), ("", "spool-bob")):
            with self.subTest(spool):
                self.setUp()
                path = f"var/spool/cron/{spool}/bob".replace("//", "/")
                file = self.write("home/bob/my.crontab", self.HASHED)
                self.write(path, self.HASHED)
                installed = self.section()
                self.assertEqual(installed[0], f"crontab {label} UTC 1")
                self.assertEqual(self.section("--user", f"bob={file}"), installed)

    def test_spool_of_a_user_without_a_table(self):
        file = self.write("home/my.crontab", self.HASHED)
        # No spool is there; then that of Red Hat, that of SUSE in it, and that of Debian in it.
        for other, label in (
            (None, "crontabs-bob"),
            ("var/spool/cron/al", "spool-bob"),
            ("var/spool/cron/tabs/al", "tabs-bob"),
            ("var/spool/cron/crontabs/al", "crontabs-bob"),
        ):
            if other:
                self.write(other, "")
            self.assertEqual(self.section("--user", f"bob={file}")[0], f"crontab {label} UTC 1")

    def test_user_who_is_not_in_passwd(self):
        self.write("etc/passwd", PASSWD)
        file = self.write("home/my.crontab", self.HASHED)
        self.assertEqual(self.comments("--user", f"bob={file}"), [f"{file} is crontabs-bob, 1 job"])
        told = f"{file} is a table of carol, who isn't in {self.file('etc/passwd')}: cron runs no table without its user"
        self.assertEqual(self.comments("--user", f"carol={file}"), [told, f"{file} is crontabs-carol, 1 job"])

    def test_names_and_files(self):
        for text, pair in (
            ("bob=my.crontab", ("bob", "my.crontab")),
            ("David.Smith=/dev/stdin", ("David.Smith", "/dev/stdin")),
            ("bob=a=b", ("bob", "a=b")),
            ("bob=", ("bob", "")),
            ("my.crontab", (None, "my.crontab")),
            ("./bob=my.crontab", (None, "./bob=my.crontab")),
            ("=my.crontab", (None, "=my.crontab")),
        ):
            self.assertEqual(split_user(text), pair)

    def test_two_users_and_one_twice(self):
        files = [self.write(f"home/{name}", "@daily x\n") for name in ("one", "two")]
        labels = [line.split(" is ")[1] for line in self.comments("--user", f"al={files[0]}", "--user", f"bob={files[1]}")]
        self.assertEqual(labels, ["crontabs-al, 1 job", "crontabs-bob, 1 job"])
        message = "run_file: --user: `al` is named twice"
        self.assertEqual(self.faults("--user", f"al={files[0]}", "--user", f"al={files[1]}"), [message])

    def test_named_file_that_is_not_there(self):
        missing = self.file("missing")
        expected = [f"{missing}: it can't be read: {NO_FILE}", NOTHING.format("1 fault")]
        self.assertEqual(self.faults("--user", f"bob={missing}"), expected)

    def test_values_that_the_label_picks(self):
        file = self.write("home/mine", "? * * * * a\n@daily ? b\n0 ? * * * c\n0 0 ? * ? d\n0 0 * * * ? e\n")
        where = "3 lines (1, 3 to 4), whose value is picked by the label"
        told = f"{file} has a `?` in {where}: --user NAME={file} gives the label that it has as the crontab of NAME"
        self.assertEqual(self.comments("--user", file)[1:], [told])
        self.assertEqual(len(self.comments("--user", f"bob={file}")), 1)
        # In a system table the user of the entry picks the value, and in an anacrontab the identifier.
        file = self.write("home/all", "? ? * * * root x\n")
        self.assertEqual(len(self.comments("--system", file)), 1)
        self.assertEqual(len(self.comments("--anacron", self.write("home/anacron", "1 5 a ? x\n"))), 1)

    def test_no_such_note_of_a_table_of_the_root(self):
        self.write("var/spool/cron/bob", self.HASHED)
        self.assertEqual(len(self.comments()), 1)


if __name__ == "__main__":
    unittest.main()
