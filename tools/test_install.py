#!/usr/bin/env python3
"""Tests of tools/install: what it puts where, in an empty folder; that each tool runs there without the repository; and that nothing
is left once it is removed.

Usage: tools/test_install.py [NAME..]
"""
import io
import os
import re
import stat
import subprocess
import sys
import tempfile
import unittest
from contextlib import redirect_stderr
from unittest import mock

from install_lib.command import parser, run
from install_lib.contents import LIBRARY, MANIFEST, TOOLS
from install_lib.pages import man_pages

HERE = os.path.dirname(os.path.abspath(__file__))
NAME = "etc-crontab:1@20240330T0100Z"
# Stands in for the program: one job is due once.
STAND_IN = f"""#!/bin/sh
cat > /dev/null
printf 'cron due 1\\njob etc-crontab:1 version 0 count 1\\ndue {NAME} 2024-03-30T01:00\\nend\\n'
"""


def text_of(path):
    with open(path, encoding="utf-8") as file:
        return file.read()


def write(path, text, mode=0o644):
    os.makedirs(os.path.dirname(path), exist_ok=True)
    with open(path, "w", encoding="utf-8") as file:
        file.write(text)
    os.chmod(path, mode)
    return path


def found_below(folder):
    """What is below a folder: of each file its mode and its bytes, and of each link where it leads."""
    found = {}
    for above, folders, names in os.walk(folder):
        for name in [*folders, *names]:
            path = os.path.join(above, name)
            mode = stat.S_IMODE(os.lstat(path).st_mode)
            content = os.readlink(path) if os.path.islink(path) else None
            if content is None and os.path.isfile(path):
                with open(path, "rb") as file:
                    content = file.read()
            found[os.path.relpath(path, folder)] = None if os.path.islink(path) else mode, content
    return found


class Install(unittest.TestCase):
    """What is installed, in a folder that has nothing but a stand-in for the program."""

    def setUp(self):
        room = tempfile.TemporaryDirectory()
        self.addCleanup(room.cleanup)
        self.room = room.name
        self.program = write(self.at("built/program"), STAND_IN, 0o755)
        self.root = self.at("root")
        os.mkdir(self.root)
        self.prefix = self.at("root/usr")

    def at(self, path):
        return os.path.join(self.room, path)

    def installed(self, *words, environment=None, status=0):
        """What a call of the tool tells on standard error. It has this status."""
        notes = io.StringIO()
        with redirect_stderr(notes):
            try:
                got = run(list(words), environment or {})
            except SystemExit as end:
                got = end.code
        self.assertEqual(got, status, notes.getvalue())
        return notes.getvalue()

    def install(self):
        self.assertEqual(self.installed("--program", self.program, self.prefix), "")

    def called(self, *words, text=""):
        """The status, the output and the notes of a program on the path, away from the repository."""
        folder = self.at("elsewhere")
        os.makedirs(folder, exist_ok=True)
        path = os.pathsep.join([os.path.join(self.prefix, "bin"), os.path.dirname(sys.executable), "/usr/bin", "/bin"])
        environment = {"PATH": path, "HOME": folder, "LC_ALL": "C.UTF-8"}
        done = subprocess.run(words, cwd=folder, env=environment, input=text, capture_output=True, text=True, check=False)
        self.assertEqual(os.listdir(folder), [])
        return done.returncode, done.stdout, done.stderr

    def test_files_and_modes(self):
        before = os.umask(0o077)
        self.addCleanup(os.umask, before)
        self.install()
        found = found_below(self.root)
        for path in found:
            self.assertTrue(path == "usr" or path.startswith(("usr/bin", "usr/lib", "usr/share")), path)
        runs = {path for path, (mode, content) in found.items() if mode == 0o755 and content is not None}
        self.assertEqual(runs, {"usr/bin/cron_cluster", *(f"usr/{LIBRARY}/{tool}" for tool in TOOLS)})
        for path, (mode, content) in found.items():
            if mode is not None and path not in runs:
                self.assertEqual(mode, 0o755 if content is None else 0o644, path)
        self.assertEqual(sorted(os.listdir(os.path.join(self.prefix, "bin"))), sorted([*TOOLS, "cron_cluster"]))
        for name, text in man_pages().items():
            self.assertEqual(found[f"usr/share/man/man{name[-1]}/{name}"][1].decode(), text)
        listed = text_of(os.path.join(self.prefix, MANIFEST)).splitlines()
        self.assertEqual({os.path.normpath(f"usr/{it}") for it in listed}, set(found))

    def test_each_tool_runs_there(self):
        self.install()
        write(os.path.join(self.prefix, LIBRARY, "VERSION"), "9.8.7\n")
        for tool in TOOLS:
            self.assertEqual(self.called(tool, "--version"), (0, f"{tool} (Hevtsora) 9.8.7\n", ""))
        self.assertIn("\n  run_file --list --days 7\n", self.called("run_file", "--help")[1])
        machine = self.at("machine")
        write(os.path.join(machine, "etc/crontab"), "0 1 * * * root echo hi\n")
        words = ["--root", machine, "--zone", "UTC", "--cron", "hevtsora"]
        status, output, _ = self.called("run_file", *words, "--list", "--from", "2024-03-30")
        self.assertEqual((status, output), (0, f"Sat 2024-03-30 01:00  -                  {machine}/etc/crontab:1  root  echo hi\n"))
        log = write(self.at("log"), "2024-03-30T01:00:01+00:00 host CRON[7]: (root) CMD (echo hi)\n")
        hour = ["--from", "2024-03-30T00:00Z", "--until", "2024-03-30T02:00Z"]
        status, output, _ = self.called("ran", *words, *hour, log)
        self.assertEqual((status, "1 launched in their minute" in output), (0, True), output)
        example = os.path.join(self.prefix, "share/doc/hevtsora/examples/takeover")
        self.assertEqual(self.called("explain", example), (0, "each line of the script is taken\n", ""))
        status, output, notes = self.called("timeline", example, "--alone")
        self.assertEqual((status, output[:5], notes), (0, "<svg ", ""))
        self.assertEqual(self.called("cron_cluster", text="")[0], 0)

    def test_a_second_time_nothing_is_another_one(self):
        self.install()
        before = found_below(self.root)
        self.install()
        self.assertEqual(found_below(self.root), before)

    def test_nothing_is_left(self):
        self.install()
        self.called("explain", "--version")
        self.assertTrue(os.path.isdir(os.path.join(self.prefix, LIBRARY, "release_lib/__pycache__")))
        self.installed("--uninstall", self.prefix)
        self.assertEqual(found_below(self.root), {})
        note = f"install: nothing is installed in {self.prefix}, as there is no {self.prefix}/{MANIFEST}\n"
        self.assertEqual(self.installed("--uninstall", self.prefix, status=1), note)

    def test_files_of_others_stay(self):
        write(os.path.join(self.prefix, "bin/other"), "x")
        self.install()
        write(os.path.join(self.prefix, "share/man/man1/other.1"), "x")
        self.installed("--uninstall", self.prefix)
        paths = ["usr", "usr/bin", "usr/bin/other", "usr/share", "usr/share/man", "usr/share/man/man1", "usr/share/man/man1/other.1"]
        self.assertEqual(sorted(found_below(self.root)), paths)
        write(os.path.join(self.prefix, "bin/explain"), "x")
        before = found_below(self.root)
        note = f"install: {self.prefix}/bin/explain is there, and wasn't put there by this; remove it, or choose another PREFIX\n"
        self.assertEqual(self.installed("--program", self.program, self.prefix, status=1), note)
        self.assertEqual(found_below(self.root), before)

    def test_files_of_an_older_version_go(self):
        self.install()
        before = found_below(self.root)
        write(os.path.join(self.prefix, LIBRARY, "run_file_lib/old.py"), "x")
        listed = os.path.join(self.prefix, MANIFEST)
        write(listed, text_of(listed) + f"{LIBRARY}/run_file_lib/old.py\n")
        self.install()
        self.assertEqual(found_below(self.root), before)

    def test_a_file_is_replaced_as_a_whole(self):
        self.install()
        before = found_below(self.root)
        with open(os.path.join(self.prefix, "bin/cron_cluster"), encoding="utf-8") as file:
            write(self.program, "#!/bin/sh\n", 0o755)
            self.install()
            self.assertEqual(file.read(), STAND_IN)
        write(self.program, STAND_IN, 0o755)
        with mock.patch("install_lib.prefix.os.chmod", side_effect=OSError(28, "No space left on device")):
            note = self.installed("--program", self.program, self.prefix, status=1)
        self.assertEqual(note, f"install: {self.prefix}/{MANIFEST}: No space left on device\n")
        self.install()
        self.assertEqual(found_below(self.root), before)

    def test_a_list_that_leads_out(self):
        self.install()
        listed = os.path.join(self.prefix, MANIFEST)
        for path in ("/etc/passwd", "../root", "lib/../../root"):
            write(listed, f"{path}\n")
            note = f"install: {listed} has a path that leads out of {self.prefix}\n"
            self.assertEqual(self.installed("--uninstall", self.prefix, status=1), note)

    def test_the_tools_alone(self):
        self.installed("--tools-only", self.prefix)
        self.assertEqual(sorted(os.listdir(os.path.join(self.prefix, "bin"))), sorted(TOOLS))
        self.assertEqual(self.called("run_file", "--version")[0], 0)
        self.install()
        before = found_below(self.root)
        self.installed("--tools-only", self.prefix)
        self.assertEqual(found_below(self.root), before)
        self.installed("--uninstall", self.prefix)
        self.assertEqual(found_below(self.root), {})

    def test_a_package(self):
        self.installed("--program", self.program, "/usr", environment={"DESTDIR": self.at("package")})
        self.assertEqual(os.listdir(self.at("package")), ["usr"])
        self.assertEqual(found_below(self.root), {})
        self.install()
        paths = found_below(self.at("package"))
        self.assertEqual({path.replace("usr", "root/usr", 1) for path in paths}, {f"root/{path}" for path in found_below(self.root)})

    def test_faults(self):
        none = self.at("none")
        how = "`rt run` in crates/cron_cluster builds it, --program names another one, and --tools-only leaves it out"
        self.assertEqual(self.installed("--program", none, self.prefix, status=1), f"install: there is no program {none}; {how}\n")
        self.assertEqual(found_below(self.root), {})
        write(self.at("root/usr"), "a file")
        self.assertIn("File exists", self.installed("--program", self.program, self.prefix, status=1))
        for words in ([], ["--loud", "x"], ["--program", "x", "--tools-only", "x"], ["--uninstall", "--tools-only", "x"]):
            self.installed(*words, status=2)

    def test_options_of_the_manual(self):
        manual = text_of(os.path.join(os.path.dirname(HERE), "docs/TOOLS.md"))
        for word in re.findall(r"(?m)^  (--[\w-]+)", parser().format_help()):
            if word != "--version":
                self.assertRegex(manual, rf"\n\| `{word}( PATH)?` \| ")

    def test_the_command(self):
        words = [os.path.join(HERE, "install"), "--tools-only", self.prefix]
        done = subprocess.run(words, cwd="/", capture_output=True, text=True, check=False)
        self.assertEqual((done.returncode, done.stdout, done.stderr), (0, "", ""))
        self.assertEqual(sorted(os.listdir(os.path.join(self.prefix, "bin"))), sorted(TOOLS))


if __name__ == "__main__":
    unittest.main()
