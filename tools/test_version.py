#!/usr/bin/env python3
"""Tests of what each tool says of its version, and of the files VERSION and CHANGES.md.

Usage: tools/test_version.py [NAME..]
"""
import os
import re
import shutil
import subprocess
import tempfile
import unittest

from release_lib.version import as_installed

HERE = os.path.dirname(os.path.abspath(__file__))
TOOLS = ("run_file", "ran", "explain", "timeline", "install")


def text_of(name):
    with open(os.path.join(os.path.dirname(HERE), name), encoding="utf-8") as file:
        return file.read()


class Version(unittest.TestCase):
    """The number of the version."""

    def test_each_tool_tells_it(self):
        with tempfile.TemporaryDirectory() as folder:
            for name in TOOLS:
                link = os.path.join(folder, f"my-{name}")
                os.symlink(os.path.join(HERE, name), link)
                done = subprocess.run([link, "--version"], cwd=folder, capture_output=True, text=True, check=False)
                told = f"{name} (Hevtsora) {text_of('VERSION')}"
                self.assertEqual((done.returncode, done.stdout, done.stderr), (0, told, ""))

    def test_a_folder_that_was_copied_alone(self):
        with tempfile.TemporaryDirectory() as folder:
            for name in ("explain", "release_lib", "run_file_lib", "script_lib"):
                copy = shutil.copy if name == "explain" else shutil.copytree
                copy(os.path.join(HERE, name), os.path.join(folder, name))
            done = subprocess.run([os.path.join(folder, "explain"), "--version"], capture_output=True, text=True, check=False)
            self.assertEqual((done.returncode, done.stdout), (0, "explain (Hevtsora) of an unknown version\n"))

    def test_the_newest_changes_are_of_it(self):
        self.assertRegex(text_of("VERSION"), r"\A\d+\.\d+\.\d+\n\Z")
        self.assertEqual(re.findall(r"(?m)^## (.*)$", text_of("CHANGES.md"))[0], text_of("VERSION").strip())

    def test_names_where_the_tools_are_installed(self):
        text = "tools/ran LOG asks crates/cron_cluster/out/cron_cluster; tools/ran_lib stays. docs/RUN_FILE.md is the manual."
        told = "ran LOG asks cron_cluster; tools/ran_lib stays. share/doc/hevtsora/docs/RUN_FILE.md is the manual."
        self.assertEqual(as_installed(text), told)


if __name__ == "__main__":
    unittest.main()
