#!/usr/bin/env python3
"""Tests of the statuses that docs/TOOLS.md tells, each by a call that ends with it. Those of the built program are tried where it is
built; that memory runs out is tried by .ci/memory.

Usage: tools/test_statuses.py [NAME..]
"""
import os
import re
import subprocess
import tempfile
import unittest
from concurrent.futures import ThreadPoolExecutor

from release_lib.version import PROGRAM

HERE = os.path.dirname(os.path.abspath(__file__))
ROOT = os.path.dirname(HERE)
EXAMPLES = os.path.join(ROOT, "examples")
TAKEOVER = os.path.join(EXAMPLES, "takeover")
FAULTY = os.path.join(EXAMPLES, "field_refused")
# Stands in for the program: no job is in the tables.
ANSWER = "#!/bin/sh\ncat > /dev/null\nprintf 'cron due 1\\nend\\n'\n"
LAUNCH = "2024-03-31T01:00:01+00:00 host CRON[7]: (bob) CMD (x)\n"
NO_LAUNCH = "2024-03-31T01:00:01+00:00 host CRON[7]: (bob) MAIL (sent)\n"
HOUR = "--from 2024-03-31T01:00Z --until 2024-03-31T02:00Z"
# Each tool with a command of the shell and its status. The folder of the call has a root without tables, and the files of `setUp`.
CALLS = [
    ("run_file", "--root root --list --program ./program", 0),
    ("run_file", "--root root --list --program ./program | head -n 0", 0),
    ("run_file", "--loud", 1),
    ("run_file", "--root root > /dev/full", 1),
    ("run_file", "--root root --list --program ./none", 2),
    ("run_file", "--root root --check --program ./program", 2),
    ("ran", f"--root root --program ./program {HOUR} quiet", 0),
    ("ran", f"--root root --program ./program {HOUR} log", 1),
    ("ran", f"--root root --program ./none {HOUR} log", 2),
    ("ran", f"--root root --program ./program {HOUR} log > /dev/full", 2),
    ("ran", "--loud", 2),
    ("explain", TAKEOVER, 0),
    ("explain", f"--plain {TAKEOVER}", 0),
    ("explain", "broken", 1),
    ("explain", "none", 2),
    ("explain", "--loud", 2),
    ("explain", f"{TAKEOVER} > /dev/full", 2),
    ("explain", f"{TAKEOVER} >&-", 2),
    ("timeline", f"--alone {TAKEOVER}", 0),
    ("timeline", f"--alone {TAKEOVER}.stdout", 1),
    ("timeline", f"{TAKEOVER} --program ./none", 1),
    ("timeline", f"--alone {TAKEOVER} > /dev/full", 1),
    ("timeline", f"--alone --text {TAKEOVER} > /dev/full", 1),
    ("timeline", f"--alone {TAKEOVER} >&-", 1),
    ("timeline", "--loud", 2),
    ("install", "--program ./program prefix", 0),
    ("install", "--program ./none prefix", 1),
    ("install", "--program ./program --tools-only prefix", 2),
    ("cron_cluster", f"--list < {TAKEOVER}", 0),
    ("cron_cluster", f"--list --check < {TAKEOVER}", 1),
    ("cron_cluster", f"< {FAULTY}", 2),
    ("cron_cluster", "< .", 3),
    ("cron_cluster", f"< {TAKEOVER} > /dev/full", 4),
    ("cron_cluster", f"--audit < {TAKEOVER}", 6),
]


def told():
    """The statuses that the manual tells: each with the tool that ends with it, and what stands in its row."""
    with open(os.path.join(ROOT, "docs", "TOOLS.md"), encoding="utf-8") as file:
        rows = re.findall(r"(?m)^\| `(\w+)` \| (\d) \| (.*) \| .* \|$", file.read())
    return {(tool, int(status)): text for tool, status, text in rows}


class Statuses(unittest.TestCase):
    """The statuses of the program and of each tool."""

    def setUp(self):
        room = tempfile.TemporaryDirectory()
        self.addCleanup(room.cleanup)
        self.folder = room.name
        os.mkdir(os.path.join(self.folder, "root"))
        with open(TAKEOVER, encoding="utf-8") as file:
            broken = file.read().replace("stop 0", "crash 0")
        for name, text in (("program", ANSWER), ("log", LAUNCH), ("quiet", NO_LAUNCH), ("broken", broken)):
            with open(os.path.join(self.folder, name), "w", encoding="utf-8") as file:
                file.write(text)
        os.chmod(os.path.join(self.folder, "program"), 0o755)

    def ended(self, tool, words):
        """The status of a call, and what it writes to standard error."""
        command = ["bash", "-c", f'"$0" {words}; exit ${{PIPESTATUS[0]}}', tool]
        # Without a buffer a fault of standard output comes at another place.
        environment = {name: value for name, value in os.environ.items() if name != "PYTHONUNBUFFERED"}
        done = subprocess.run(command, cwd=self.folder, env=environment, capture_output=True, text=True, check=False)
        return done.returncode, done.stderr

    def test_each_tool(self):
        calls = [call for call in CALLS if call[0] != "cron_cluster"]
        with ThreadPoolExecutor(os.cpu_count()) as pool:
            ends = pool.map(lambda call: self.ended(os.path.join(HERE, call[0]), call[1]), calls)
            for (tool, words, status), (got, notes) in zip(calls, ends):
                self.assertEqual(got, status, f"{tool} {words}: {notes}")
                self.assertNotRegex(notes, "Traceback|Exception ignored")

    def test_the_built_program(self):
        if not os.access(PROGRAM, os.X_OK):
            self.skipTest("there is no built program")
        rows = told()
        for tool, words, status in CALLS:
            if tool == "cron_cluster":
                got, note = self.ended(PROGRAM, words)
                self.assertEqual(got, status, words)
                form = re.search(r"The note is `([^`]*)`", rows[tool, status])
                pattern = re.sub(r"\b[LCP]\b", r"\\d+", re.escape(form[1])) if form else ""
                self.assertRegex(note.rstrip("\n"), rf"\A{pattern}\Z")

    def test_each_status_that_is_told(self):
        tried = {(tool, status) for tool, _, status in CALLS} | {("cron_cluster", 5)}
        self.assertEqual(set(told()), tried)


if __name__ == "__main__":
    unittest.main()
