#!/usr/bin/env python3
"""Tests of the completion for bash: which words it has for what is begun, and that it has each option as the programs have it.

Usage: tools/test_completion.py [NAME..]
"""
import os
import re
import shutil
import subprocess
import tempfile
import unittest

from install_lib.sources import PARSERS, program_words

HERE = os.path.dirname(os.path.abspath(__file__))
FILE = os.path.join(HERE, "completion", "hevtsora.bash")
# Completes the last one of the words, as bash does.
SCRIPT = f"""\
source {FILE}
while IFS= read -r line; do
  IFS=' ' read -ra COMP_WORDS <<< "$line"
  [[ $line == *' ' ]] && COMP_WORDS+=("")
  COMP_CWORD=$(( ${{#COMP_WORDS[@]}} - 1 ))
  COMPREPLY=()
  _hevtsora "${{COMP_WORDS[0]}}"
  echo "${{COMPREPLY[*]}}"
done
complete -p cron_cluster run_file ran explain timeline
"""


def options_of(tool):
    """The options of a tool, as its help has them; of the program, as its note has them."""
    if tool == "cron_cluster":
        return re.findall(r"--\w+", program_words())
    return re.findall(r"(?m)^  (?:-\w, )?(--\w+)", PARSERS[tool]().format_help())


@unittest.skipUnless(shutil.which("bash"), "there is no bash")
class Completion(unittest.TestCase):
    """What bash completes."""

    def setUp(self):
        room = tempfile.TemporaryDirectory()
        self.addCleanup(room.cleanup)
        self.folder = room.name
        os.mkdir(os.path.join(self.folder, "copy"))
        for name in ("a.log", "b.run"):
            with open(os.path.join(self.folder, name), "w", encoding="utf-8"):
                pass

    def completed(self, *lines):
        """The words for each line, of which a `=` is a word of its own."""
        text, command = "".join(f"{line}\n" for line in lines), ["bash", "--norc", "-c", SCRIPT]
        done = subprocess.run(command, cwd=self.folder, input=text, capture_output=True, text=True, check=True)
        self.assertEqual(done.stderr, "")
        found = done.stdout.splitlines()
        registered = [f"complete -F _hevtsora {tool}" for tool in ("cron_cluster", *PARSERS)]
        self.assertEqual(sorted(found[len(lines) :]), sorted(registered))
        return [line.split() for line in found[: len(lines)]]

    def test_each_option(self):
        tools = ("cron_cluster", *PARSERS)
        lines = [f"{tool} {option}" for tool in tools for option in options_of(tool)]
        for line, words in zip(lines, self.completed(*lines)):
            self.assertIn(line.split()[1], words)
        for tool, words in zip(tools, self.completed(*(f"{tool} --" for tool in tools))):
            self.assertEqual(sorted(words), sorted(options_of(tool)))

    def test_values(self):
        for line, words in (
            ("run_file --cron d", ["debian"]),
            ("run_file --cron = c", ["cronie"]),
            ("run_file --list --zone UT", ["UTC"]),
            ("run_file --user b", ["b.run"]),
            ("run_file --user = b", ["b.run"]),
            ("run_file --user alice = b", ["b.run"]),
            ("run_file --root ", ["copy"]),
            ("run_file --root =", ["copy"]),
            ("run_file --days ", []),
            ("/usr/bin/run_file --li", ["--list"]),
            ("ran --day y", ["yesterday"]),
            ("ran a", ["a.log"]),
            ("ran a.log --js", ["--json"]),
            ("explain b", ["b.run"]),
            ("timeline b.run --pa", ["--page"]),
            ("cron_cluster --m", ["--make"]),
            ("cron_cluster --make ", []),
        ):
            self.assertEqual(self.completed(line), [words], line)


if __name__ == "__main__":
    unittest.main()
