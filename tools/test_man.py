#!/usr/bin/env python3
"""Tests of the man pages: that they format without a warning, what they have, and how each part of a manual is written.

Usage: tools/test_man.py [NAME..]
"""
import os
import re
import shutil
import subprocess
import tempfile
import unittest

from install_lib.manual import parts_of, section
from install_lib.pages import man_pages
from install_lib.roff import inline, lines_of, synopsis
from install_lib.sources import PARSERS

HERE = os.path.dirname(os.path.abspath(__file__))
PAGES = man_pages()
HEADS = ["NAME", "SYNOPSIS", "DESCRIPTION", "OPTIONS", "EXIT STATUS", "FILES", "DIAGNOSTICS", "EXAMPLES", "SEE ALSO"]
# What formats a page and tells each warning, by the name of the program that has to be there.
FORMATTERS = {
    "man": ["man", "--warnings", "-E", "UTF-8", "-l"],
    "groff": ["groff", "-man", "-ww", "-z", "-Tutf8", "-rLL=80n"],
    "mandoc": ["mandoc", "-T", "lint", "-W", "warning"],
}


class Parts(unittest.TestCase):
    """How parts of a manual are written."""

    def written(self, text):
        return [line for part in parts_of(text.split("\n")) for line in lines_of(part)]

    def test_words(self):
        for text, written in (
            ("a `-b` c", "a \\fB\\-b\\fR c"),
            ("``a `-` b``", "\\fBa \\(ga\\-\\(ga b\\fR"),
            ("see [the `x`](A.md#b) now", "see the \\fBx\\fR now"),
            ("**A-b** at 2^32 ~", "\\fBA-b\\fR at 2\\(ha32 \\(ti"),
            ("`a\\b'c`", "\\fBa\\eb\\(aqc\\fR"),
            ("`a  b`", "\\fBa\\ \\ b\\fR"),
        ):
            self.assertEqual(inline(text), written)
        self.assertEqual(synopsis("ran [--day DATE] [LOG ...]"), "\\fBran\\fR [\\fB\\-\\-day\\fR \\fIDATE\\fR] [\\fILOG\\fR ...]")

    def test_parts(self):
        self.assertEqual(self.written(".. of\n'a' text\n"), [".PP", "\\&.. of 'a' text"])
        self.assertEqual(self.written("- one\n  more\n- two"), [".IP \\(bu 2", "one more", ".IP \\(bu 2", "two"])
        self.assertEqual(self.written("2. one"), [".IP 2. 4", "one"])
        shown = [".PP", ".in +4n", ".EX", "\\&.a \\-b", "", "  c", ".EE", ".in"]
        self.assertEqual(self.written("```sh\n.a -b\n\n  c\n```"), shown)
        self.assertEqual(self.written("    .a -b\n\n      c\n\ntext"), [*shown, ".PP", "text"])
        self.assertEqual(self.written("| A | B |\n|---|---|\n| `a` | b |\n| c | |"), [".TP", "\\fBa\\fR", "b", ".TP", "c", "\\&"])
        self.assertEqual(self.written("| A | B | C |\n|---|---|---|\n| a | b | c |"), [".TP", "a", "B: b", ".br", "C: c"])
        self.assertEqual(self.written("### The `x`"), ['.SS "The x"'])
        self.assertEqual(self.written("![a picture](b.svg)"), [])

    def test_sections(self):
        whole, alone = (section("docs/MACHINE.md", "Each line at fault", deep) for deep in (True, False))
        self.assertEqual(whole[: len(alone)], alone)
        self.assertEqual(whole[len(alone)], "### Hints")
        with self.assertRaises(ValueError):
            section("docs/MACHINE.md", "No such heading")


class Pages(unittest.TestCase):
    """The pages."""

    def test_they_format_without_a_warning(self):
        known = [words for name, words in FORMATTERS.items() if shutil.which(name)]
        if not known:
            self.skipTest("neither man nor groff nor mandoc is here, so no page was formatted")
        for words in known:
            self.assertNotEqual(self.formatted(words, "faulty.1", '.TH FAULTY 1\n.SH NAME\nfaulty \\- a fault\n.NONE\n'), (0, ""))
            for name, text in PAGES.items():
                self.assertEqual(self.formatted(words, name, text), (0, ""), f"{words[0]} {name}")

    def formatted(self, words, name, text):
        """The status with which a page is formatted, and the warnings."""
        environment = {**os.environ, "MANWIDTH": "80", "LC_ALL": "C.UTF-8", "MANPAGER": "cat"}
        with tempfile.TemporaryDirectory() as folder:
            with open(os.path.join(folder, name), "w", encoding="utf-8") as file:
                file.write(text)
            done = subprocess.run([*words, name], cwd=folder, env=environment, capture_output=True, text=True, check=False)
        return done.returncode, done.stderr

    def test_names_are_found(self):
        """whatis(1) finds what stands behind the name of a page."""
        if not shutil.which("lexgrog"):
            self.skipTest("there is no lexgrog")
        with tempfile.TemporaryDirectory() as folder:
            for name, text in PAGES.items():
                with open(os.path.join(folder, name), "w", encoding="utf-8") as file:
                    file.write(text)
                done = subprocess.run(["lexgrog", name], cwd=folder, capture_output=True, text=True, check=False)
                self.assertIn(f'"{name.split(".")[0]} - ', done.stdout)

    def test_their_heads(self):
        self.assertEqual(sorted(PAGES), ["cron_cluster.1", "explain.1", "hevtsora_tables.5", "ran.1", "run_file.1", "timeline.1"])
        needed = {"NAME", "DESCRIPTION", "SEE ALSO"}
        for name, text in PAGES.items():
            heads = [head.strip('"') for head in re.findall(r"(?m)^\.SH (.*)$", text)]
            self.assertEqual(heads, [head for head in HEADS if head in heads], name)
            more = {"SYNOPSIS", "OPTIONS", "EXIT STATUS", "EXAMPLES"} if name.endswith(".1") else {"EXAMPLES", "FILES"}
            self.assertLessEqual(needed | more, set(heads), name)

    def test_nothing_of_markdown_is_left(self):
        for name, text in PAGES.items():
            for form in (r"\]\([A-Z#]", r"(?m)^```", r"(?m)^\|", r"\*\*\w", r"tools/(run_file|ran|explain|timeline)\b"):
                self.assertIsNone(re.search(form, text), f"{name} has {form}")

    def test_each_option_stands_there(self):
        for tool, parser in PARSERS.items():
            page = PAGES[f"{tool}.1"]
            part = page[page.index('.SH "OPTIONS"') : page.index('.SH "EXIT STATUS"')]
            words = re.findall(r"(?m)^  (?:-\w, )?(--\w+)", parser().format_help())
            self.assertGreater(len(words), 1)
            for word in words:
                self.assertIn(f"\\fB\\-\\-{word[2:]}\\fR", part)

    def test_the_command(self):
        with tempfile.TemporaryDirectory() as folder:
            pages = os.path.join(folder, "man")
            subprocess.run([os.path.join(HERE, "man"), pages], cwd="/", check=True)
            self.assertEqual(sorted(os.listdir(pages)), sorted(PAGES))
            for name, text in PAGES.items():
                with open(os.path.join(pages, name), encoding="utf-8") as file:
                    self.assertEqual(file.read(), text)
            done = subprocess.run([os.path.join(HERE, "man")], capture_output=True, text=True, check=False)
            self.assertEqual((done.returncode, done.stderr), (1, "usage: man FOLDER\n"))


if __name__ == "__main__":
    unittest.main()
