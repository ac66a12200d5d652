#!/usr/bin/env python3
"""Tests that tools/run_file tells what Debian's cron and cronie refuse, beside their own `crontab -n` and `crontab -T`: of each table
of a note, and of lines that are made from a seed. What these answered is kept in tools/testdata/crontab_n.answers and
crontab_t.answers, so that the tests need no package. Debian's is asked again where it can be had: as CRONTAB names it, or as
/usr/bin/crontab of Debian's package.

Usage: tools/test_crontab_n.py [--write FILE] [NAME..]

It asks in a name space of its own, since `crontab -n` writes a file in the spool. With --write the answers are written anew, those of
cronie where FILE is its crontab:

  apt-get download cron && dpkg-deb -x cron_*.deb cron && tools/test_crontab_n.py --write cron/usr/bin/crontab
"""
import os
import random
import re
import subprocess
import sys
import tempfile
import unittest
from pathlib import Path

from run_file_lib.cron_lines import Owner
from run_file_lib.daemons import CRONIE, DEBIAN, verdict_of
from test_run_file import HERE

ANSWERS = os.path.join(HERE, "testdata", "crontab_n.answers")
CRONIE_ANSWERS = os.path.join(HERE, "testdata", "crontab_t.answers")
# cronie draws such a value, so it may take a line at one time and refuse it at another.
AT_RANDOM = b"~"
SEED, LINES = 49, 600
# The tables of the note, by what they are tables of, each but for its last newline where it says so.
TABLES = {
    "a good line": "* * * * * x\n",
    "no newline at the end": "* * * * * x",
    "a comment without a newline at the end": "* * * * * x\n# y",
    "one line at fault": "* * * * * x\n60 * * * * y\n* * * * * z\n",
    "an empty value": "MAILTO=\n* * * * * x\n",
    "an empty value in quotes": 'MAILTO=""\n* * * * * x\n',
    "text behind quotes": 'A="b c" d\n* * * * * x\n',
    "quotes that stay open": "A='b\n* * * * * x\n",
    "six fields": "0 0 5 * * * x\n",
    "six fields with a number": "0 5 * * * */5 x\n",
    "two blanks before a star": "0 5 * * *  *x\n",
    "no command": "0 5 * * *\n",
    "a nickname alone": "@daily\n",
    "a hashed minute": "? * * * * x\n",
    "a hashed day": "0 5 * * ? x\n",
    "a random minute": "0~30 * * * * x\n",
    "no log": "-*/15 * * * * x\n",
    "a zone that isn't there": "CRON_TZ=Mars/Base\n* * * * * x\n",
    "a command of 998 bytes": "* * * * * " + "x" * 998 + "\n",
    "a command of 999 bytes": "* * * * * " + "x" * 999 + "\n",
    "10,000 lines": "#\n" * 9_999 + "* * * * * x\n",
    "10,001 lines": "#\n" * 10_000 + "* * * * * x\n",
    "10,001 lines that end with a comment": "* * * * * x\n" + "#\n" * 10_000,
    "a range that ends below its beginning": "6-0 * * * * x\n",
    "a day of quartz": "0 9 * * mon#1 x\n",
    "a colon": "5:30 * * * * x\n",
    "a step beyond the range": "5-64/30 * * * * x\n",
    "a number that C cuts": "4294967296 * * * * x\n",
    "a name in quotes": '"MAILTO"=x\n* * * * * x\n',
    "a variable without a name": "=x\n* * * * * x\n",
    "a carriage return": "* * * * * x\r\n\r\n",
    "bytes that aren't UTF-8": "\udcc3 * * * * x\n",
    "export": "export A=b\n",
    "a nickname in capitals": "@Daily x\n",
}
WORDS = "* 0 5 59 60 7 8 12 13 23 24 31 32 */5 */0 */90 */x 1-5 5-1 1-70 0-6/2 5/10 1,2 1,,2 ,1 1, mon Mon fri-mon sun-sat jan dec-jan "
WORDS += "? 0~30 ~ L 1W 5#3 5:30 *x ** */5x 1-2-3 - -5 +5 05 0000000005 99999999999 a monday 1.5 x=y = 'a' \"b\""
FRONTS = ["", " ", "\t", "-", "#", "@"]
NICKNAMES = ["@daily", "@reboot", "@Hourly", "@every", "@weekly ", "@monthly\t", "@"]
ENDS = ["x", "", " ", "* x", "*", "x % y", "x # y", "-n x", "root x", "X=1 x", "'"]
SETTINGS = ["A=b", "A =b", "A = b c ", "A=", "A= ", "'A'=b", '"A B"=c', "A='b'", "A='b' ", "A='b' c", 'A="b']
SETTINGS += ["A=b'c", "A B=c", "1A=b", "=b"]


def made_lines():
    """The lines that are made from the seed."""
    chance = random.Random(SEED)
    for _ in range(LINES):
        kind = chance.randrange(10)
        if kind == 0:
            yield chance.choice(SETTINGS)
        elif kind == 1:
            yield chance.choice(NICKNAMES) + " " + chance.choice(ENDS)
        else:
            # Mostly one field of five is a strange one.
            fields = [chance.choice("* 0 5 1-5 */2 1,3".split()) for _ in range(chance.choice([5, 5, 5, 5, 4, 6]))]
            fields[chance.randrange(len(fields))] = chance.choice(WORDS.split())
            yield chance.choice(FRONTS[: chance.choice([1, 1, 6])]) + " ".join([*fields, chance.choice(ENDS)])


def cases():
    """Each table, as bytes."""
    texts = [*TABLES.values(), *(f"{line}\n" for line in made_lines())]
    return [text.encode("utf-8", "surrogateescape") for text in texts]


def crontab():
    """Debian's crontab on this machine; none where there is none."""
    file = os.environ.get("CRONTAB", "/usr/bin/crontab")
    if not os.access(file, os.X_OK):
        return None
    return os.path.abspath(file) if b"successfully checked" in Path(file).read_bytes() else None


def asked(file, option="-n"):
    """What a crontab answers to each table, as text."""
    script = "mount -t tmpfs none /var/spool && mkdir -p /var/spool/cron/crontabs"
    script += f' && for file in "$1"/*; do echo "== $("$0" {option} "$file" 2>&1)"; done'
    with tempfile.TemporaryDirectory() as folder:
        for number, data in enumerate(cases()):
            Path(folder, f"{number:04}").write_bytes(data)
        words = ["unshare", "-rm", "sh", "-c", script, file, folder]
        done = subprocess.run(words, stdout=subprocess.PIPE, stderr=subprocess.DEVNULL, check=False)
    return re.split(r"(?m)^== ", done.stdout.decode("utf-8", "replace"))[1:]


def debian_answers(file):
    """What `crontab -n` of Debian answers to each table: the words of its first fault, or that there is none."""
    return [answer_of(text) for text in asked(file)]


def cronie_answers(file):
    """What `crontab -T` of cronie answers to each table: the words of its faults."""
    return [", ".join(re.findall(r'(?m)^".*":-?\d+: (.*)', text)) for text in asked(file, "-T")]


def answer_of(text):
    """The words of an answer."""
    found = re.match(r'".*":-?\d+: (.*)', text)
    if found:
        return found[1]
    for words in ("successfully checked", "too long", "missing newline"):
        if words in text:
            return words
    return text.strip()


def told(data):
    """What the script tells of a table, in the same words."""
    reasons = verdict_of(DEBIAN, data, Owner(False, lambda name: None), False).reasons
    if not reasons:
        return "successfully checked"
    # The length is told before any line at fault.
    for text, words in (("lines", "too long"), ("its last line", "missing newline")):
        if reasons[-1][1].endswith("lines") and words == "too long" or reasons[0][1].startswith(text) and len(reasons) == 1:
            return words
    return next(text for line, text in reasons if line).split(": ")[0]


class CrontabN(unittest.TestCase):
    """What Debian's `crontab -n` says of tables, and what the script says of them."""

    def test_answers_that_are_kept(self):
        kept = Path(ANSWERS).read_text(encoding="utf-8").split("\n")[:-1]
        self.assertEqual(len(kept), len(cases()))
        self.assertGreater(len(set(kept)), 9)
        for data, answer in zip(cases(), kept):
            with self.subTest(data[:80]):
                self.assertEqual(told(data), answer)

    def test_crontab_of_this_machine(self):
        file = crontab()
        if file is None:
            self.skipTest("there is no crontab of Debian's package: CRONTAB names one")
        answers = debian_answers(file)
        if not answers:
            self.skipTest(f"{file} can't be run in a name space of its own")
        self.assertEqual(answers, Path(ANSWERS).read_text(encoding="utf-8").split("\n")[:-1])

    def test_answers_of_cronie(self):
        kept = Path(CRONIE_ANSWERS).read_text(encoding="utf-8").split("\n")[:-1]
        self.assertEqual(len(kept), len(cases()))
        for data, answer in zip(cases(), kept):
            lines = verdict_of(CRONIE, data, Owner(False, lambda name: None, True), False).lines
            words = [text.split(": ")[0].replace("missing newline before EOF", "premature EOF") for text in lines.values()]
            if AT_RANDOM not in data:
                with self.subTest(data[:80]):
                    self.assertEqual(", ".join(words), answer)


def write(file):
    """Writes the answers of a crontab anew."""
    is_debian = b"successfully checked" in Path(file).read_bytes()
    answers = debian_answers(file) if is_debian else cronie_answers(file)
    Path(ANSWERS if is_debian else CRONIE_ANSWERS).write_text("".join(f"{answer}\n" for answer in answers), encoding="utf-8")


if __name__ == "__main__":
    if sys.argv[1:2] == ["--write"]:
        write(os.path.abspath(sys.argv[2]))
        del sys.argv[1:3]
    unittest.main()
