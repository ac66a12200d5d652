#!/usr/bin/env python3
"""Tests of an audit in the small world: which line of a journal is the first that can't be, and why, and how what is read falls into a
run, a report and a journal. What has to come was worked out by hand.

Usage: tools/test_audit.py [NAME..]
"""
import os
import random
import re
import subprocess
import unittest

from small_world.audit import BAD_LINE, MISSING, NOT_LEGAL, NOT_OBEYED, OTHER_REPORT, answer, audit, is_too_long, is_turn, split
from small_world.damaged import damaged, told_of
from small_world.free import Order
from small_world.known import AT_ONE, FOUR_HOURS, KNOWN, run_file
from small_world.made import break_run, free_run, script_run
from small_world.run_file import RunFile
from small_world.texts import journal_of, report_of
from small_world.versions_made import version_run, without_last_version
from small_world.world import World

ROOT = os.path.dirname(os.path.dirname(os.path.abspath(__file__)))
SEEDS = range(12)
MIDNIGHT, ONE = "2024-03-31T00:00Z", "2024-03-31T01:00Z"
NAME = "alice:1@20240331T0100Z"
NINES = "9" * 6000
# The run of one replica that launches three jobs, and the first line of its journal, as its report's first one is 1.
ONE_REPLICA, JOURNAL = KNOWN[0][1], 10


class Given(Order):
    """An order of turns that is given."""

    def __init__(self, order):
        super().__init__(0)
        self.given = iter(order)

    def whose(self, part):
        return next(self.given)


def written(text, seed=0, order=None):
    """The report and the journal of a run, as lines without their newlines."""
    world = World(RunFile(text), seed)
    world.order = Given(order) if order else world.order
    world.play()
    return (report_of(world) + journal_of(world)).split("\n")[:-1]


def joined(text, lines):
    return (text + "".join(f"{line}\n" for line in lines)).encode(errors="surrogateescape")


def script(text, members=3, grace=5):
    """A run whose one job is due at one o'clock."""
    return run_file(members, FOUR_HOURS, grace, AT_ONE, text)


class Lines(unittest.TestCase):
    """Journals of which one line is another one, or a text that isn't whole."""

    def said(self, text, line, *others, order=None):
        """What is said where these lines stand in the place of one, and by how much the line that is named lies behind it."""
        lines = written(text, order=order)
        place = lines.index(line)
        fault = audit(joined(text, [*lines[:place], *others, *lines[place + 1 :]]))
        return fault and (fault[0] - place - 1, fault[1])

    def is_said(self, text, line, why, *others, order=None):
        for other in others:
            self.assertEqual(self.said(text, line, other, order=order), (0, why), other)

    def test_the_rows(self):
        lines = written(ONE_REPLICA)
        self.assertEqual((lines[JOURNAL - 1], lines[12]), ("cron journal 1", f"1 0 tick {MIDNIGHT}"))
        self.assertEqual(answer(joined(ONE_REPLICA, lines)), "audit yes\n")
        for number, line, said in (
            (5, "job alice:1 launched 2 void 0", "5 5"),
            (13, "1 0 answer", "13 2"),
            (13, "1 0 campaign", "13 3"),
            (13, "x", "13 1"),
        ):
            changed = [*lines[: number - 1], line, *lines[number:]]
            self.assertEqual(answer(joined(ONE_REPLICA, changed)), f"audit no {said}\n")
        self.assertEqual(audit(joined(ONE_REPLICA, lines[:-1])), (len(lines), MISSING))

    def test_what_has_no_form(self):
        others = ["", " ", "?", "1 0 tick", f"1  0 tick {MIDNIGHT}", f" 1 0 tick {MIDNIGHT}", f"1 0 tick {MIDNIGHT} ", f"1 0 tick {MIDNIGHT}\r"]
        others += [f"01 0 tick {MIDNIGHT}", f"1 00 tick {MIDNIGHT}", f"-1 0 tick {MIDNIGHT}", f"+1 0 tick {MIDNIGHT}", f"1 - tick {MIDNIGHT}"]
        others += [f"\u0661 0 tick {MIDNIGHT}", "1 0 hear", "1 0 hear 01", "1 0 hear -1", "1 0 arrive 0", "1 - arrive", "1 - arrive 00", "1 - answer"]
        others += ["1 0 stop kept", "1 0 stop kept restart", "1 0 stop kept stop", "1 0 stop held answer", f"1 0 stop kept tick {MIDNIGHT} done"]
        others += [f"1 0 tick {MIDNIGHT} never", f"1 0 tick {MIDNIGHT} done x", f"1 0 tick {MIDNIGHT} done  launch", f"1 0 tick {MIDNIGHT} done x y"]
        others += [f"1 0 tick {MIDNIGHT} done a\tb void", "1 0 Campaign", "command", "command 01", "command -", "command 1 ", "cron journal 2", "end 1"]
        self.is_said(ONE_REPLICA, f"1 0 tick {MIDNIGHT}", BAD_LINE, *others)

    def test_stamps(self):
        others = ["2024-02-30T00:00Z", "2023-02-29T00:00Z", "1900-02-29T00:00Z", "2024-00-01T00:00Z", "2024-13-01T00:00Z", "2024-03-00T00:00Z"]
        others += ["2024-04-31T00:00Z", "2024-03-31T24:00Z", "2024-03-31T00:60Z", "2024-3-31T00:00Z", "2024-03-31 00:00Z", "2024-03-31T00:00"]
        self.is_said(ONE_REPLICA, f"1 0 tick {MIDNIGHT}", BAD_LINE, *(f"1 0 tick {stamp}" for stamp in others))
        others = ["0000-02-29T00:00Z", "2000-02-29T23:59Z", "9999-12-31T23:59Z", "2024-03-30T23:59Z", ONE]
        self.is_said(ONE_REPLICA, f"1 0 tick {MIDNIGHT}", NOT_LEGAL, *(f"1 0 tick {stamp}" for stamp in others))
        self.is_said(ONE_REPLICA, f"1 0 tick {MIDNIGHT}", NOT_OBEYED, "1 0 tick 2024-03-31T00:59Z", "1 0 tick 2024-03-31T00:01Z")

    def test_numbers_of_any_length(self):
        others = [f"{NINES} 0 tick {MIDNIGHT}", f"1 {NINES} tick {MIDNIGHT}", f"1 0 hear {NINES}", f"1 - arrive {NINES}", "1 18446744073709551616 stop"]
        self.is_said(ONE_REPLICA, f"1 0 tick {MIDNIGHT}", NOT_LEGAL, *others, "2 0 campaign", "0 0 campaign", "1 1 campaign", "1 12 campaign")
        self.is_said(ONE_REPLICA, f"1 0 tick {MIDNIGHT}", NOT_OBEYED, f"command {NINES}", "command 0")
        free = script(f"free {ONE} 2", 1)
        self.is_said(free, "0 0 campaign", NOT_LEGAL, f"0 {NINES} campaign", f"{NINES} 0 campaign", "0 1 campaign")

    def test_what_a_turn_may_be(self):
        """Whatever its script: what is a turn of a replica here, and what isn't."""
        fate = script(f"campaign 0; fate 0 late; round {ONE} 4; stop 2; arrive 0")
        called = f"18 0 tick {ONE} late"
        self.is_said(fate, called, NOT_OBEYED, f"18 0 tick {ONE} done {NAME} launch", f"18 0 tick {ONE} lost-before", f"18 0 tick {ONE} lost-after")
        self.is_said(fate, called, NOT_OBEYED, f"18 0 tick 2024-03-31T01:06Z done {NAME} void", "18 0 hear 2", "18 1 campaign", "18 2 stop")
        self.is_said(fate, called, NOT_LEGAL, f"18 0 tick {ONE}", f"18 0 tick {ONE} done", f"18 0 tick {ONE} done {NAME} void", "18 0 hear 999")
        self.is_said(fate, called, NOT_LEGAL, f"18 0 tick {ONE} lost-after {NAME} launch", f"18 0 tick {ONE} late {NAME} launch", "18 0 answer")
        self.is_said(fate, called, NOT_LEGAL, f"18 0 tick {ONE} done {NAME}x launch", "18 - arrive 0", "18 2 restart", "18 0 stop kept hear 0")
        self.is_said(fate, called, NOT_LEGAL, f"18 0 stop lost tick {ONE}", "18 1 hear 1")
        arrival = "22 - arrive 0"
        self.assertEqual(self.said(fate, arrival, arrival, arrival), (1, NOT_LEGAL))
        self.is_said(fate, arrival, NOT_LEGAL, "22 - arrive 1", "22 2 campaign", "22 2 stop", "22 2 hear 1", f"22 2 tick {ONE}", "21 - arrive 0")
        self.is_said(fate, arrival, NOT_OBEYED, "22 2 restart", "22 0 campaign", "22 0 stop", "command 6", "end", "cron journal 1")

    def test_answers_wait_for_the_next_turn(self):
        text = script(f"campaign 0; round {ONE} 4; stop 0")
        self.is_said(text, "21 0 stop", NOT_OBEYED, "21 0 answer", "21 0 stop lost answer", "21 0 stop kept answer", "21 0 hear 2")
        self.is_said(text, "21 0 stop", NOT_LEGAL, "21 1 answer", f"21 0 tick {ONE} done {NAME} void")

    def test_letters_are_heard_as_the_script_says(self):
        text = script(f"campaign 0; repeat 0 1; round {ONE} 2")
        self.assertEqual(self.said(text, "3 1 hear 0"), (0, NOT_LEGAL))
        self.assertEqual(self.said(text, "3 1 hear 0", "3 1 hear 0", "4 1 hear 0"), (1, NOT_OBEYED))
        self.is_said(text, "3 1 hear 0", NOT_OBEYED, "3 2 hear 1", f"3 1 tick {ONE}")
        self.is_said(text, "3 1 hear 0", NOT_LEGAL, "3 1 hear 1", "3 2 hear 0", "3 1 hear 5")

    def test_stops_within_a_write(self):
        text = script(f"campaign 0; break 1 2 1; round {ONE} 1")
        line = "2 1 stop kept hear 0"
        self.is_said(text, line, NOT_OBEYED, "2 1 stop lost hear 0", "2 1 hear 0", "2 1 stop", "2 1 stop kept campaign", f"2 1 tick {ONE}")
        self.is_said(text, line, NOT_LEGAL, f"2 1 stop kept tick {ONE}", "2 1 stop kept hear 1", "2 1 stop kept answer", "1 1 stop kept hear 0")

    def test_parts(self):
        text = script(f"campaign 0; cut 0 1; heal; round {ONE} 1")
        self.is_said(text, "cron journal 1", NOT_OBEYED, "command 1", "end", "0 0 campaign")
        self.is_said(text, "cron journal 1", NOT_LEGAL, "1 0 campaign", "0 3 campaign", "0 0 answer")
        self.is_said(text, "cron journal 1", BAD_LINE, "cron journal", "cron report 2", "")
        self.is_said(text, "command 2", NOT_OBEYED, "command 1", "command 3", "command end", "end", f"1 0 tick {ONE}")
        self.assertEqual(self.said(text, "command 3"), (0, NOT_OBEYED))
        self.assertEqual(self.said(text, "command 4", f"1 0 tick {ONE}", "command 4"), (0, NOT_OBEYED))
        self.is_said(text, "command end", NOT_OBEYED, "command 5", "end", "6 0 campaign")

    def test_behind_the_end(self):
        lines = written(ONE_REPLICA)
        for other, why in (("end", NOT_OBEYED), ("command 1", NOT_OBEYED), ("", BAD_LINE), ("13 0 campaign", NOT_OBEYED), ("13 0 answer", NOT_LEGAL)):
            self.assertEqual(audit(joined(ONE_REPLICA, [*lines, other])), (len(lines) + 1, why), other)

    def test_free_turns(self):
        """Each replica's own turns are settled, and whose turn comes next isn't."""
        text, order = script(f"free {MIDNIGHT} 3", 2), [0, 1, 0, 1, 0, 1]
        lines = written(text, order=order)
        self.assertIn("command 1\n0 0 campaign\n1 1 tick 2024-03-31T00:00Z\n2 0 tick 2024-03-31T00:00Z\n3 1 hear 0", "\n".join(lines))
        self.assertIsNone(audit(joined(text, lines)))
        self.assertNotEqual(lines, written(text, order=[1, 1, 1, 0, 0, 0]))
        self.assertIsNone(audit(joined(text, written(text, order=[1, 1, 1, 0, 0, 0]))))
        # Replica 0 may have its last turn here as well, and then it has none in the place of the next line.
        self.assertEqual(self.said(text, "3 1 hear 0", f"3 0 tick {MIDNIGHT}", order=order), (1, NOT_OBEYED))
        self.is_said(text, "3 1 hear 0", NOT_OBEYED, f"3 1 tick {MIDNIGHT}", "3 0 campaign", "command end", order=order)
        self.is_said(text, f"4 0 tick {MIDNIGHT}", NOT_OBEYED, "4 0 hear 1", order=order)
        self.is_said(text, f"5 1 tick {MIDNIGHT}", NOT_OBEYED, f"5 0 tick {MIDNIGHT}", "command end", "end", order=order)
        self.is_said(text, f"5 1 tick {MIDNIGHT}", NOT_LEGAL, f"5 2 tick {MIDNIGHT}", order=order)

    def test_free_turns_of_who_has_stopped(self):
        text = script(f"break 1 2 5; free {MIDNIGHT} 3", 2)
        lines = written(text, order=[0, 1, 1, 0, 0])
        self.assertIsNone(audit(joined(text, lines)))
        place = lines.index("2 1 stop kept hear 0") + 1
        for other, why in ((f"3 1 tick {MIDNIGHT}", NOT_LEGAL), ("3 1 restart", NOT_OBEYED), ("3 0 restart", NOT_LEGAL)):
            self.assertEqual(audit(joined(text, [*lines[:place], other, *lines[place:]])), (place + 1, why))

    def test_turns(self):
        for line in ("0 0 stop", "7 3 stop lost campaign", f"12 9 stop kept tick {ONE}", f"0 0 tick {ONE} late {NAME}\r void", "9 - arrive 3"):
            self.assertTrue(is_turn(line), line)
        for line in ("command 1", "end", "cron journal 1", "0 0", f"0 0 tick {ONE} late {NAME}", f"0 0 stop kept tick {ONE} late", "9 - hear 3"):
            self.assertFalse(is_turn(line), line)


class Parts(unittest.TestCase):
    """How what is read falls into a run, a report and a journal."""

    def test_where_parts_end(self):
        run = b"cronrun 1\nend\n"
        for rest, report, journal in (
            (b"", [], []),
            (b"cron report 1\n", ["cron report 1"], []),
            (b"cron report 1", ["cron report 1"], []),
            (b"cron report 1\nend", ["cron report 1", "end"], []),
            (b"cron report 1\nx\nend\ny\nend\n", ["cron report 1", "x", "end"], ["y", "end"]),
            (b"cron report 1\nend\n\xff\n\xc3\xa9\n", ["cron report 1", "end"], ["?", "\u00e9"]),
            (b"cron report 1\n\xff\nend\n", ["cron report 1", "?", "end"], []),
            (b"cron report 1\nend\nx", ["cron report 1", "end"], ["\n"]),
            (b"cron report 1\nend\n\xff", ["cron report 1", "end"], ["\n"]),
            (b"cron report 1\nend \n end\n", ["cron report 1", "end ", " end"], []),
        ):
            self.assertEqual(split(run + rest), (run, report, journal), rest)
        self.assertEqual(split(run + b"cron report 1 \nend\n"), (run + b"cron report 1 \nend\n", [], []))
        self.assertEqual(split(b"a\ncron report 1\nb\ncron report 1\nend\n"), (b"a\ncron report 1\nb\n", ["cron report 1", "end"], []))

    def test_parts_that_are_missing(self):
        lines = written(ONE_REPLICA)
        for count in range(JOURNAL):
            self.assertEqual(audit(joined(ONE_REPLICA, lines[:count])), (count + 1, MISSING), count)
        for count in range(JOURNAL, len(lines)):
            self.assertEqual(audit(joined(ONE_REPLICA, lines[:count])), (count + 1, MISSING), count)
            self.assertEqual(audit(joined(ONE_REPLICA, lines[: count + 1])[:-1]), (count + 1, BAD_LINE), count)
        self.assertEqual(audit(joined(ONE_REPLICA, [*lines[: JOURNAL - 2], *lines[JOURNAL - 1 :]])), (len(lines), MISSING))

    def test_other_reports(self):
        lines = written(ONE_REPLICA)
        for place, others, number in (
            (1, ["window 2024-03-31T00:00Z 2024-03-31T02:00Z"], 2),
            (4, [], 5),
            (4, [lines[4]] * 2, 6),
            (6, [], 7),
            (8, ["x", "end"], 9),
            (8, ["\udcff", "end"], 9),
            (2, ["replicas 1 "], 3),
        ):
            self.assertEqual(audit(joined(ONE_REPLICA, [*lines[:place], *others, *lines[place + 1 :]])), (number, OTHER_REPORT), others)
        # The journal comes first.
        self.assertEqual(audit(joined(ONE_REPLICA, [lines[0], *lines[2:-1]])), (len(lines) - 1, MISSING))

    def test_limits(self):
        most = 1_048_576
        run = b"x" * (most - 1) + b"\n"
        self.assertFalse(is_too_long(run))
        self.assertTrue(is_too_long(b"x" + run))
        self.assertFalse(is_too_long(run + b"cron report 1\nend\n" + b"y\n" * 100))
        self.assertTrue(is_too_long(b"x" + run + b"cron report 1\nend\n"))
        self.assertFalse(is_too_long(b"cron report 1\n" + b"y" * (64 * most - 14)))
        self.assertTrue(is_too_long(b"cron report 1\n" + b"y" * (64 * most - 13)))


class Manual(unittest.TestCase):
    """The examples of docs/AUDIT.md."""

    ROW = re.compile(r"\| (\d) \| .* \| `(.*)` \| `(.*)` \|")

    def read(self, *path):
        with open(os.path.join(ROOT, *path), encoding="utf-8") as file:
            return file.read()

    def ran(self, words, text):
        return subprocess.run(words, input=text.encode(), stdout=subprocess.PIPE, check=True).stdout

    def test_each_answer(self):
        run, rows = self.read("examples", "three_launches"), self.ROW.findall(self.read("docs", "AUDIT.md"))
        self.assertEqual([why for why, _, _ in rows], ["1", "2", "3", "4", "5"])
        told = "".join(f"{line}\n" for line in written(run))
        self.assertEqual(answer((run + told).encode()), "audit yes\n")
        for why, example, said in rows:
            self.assertEqual(answer(run.encode() + self.ran(["sed", example], told)), f"{said}\n", why)

    def test_events(self):
        run, manual = self.read("examples", "two_replicas"), self.read("docs", "AUDIT.md")
        events = self.read("examples", "two_replicas.events")
        for changed, said in ((events, "29 4"), (events.replace("1 hear a2", "1 hear a1"), "16 3"), (events.replace("done", "late"), "21 2")):
            journal = self.ran([os.path.join(ROOT, "examples", "journal_of.py")], changed)
            self.assertEqual(answer(run.encode() + b"cron report 1\nend\n" + journal), f"audit no {said}\n")
        self.assertIn("\n    audit no 29 4\n", manual)

    def test_more_events(self):
        for events, lines in (
            ("1 stop kept hear x # within a write\n\n", ["0 1 stop kept hear 0"]),
            ("0 stop lost tick 59\n- arrive 3\nwalk\nend\n", ["0 0 stop lost tick 1970-01-01T00:00Z", "1 - arrive 3", "command end", "end"]),
        ):
            told = self.ran([os.path.join(ROOT, "examples", "journal_of.py")], f"command\n0 campaign sends x\ncommand\n{events}").decode()
            lines = [re.sub(r"^\d+", lambda number: str(int(number[0]) + 1), line) for line in lines]
            self.assertEqual(told.splitlines(), ["cron journal 1", "command 1", "0 0 campaign", "command 2", *lines])


class Made(unittest.TestCase):
    def test_runs_are_good(self):
        for make in (script_run, free_run, break_run, version_run):
            for seed in SEEDS[:6]:
                self.assertEqual(answer(joined(make(seed), written(make(seed), seed))), "audit yes\n", (make.__name__, seed))
        for name, text, _ in KNOWN[4:]:
            self.assertIsNone(audit(joined(text, written(text))), name)

    def test_versions_of_a_table(self):
        """Turn 9, in line 21 behind a report of nine lines, adopts a version at half past; without that one it starts a launch later."""
        name, text, _ = KNOWN[-3]
        self.assertEqual((name, without_last_version(text)), ("two versions of a table", ONE_REPLICA))
        for run, other, clock in ((text, ONE_REPLICA, "40"), (ONE_REPLICA, text, "30")):
            lines = written(other)
            self.assertEqual(lines[20], f"9 0 tick 2024-03-31T00:{clock}Z")
            self.assertEqual(audit(joined(run, lines)), (21, NOT_OBEYED))
        lines = written(text)
        legal, report = "9 0 tick 2024-03-31T00:29Z", "job alice:1 launched 2 void 0"
        for place, line, why in ((20, "9 0 answer", NOT_LEGAL), (20, legal, NOT_OBEYED), (4, report, OTHER_REPORT)):
            self.assertEqual(audit(joined(text, [*lines[:place], line, *lines[place + 1 :]])), (place + 1, why))

    def test_damage_is_found(self):
        """Of a run in rounds, once its journal alone is damaged, the first line that was changed is at fault."""
        text = script(f"campaign 0; break 1 2 1; fate 0 late; round {ONE} 5; stop 0; restart 1; campaign 1; arrive 0; round {ONE} 3")
        told = told_of(text, "".join(f"{line}\n" for line in written(text)))
        before, whys = told.content().split(b"\n"), set()
        for seed in SEEDS:
            for content in damaged(random.Random(seed), told, told):
                line, why = audit(content)
                whys.add(why)
                lines = content.split(b"\n")
                first = next((number for number, (old, new) in enumerate(zip(before, lines)) if old != new), len(lines) - 1)
                if first >= text.count("\n") + len(told.report):
                    self.assertEqual(line, first + 1 - text.count("\n"))
        self.assertEqual(whys, {BAD_LINE, NOT_LEGAL, NOT_OBEYED, MISSING, OTHER_REPORT})

    def test_damage_comes_of_its_seed(self):
        text = script(f"campaign 0; round {ONE} 5")
        told = told_of(text, "".join(f"{line}\n" for line in written(text)))
        twice = [damaged(random.Random(3), told, told) for _ in range(2)]
        self.assertEqual(*twice)
        self.assertNotIn(told.content(), twice[0])


if __name__ == "__main__":
    unittest.main()
