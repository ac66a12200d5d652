#!/usr/bin/env python3
"""Tests of tools/timeline: which marks its pictures and pages have, what it says of a journal, and what it refuses.

Usage: tools/test_timeline.py [NAME..]
"""
import io
import json
import os
import re
import subprocess
import tempfile
import unittest
from contextlib import redirect_stderr, redirect_stdout
from unittest import mock
from xml.etree import ElementTree

from small_world.made import break_run
from small_world.run_file import RunFile
from small_world.texts import journal_of, report_of, watch_of
from small_world.world import World
from timeline_lib.command import run

ROOT = os.path.dirname(os.path.dirname(os.path.abspath(__file__)))
TOOL = os.path.join(ROOT, "tools", "timeline")
SVG = "{http://www.w3.org/2000/svg}"
# Two replicas that make a launch in each minute of most of a day.
MANY = """\
cronrun 1
replicas 2
window 2024-03-31T00:00Z 2024-03-31T16:00Z
grace 1440
crontab alice UTC 1
* * * * * poll the mail
script
end
"""
# Three replicas, of which one stands for leader, and all go on by themselves.
FREE = """\
cronrun 1
replicas 3
window 2024-03-31T00:00Z 2024-03-31T02:00Z
grace 5
crontab alice UTC 1
0 1 * * * make a backup
script
campaign 0
free 2024-03-31T01:00Z 8
end
"""
# Three replicas with one job, at one o'clock; and one that makes a launch in each minute of two hours. Their scripts follow.
BROKEN = """\
cronrun 1
replicas 3
window 2024-03-31T00:00Z 2024-03-31T04:00Z
grace 5
crontab alice UTC 1
0 1 * * * make a backup
script"""
MINUTES = """\
cronrun 1
replicas 1
window 2024-03-31T00:00Z 2024-03-31T02:00Z
grace 120
crontab alice UTC 1
* * * * * poll the mail
script"""
ONE, LAST = "2024-03-31T01:00Z", "2024-03-31T01:59Z"
ROUND = f"round {ONE} 1"


def example(name):
    return os.path.join(ROOT, "examples", name)


def world_of(name):
    with open(example(name), encoding="utf-8") as file:
        return World(RunFile(file.read())).play()


class Timeline(unittest.TestCase):
    def setUp(self):
        self.folder = tempfile.TemporaryDirectory()
        self.addCleanup(self.folder.cleanup)
        self.journal = os.path.join(self.folder.name, "journal")

    def write(self, text, name="journal"):
        path = os.path.join(self.folder.name, name)
        with open(path, "w", encoding="utf-8") as file:
            file.write(text)
        return path

    def ran(self, *words):
        """The status, the output and the notes of the tool, which runs in this process."""
        output, notes = io.StringIO(), io.StringIO()
        with redirect_stdout(output), redirect_stderr(notes):
            try:
                status = run(list(words))
            except SystemExit as end:
                status = end.code
        return status, output.getvalue(), notes.getvalue()

    def picture(self, name, *words):
        status, output, notes = self.ran(example(name), *words)
        self.assertEqual((status, notes), (0, ""))
        return ElementTree.fromstring(output)

    def titles(self, picture, form, kind):
        """The titles of the marks of a form and a kind, or of the groups that they stand in, but for those of the legend, which
        have none."""
        found = []
        for group in picture.iter():
            own = group.find(SVG + "title") if group.tag == SVG + "g" else None
            for mark in group:
                title = mark.find(SVG + "title") if own is None else own
                found += [title.text] if (mark.tag, mark.get("class")) == (SVG + form, kind) and title is not None else []
        return found

    def texts(self, picture, kind=None):
        """The texts of a picture, or those of a kind."""
        return ["".join(text.itertext()) for text in picture.iter(SVG + "text") if kind in (None, text.get("class"))]

    def letters(self, picture):
        return self.titles(picture, "line", "letter") + self.titles(picture, "path", "letter")

    def data(self, page):
        """What the script of a page draws from."""
        return json.loads(re.search(r'(?s)<script type="application/json" id="data">(.*?)</script>', page)[1])

    def test_marks_of_a_takeover(self):
        world = world_of("takeover")
        picture = self.picture("takeover", "--alone")
        heard = [turn.operand for turn in world.turns if turn.word == "hear"]
        self.assertEqual(len(self.letters(picture)), len(heard))
        self.assertEqual(len(self.titles(picture, "line", "lost")), len(world.letters) - len(set(heard)))
        name = "calls for alice:1@20240331T0100Z, a launch: the answer is a launch"
        self.assertEqual(self.titles(picture, "circle", "launch")[0], f"turn 18: replica 0 {name}")
        self.assertEqual(self.titles(picture, "circle", "found"), [f"turn 29: replica 1 {name} that was made before"])
        bands = self.titles(picture, "rect", "leader")
        told = ["0: leader 1.0, turns 6 to 20", "1: leader 2.1, turns 28 to 40", "1: leader 3.1, turns 48 to 112"]
        self.assertEqual(bands, [f"replica {band}" for band in told])
        self.assertEqual(self.titles(picture, "rect", "stopped"), ["replica 0: stopped, turns 21 to 39"])
        self.assertEqual(self.titles(picture, "rect", "stop"), ["turn 21: replica 0 stops"])
        labels = ["stands 1.0", "leads 1.0", "stopped", "stands 2.1", "leads 2.1", "stands 3.1", "leads 3.1"]
        names = ["alice:1 01:00", "alice:1 01:00", "alice:2 02:30"]
        self.assertEqual(self.texts(picture, "label"), [*labels, *names])

    def test_what_is_read_of_a_picture(self):
        picture = self.picture("takeover", "--alone", "--until", "30")
        self.assertEqual(picture.find(SVG + "title").text, "takeover: turns 0 to 29 of 113 of a run of 3 replicas")
        said = picture.find(SVG + "desc").text.split(". ")
        self.assertEqual(said[:3], [
            "Turn 0: replica 0 stands for leader in ballot 1.0",
            "Turn 6: replica 0 leads in ballot 1.0",
            "Turn 18: replica 0 calls for alice:1@20240331T0100Z, a launch: the answer is a launch",
        ])
        self.assertIn("Turn 21: replica 0 stops", said)

    def test_lost_letters_end_near_their_sender(self):
        for path in self.picture("leader_cut_off", "--alone", "--from", "34", "--until", "74").iter(SVG + "line"):
            if path.get("class") == "lost":
                self.assertLess(abs(float(path.get("y2")) - float(path.get("y1"))), 30)

    def test_late_call_behind_a_void(self):
        picture = self.picture("late_call", "--alone")
        why = "since its clock reads 2024-03-31T01:10Z, and the grace of 5 minutes ended at 2024-03-31T01:05Z"
        told = f"turn 29: replica 1 calls for alice:1@20240331T0100Z, a void, {why}: the answer is a void"
        self.assertEqual(self.titles(picture, "path", "void"), [told])
        waiting = self.titles(picture, "circle", "waiting")
        self.assertEqual([title.split(": ")[0] for title in waiting], ["turn 18", "turn 40"])
        self.assertTrue(waiting[1].endswith("; something stands there already"))

    def test_snapshot(self):
        tables = self.titles(self.picture("snapshot", "--alone", "--from", "814", "--until", "854"), "rect", "base")
        self.assertEqual(len(tables), 1)
        self.assertTrue(tables[0].startswith("turn 839: replica 2 keeps its launch table at slot "))

    def test_commands(self):
        titles = self.titles(self.picture("snapshot", "--alone", "--from", "814", "--until", "854"), "line", "part")
        self.assertEqual(titles, [".. round 2024-03-31T00:44Z 200", "restart 2", "round 2024-03-31T00:45Z 10"])
        titles = self.titles(self.picture("late_call", "--alone"), "line", "part")
        self.assertEqual(titles[:2] + titles[-1:], ["campaign 0", "fate 0 late; round 2024-03-31T01:00Z 4", "the walk to the end"])

    def test_some_turns_and_one_job(self):
        picture = self.picture("takeover", "--alone", "--from", "80", "--until", "95", "--jobs", "alice:2")
        self.assertEqual(len(self.titles(picture, "circle", "launch")), 1)
        votes = self.titles(picture, "polygon", "vote")
        self.assertTrue(votes and all("alice:2@20240331T0230Z" in vote for vote in votes))
        earlier = self.picture("takeover", "--alone", "--until", "40", "--jobs", "alice:2")
        self.assertEqual(self.titles(earlier, "polygon", "vote") + self.titles(earlier, "circle", "launch"), [])

    def test_a_long_run_is_cut(self):
        self.assertIn("turns 0 to 999 of 1420 are drawn", self.texts(self.picture("snapshot", "--alone")))
        self.assertFalse(any("drawn" in text for text in self.texts(self.picture("takeover", "--alone"))))

    def test_a_launch_alone(self):
        words = ["--alone", "--launch", "alice:2@20240331T0230Z"]
        picture = self.picture("takeover", *words)
        self.assertEqual(self.texts(picture, "label")[-1:], ["alice:2 02:30"])
        self.assertIn("turns 71 to 112 of 113", picture.find(SVG + "title").text)
        lines = self.ran(example("takeover"), *words, "--text")[1].split("\n")
        self.assertEqual(lines[0], "alice:2@20240331T0230Z")
        self.assertEqual(lines[1], "  turn 76: replica 1 proposes its start at slot 2 in ballot 3.1, and votes for it")
        page = self.data(self.ran(example("takeover"), *words, "--page")[1])
        self.assertEqual((page["launches"][page["chosen"]], page["first"]), ("alice:2@20240331T0230Z", 71))
        note = "timeline: no turn is about a launch alice:9@20240331T0230Z\n"
        self.assertEqual(self.ran(example("takeover"), "--alone", "--launch", "alice:9@20240331T0230Z"), (1, "", note))

    def test_each_launch_as_text(self):
        lines = self.ran(example("late_call"), "--alone", "--text", "--from", "29", "--until", "41")[1].split("\n")
        self.assertEqual((lines[0], len(lines)), ("alice:1@20240331T0100Z", 9))
        with open(os.path.join(ROOT, "docs", "FORMATS.md"), encoding="utf-8") as file:
            self.assertIn("".join(f"    {line}\n" for line in lines[:-1]), file.read())
        self.assertEqual(lines[-2], "  turn 40: late call 0 arrives at the scheduler, and finds what was made before")

    def test_free_turns(self):
        run = self.write(FREE, "free")
        note = "timeline: in which order free turns come nothing settles: this is one of many, and --seed draws another\n"
        status, output, notes = self.ran(run, "--alone", "--seed", "4")
        self.assertEqual((status, notes), (0, note))
        picture = ElementTree.fromstring(output)
        self.assertEqual(self.titles(picture, "rect", "free"), ["replicas run by themselves, turns 1 to 24"])
        self.assertIn("free", self.texts(picture, "small"))
        world = World(RunFile(FREE), 4).play()
        self.assertRegex(watch_of(world), r"\Awatch 2 \d \d\n\Z")
        for seen in ("", watch_of(world)):
            self.write(report_of(world) + seen + journal_of(world))
            self.assertEqual(self.ran(run, self.journal), (0, output, ""))
        self.assertNotEqual(self.ran(run, "--alone", "--seed", "5")[1], output)

    def broken(self, *script, head=BROKEN):
        """The picture of a run with a script in which disks stop within a write, and the same from its journal."""
        run = self.write("\n".join([head, *script, "end", ""]), "broken")
        status, output, notes = self.ran(run, "--alone")
        self.assertEqual((status, notes), (0, ""))
        self.write(journal_of(World(RunFile(head + "\n" + "\n".join([*script, "end", ""]))).play()))
        self.assertEqual(self.ran(run, self.journal), (0, output, ""))
        return ElementTree.fromstring(output)

    def test_stops_within_a_write(self):
        """Replica 0 leads and votes for its own proposal first: the last two calls of four show the vote, if the image has it."""
        told = f"turn 8: the disk of replica 0 stops as its clock reads {ONE}: its vote 1.0 at 0 start alice:1@20240331T0100Z is"
        for image, end, votes in ((1, "kept", 1), (0, "lost", 0)):
            picture = self.broken("campaign 0", ROUND, f"break 0 3 {image}", ROUND, "campaign 1", f"round {ONE} 5")
            self.assertEqual(self.titles(picture, "rect", "within"), [f"{told} {end}"])
            self.assertEqual(self.titles(picture, "rect", "stop"), [f"{told} kept"] * votes)
            self.assertEqual(self.titles(picture, "path", "within"), [f"{told} lost"] * (1 - votes))
            own = [vote for vote in self.titles(picture, "polygon", "vote") if vote.startswith("turn 8: replica 0 votes ")]
            self.assertEqual(len(own), votes)
            self.assertIn(f"stops within a write, which is {end}", self.texts(picture))
            self.assertIn(f"T{told[1:]} {end}. ", picture.find(SVG + "desc").text)
            self.assertEqual(self.titles(picture, "rect", "stopped")[0].split(", ")[0], "replica 0: stopped")

    def test_what_a_disk_was_to_save(self):
        ballot, vote = "its own ballot 1.0", "its vote 1.0 at 1 end alice:1@20240331T0100Z launch"
        answer = ["campaign 0", ROUND, "break 0 6 1", f"round {ONE} 4"]
        for script, turn, who, told in (
            (["break 0 2 1", "campaign 0"], 0, 0, f"it stands for leader: {ballot} is kept"),
            (["break 0 0 1", "campaign 0"], 0, 0, f"it stands for leader: {ballot} is lost"),
            (["campaign 0", "break 1 2 2", ROUND], 2, 1, "it hears letter 0: its promise of ballot 1.0 is lost"),
            (answer, 21, 0, f"it takes what the scheduler told it: {vote} is kept"),
        ):
            title = f"turn {turn}: the disk of replica {who} stops as {told}"
            self.assertEqual(self.titles(self.broken(*script), "rect", "within"), [title])
        table = "turn 97: the disk of replica 0 stops as its clock reads 2024-03-31T01:59Z: its launch table at slot 64 is"
        for image, end in ((1, "kept"), (0, "lost")):
            picture = self.broken("campaign 0", f"round {LAST} 64", f"break 0 7 {image}", f"round {LAST} 1", head=MINUTES)
            self.assertEqual(self.titles(picture, "rect", "within"), [f"{table} {end}"])
            self.assertEqual(self.titles(picture, "rect", "base")[0].startswith("turn 97: "), end == "kept")

    def test_what_reached_a_disk_that_stops(self):
        """The letter was heard, though nothing comes of it, and the clock was read."""
        picture = self.broken("campaign 0", "break 1 2 2", ROUND)
        self.assertEqual([letter.split("; ")[-1] for letter in self.letters(picture)][:1], ["heard in turn 2"])
        picture = self.broken("campaign 0", ROUND, "skew 0 30", "break 0 0 0", ROUND)
        self.assertIn("03-31 01:30", self.texts(picture, "small"))

    def test_the_way_of_a_launch_past_a_stop(self):
        for image, end in ((1, "kept"), (0, "lost")):
            self.broken("campaign 0", ROUND, f"break 0 3 {image}", ROUND, "campaign 1", f"round {ONE} 5")
            lines = self.ran(os.path.join(self.folder.name, "broken"), self.journal, "--text")[1].split("\n")
            told = f"  turn 8: the disk of replica 0 stops as it votes for its start at slot 0 in ballot 1.0: the vote is {end}"
            proposed = "  turn 16: replica 1 proposes its start at slot 0 in ballot 2.1, and votes for it"
            self.assertEqual(lines[1:3], [told, proposed])

    def test_made_runs_with_stops(self):
        """Each disk that stops has its sign, whatever the order in which free turns came."""
        for seed in range(6):
            text = break_run(seed)
            lines = journal_of(World(RunFile(text), seed).play())
            self.write(lines)
            status, output, notes = self.ran(self.write(text, "made"), self.journal)
            self.assertEqual((status, notes), (0, ""))
            drawn = [line for line in re.findall(r"(?m)^(\d+) \d stop (?:kept|lost) ", lines) if int(line) < 1_000]
            told = self.titles(ElementTree.fromstring(output), "rect", "within")
            self.assertEqual([title.split(" ")[1] for title in told], [f"{number}:" for number in drawn])

    def test_a_version_that_is_adopted(self):
        """It is drawn in the turn in which it is decided."""
        script = "version 1 2024-03-31T01:30Z\nscript\ncampaign 0\nround 2024-03-31T01:30Z 10\nend\n"
        path = self.write(BROKEN.replace("script", script), "changed")
        said = "urn 39: a majority has voted for version 1 2024-03-31T01:30Z: it is adopted"
        for words, count in (([], 1), (["--from", "39", "--until", "40"], 1), (["--until", "39"], 0), (["--from", "40"], 0)):
            picture = ElementTree.fromstring(self.ran(path, "--alone", *words)[1])
            self.assertEqual(self.titles(picture, "line", "version"), [f"t{said}"] * count, words)
            told = self.texts(picture).count("version adopted"), self.texts(picture, "label").count("version 1")
            self.assertEqual((*told, picture.find(SVG + "desc").text.count(f"T{said}")), (count,) * 3, words)

    def test_a_journal_has_the_same_picture(self):
        world = world_of("leader_cut_off")
        self.write(report_of(world) + journal_of(world))
        read = self.ran(example("leader_cut_off"), self.journal)
        self.assertEqual(read, self.ran(example("leader_cut_off"), "--alone"))

    def test_a_journal_that_differs(self):
        text = journal_of(world_of("takeover"))
        last = text.split("\n")[-3]
        self.write(text.replace(f"{last}\n", ""))
        status, output, notes = self.ran(example("takeover"), self.journal)
        note = f"line {text.count(chr(10)) - 1} of the journal is 'end', and worked out here it is '{last}'"
        self.assertEqual((status, notes), (1, f"timeline: {note}\n"))
        self.assertIn(note, self.texts(ElementTree.fromstring(output)))

    def test_turns_that_cannot_be(self):
        text = journal_of(world_of("takeover"))
        for line, other, number in (
            ("2 1 hear 0", "2 1 hear 1", 6),
            ("21 0 stop", "21 0 restart", 26),
            ("31 1 answer", "31 2 answer", 38),
            ("22 1 campaign", "22 0 campaign", 28),
            ("29 1 tick", "29 1 tock", 36),
            ("23 1 hear 8", "23 1 hear 800", 30),
        ):
            self.write(text.replace(line, other, 1))
            status, output, notes = self.ran(example("takeover"), self.journal)
            self.assertEqual((status, output), (1, ""))
            self.assertRegex(notes, f"line {number} of the journal is no (line|turn) of this run: {other}")

    def test_page(self):
        status, page, notes = self.ran(example("late_call"), "--alone", "--page")
        self.assertEqual((status, notes), (0, ""))
        self.assertTrue(page.startswith("<!DOCTYPE html>"))
        self.assertIn("job alice:1 launched 0 void 1", page)
        self.assertNotRegex(page.replace("http://www.w3.org/2000/svg", ""), "https?://|src=|href=|@import")
        data = self.data(page)
        marks = "".join(mark[-1] for mark in data["marks"])
        self.assertEqual(marks.count("<title>"), len(ElementTree.fromstring(f"<g>{marks}</g>").findall(".//title")))
        self.assertEqual([mark[5] for mark in data["marks"] if mark[5] is not None], [0] * 3)

    def test_way_of_a_launch(self):
        page = self.ran(example("late_call"), "--alone", "--page", "--until", "42")[1]
        way = self.data(page)["ways"][0]
        told = [
            [8, "replica 0 proposes its start at slot 0 in ballot 1.0, and votes for it"],
            [12, "replica 1 votes for its start at slot 0 in ballot 1.0"],
            [12, "a majority has voted for its start: it is decided"],
            [31, "replica 1 takes the answer"],
            [35, "a majority has voted for its end as a void: it is decided"],
            [40, "late call 0 arrives at the scheduler, and finds what was made before"],
        ]
        self.assertEqual([event for event in way if event in told], told)

    def test_page_of_many_turns(self):
        page = self.ran(self.write(MANY, "many"), "--alone", "--page")[1]
        data = self.data(page)
        self.assertRegex(page[:9000], "This page has turns 0 to 19999 of 2[0-9]{4}[.]")
        drawn = [way for way in data["ways"] if way]
        self.assertTrue(800 < len(drawn) < len(data["launches"]) == 960)
        for way in drawn:
            decided = [text for _, text in way if text.endswith(": it is decided")]
            ends = "its start", "its end as a launch"
            self.assertEqual(decided, [f"a majority has voted for {end}: it is decided" for end in ends])

    def test_a_made_run(self):
        """The run that is made has 317,725 turns, so another one stands in for it here."""
        made = {0: MANY, 7: FREE, 2**32 - 1: MANY}
        with mock.patch("timeline_lib.command.made_run", made.get):
            status, output, _ = self.ran("--make", "7", "--alone", "--text")
            self.assertEqual((status, output), (0, self.ran(self.write(FREE, "free"), "--alone", "--text")[1]))
            for seed in (0, 2**32 - 1):
                title = f"the run of seed {seed}: turns 0 to 9 of"
                self.assertIn(title, self.ran("--make", str(seed), "--alone", "--until", "10")[1])
        for words in ([], ["--make", "7", example("takeover")], ["--make", "-1"], ["--make", str(2**32)], ["--make", "x"]):
            self.assertEqual(self.ran(*words, "--alone")[:2], (2, ""))

    def test_a_link_on_the_path(self):
        link = os.path.join(self.folder.name, "timeline")
        os.symlink(TOOL, link)
        done = subprocess.run([link, example("takeover"), "--alone"], capture_output=True, text=True, check=False)
        self.assertEqual((done.returncode, done.stdout, done.stderr), self.ran(example("takeover"), "--alone"))

    def test_refusals(self):
        world = world_of("takeover")
        self.write(report_of(world) + journal_of(world))
        for name, words, note in (
            ("late_call", [], "line 58 of the journal is no line of this run: command end"),
            ("takeover", ["--jobs", "bob:1"], "the run has no job bob:1"),
            ("takeover", ["--from", "113"], "the journal has turns 0 to 112"),
            ("five_replicas", [], "line 11 of the journal is no line of this run: command 1"),
            ("takeover.stdout", [], "is no run file that the program takes"),
        ):
            status, output, notes = self.ran(example(name), self.journal, *words)
            self.assertEqual((status, output), (1, ""))
            self.assertIn(note, notes)
        self.write("cron journal 1\n")
        self.assertEqual(self.ran(example("takeover"), self.journal), (1, "", "timeline: there is no whole journal\n"))
        self.assertEqual(self.ran(example("takeover"), self.journal, "--alone")[0], 2)

    def program(self, script):
        """A program that is a script of the shell."""
        path = self.write(f"#!/bin/sh\n{script}\n", "program")
        os.chmod(path, 0o755)
        return ["--program", path]

    def test_comments_of_a_script(self):
        with open(example("takeover"), encoding="utf-8") as file:
            text = file.read()
        path = self.write(text.replace("stop 0\n", "\n# It stops before anybody hears of it.\nstop 0\n"), "takeover")
        self.assertEqual(self.ran(path, "--alone")[1], self.ran(example("takeover"), "--alone")[1])
        words = self.program(f"cmp - {example('takeover')} >&2; exit 3")
        self.assertEqual(self.ran(path, *words), (1, "", "timeline: the program ends with status 3: \n"))

    def test_a_program_that_is_asked(self):
        world = world_of("takeover")
        self.write(report_of(world) + journal_of(world))
        words = self.program(f'[ "$*" = --journal ] && cmp -s - {example("takeover")} && cat {self.journal}')
        self.assertEqual(self.ran(example("takeover"), *words), self.ran(example("takeover"), "--alone"))
        words = self.program("echo 'cron_cluster: line 6: cause 3 at 0' >&2; exit 2")
        more = f"; `tools/explain {example('takeover')}` tells what is wrong with a script"
        note = f"timeline: the program ends with status 2: cron_cluster: line 6: cause 3 at 0{more}\n"
        self.assertEqual(self.ran(example("takeover"), *words), (1, "", note))
        status, output, notes = self.ran(example("takeover"), "--program", os.path.join(self.folder.name, "none"))
        self.assertEqual((status, output), (1, ""))
        self.assertIn("No such file or directory", notes)

    def told(self, change=lambda lines: lines):
        """The takeover with its report and its journal, whose lines are changed."""
        world = world_of("takeover")
        lines = change((report_of(world) + journal_of(world)).split("\n")[:-1])
        with open(example("takeover"), encoding="utf-8") as file:
            return self.write(file.read() + "".join(f"{line}\n" for line in lines), "told")

    def audited(self, path, *words):
        """The titles of the line at fault in a picture, what the picture has as its note, and how many turns it says."""
        status, output, notes = self.ran("--audit", path, *(words or ["--alone"]))
        picture = ElementTree.fromstring(output)
        said = self.texts(picture, "note")
        self.assertEqual((status, notes), (int(bool(said)), "".join(f"timeline: {note}\n" for note in said)))
        return self.titles(picture, "path", "fault"), said, picture.find(SVG + "title").text.split(": ")[1]

    def test_an_audit_of_a_good_journal(self):
        self.assertEqual(self.audited(self.told())[:2], ([], []))
        words = ["--text", "--alone"]
        self.assertEqual(self.ran("--audit", self.told(), *words), self.ran(example("takeover"), *words))

    def test_the_line_at_fault(self):
        legal = "line 42 is a turn that nobody can take then: 26 1 answer"
        drawn = "turns 0 to 25 of a run of 3 replicas"
        changes = [
            (lambda lines: [*lines[:41], "26 1 answer", *lines[42:]], legal, drawn),
            (lambda lines: [*lines[:41], "x" * 70, *lines[42:]], f"line 42 has no form of a journal's line: {'x' * 60} ..", drawn),
            (lambda lines: [*lines[:41], "26 2 campaign", *lines[42:]], "line 42 isn't what the script asks for then: 26 2 campaign", drawn),
            (lambda lines: lines[:41], "line 42 is missing", drawn),
            (lambda lines: lines[:9], "line 10 is missing", "no turn of a run of 3 replicas"),
        ]
        for change, said, turns in changes:
            self.assertEqual(self.audited(self.told(change)), ([said], [said], turns))

    def test_the_replica_at_fault(self):
        path = self.told(lambda lines: [*lines[:41], "26 1 answer", *lines[42:]])
        page = self.ran("--audit", path, "--alone", "--page")[1]
        [fault] = [mark for mark in self.data(page)["marks"] if "line at fault" not in mark[6] and 'class="fault"' in mark[6]]
        self.assertEqual(fault[2], 1 << 1)
        self.assertEqual(self.audited(path)[0], self.audited(path, "--alone", "--from", "20")[0])
        status, output, _ = self.ran("--audit", path, "--alone", "--until", "20")
        self.assertEqual((status, 'class="fault"' in output), (1, False))

    def test_a_report_at_fault(self):
        path = self.told(lambda lines: [line.replace("launched 1", "launched 2") for line in lines])
        marks, [said], turns = self.audited(path)
        self.assertEqual((marks, turns), ([], "turns 0 to 112 of a run of 3 replicas"))
        self.assertEqual(said, "line 5 of the report is another one: job alice:1 launched 2 void 0")

    def test_a_program_that_audits(self):
        path = self.told()
        words = self.program(f'[ "$*" = --audit ] && cmp -s - {path} && echo "audit no 42 3" && exit 6')
        self.assertEqual(self.audited(path, *words)[0], ["line 42 isn't what the script asks for then: 26 2 hear 11"])
        words = self.program("echo 'cron_cluster: line 0: cause 33 at 0' >&2; exit 2")
        note = "timeline: the program ends with status 2: cron_cluster: line 0: cause 33 at 0\n"
        self.assertEqual(self.ran("--audit", path, *words), (1, "", note))
        for others in ([example("takeover")], ["--make", "7"], ["--seed", "1"]):
            self.assertEqual(self.ran("--audit", path, "--alone", *others)[0], 2)


if __name__ == "__main__":
    unittest.main()
