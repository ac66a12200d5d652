#!/usr/bin/env python3
"""Tests of free turns in the small world: what a turn is by what its replica saw, which journals are refused, and why, and what is
seen of the board.

Usage: tools/test_free.py [NAME..]
"""
import random
import unittest

from small_world.changed import changed
from small_world.made import free_run
from small_world.replay import Followed, Recorded, Replay
from small_world.run_file import RunFile
from small_world.texts import journal_of, report_of, watch_of
from small_world.verdict import fault_of
from small_world.world import World

SEEDS = range(40)
STAMP = "2024-03-31T00:00Z"


def run_of(members, *script, entry="0 0 31 2 *"):
    """A run over an hour whose one job is due at that time; of itself never."""
    head = ["cronrun 1", f"replicas {members}", f"window {STAMP} 2024-03-31T01:00Z", "grace 5", "crontab alice UTC 1"]
    return RunFile("\n".join([*head, f"{entry} x", "script", *script, "end", ""]))


class Ordered(World):
    """A world whose free turns come in an order that is given."""

    def __init__(self, run, order):
        super().__init__(run)
        self.given = iter(order)

    def whose_turn(self, part):
        return next(self.given)


def lines_of(world):
    """The lines of a journal between the first one and `end`."""
    return journal_of(world).split("\n")[1:-2]


class Free(unittest.TestCase):
    def played(self, run, order):
        """The lines of free turns in that order, up to the next command."""
        lines = lines_of(Ordered(run, order).play())
        self.assertIsNone(fault_of(run, lines))
        return lines[: lines.index("command end")]

    def test_what_came_after_the_turn_before_was_not_seen(self):
        run = run_of(2, f"free {STAMP} 3")
        told = [
            "command 1",
            "0 0 campaign",
            # The letter of turn 0 wasn't there as the part began.
            f"1 1 tick {STAMP}",
            f"2 0 tick {STAMP}",
            "3 1 hear 0",
            # The answer to it came in turn 3, and the look was in turn 2.
            f"4 0 tick {STAMP}",
            f"5 1 tick {STAMP}",
        ]
        self.assertEqual(self.played(run, [0, 1, 0, 1, 0, 1]), told)
        told = ["command 1", *(f"{turn} 1 tick {STAMP}" for turn in range(3)), "3 0 campaign"]
        self.assertEqual(self.played(run, [1, 1, 1, 0, 0, 0])[:5], told)

    def test_each_stands_for_leader_in_a_turn_of_its_own(self):
        run = run_of(3, "cut 0 1", "cut 0 2", "cut 1 0", "cut 1 2", "cut 2 0", "cut 2 1", f"free {STAMP} 90")
        stood = [line.split(" ") for line in self.played(run, [0] * 90 + [1] * 90 + [2] * 90) if line.endswith("campaign")]
        turns = [(int(who), int(turn) - 90 * int(who)) for turn, who, _ in stood]
        self.assertEqual(turns, [(0, 0), (0, 64), (1, 8), (1, 72), (2, 16), (2, 80)])

    def test_a_leader_goes_on_and_takes_answers(self):
        run = run_of(1, "skew 0 7", f"free {STAMP} 5", entry="7 * * * *")
        late = "2024-03-31T00:07Z"
        told = ["0 0 campaign", f"1 0 tick {late}", f"2 0 tick {late} done alice:1@20240331T0007Z launch", "3 0 answer"]
        self.assertEqual(self.played(run, [0] * 5), ["command 1", "command 2", *told, f"4 0 tick {late}"])

    def test_who_is_stopped_has_no_turns(self):
        run = run_of(3, "stop 1", f"free {STAMP} 2")
        owners = [line.split(" ")[1] for line in self.played(run, [0, 2, 0, 2])[3:]]
        self.assertEqual(owners, ["0", "2", "0", "2"])

    def refused(self, run, order, *pairs):
        """What is told of a journal with other lines."""
        text = "\n".join(lines_of(Ordered(run, order).play()))
        for line, other in pairs:
            self.assertIn(f"\n{line}\n", text)
            text = text.replace(f"\n{line}\n", f"\n{other}\n" if other else "\n", 1)
        return fault_of(run, text.split("\n"))

    def test_why_a_line_is_refused(self):
        run, order = run_of(2, f"free {STAMP} 3"), [0, 1, 0, 1, 0, 1]
        seen = "directly after its turn before"
        waits = f"letter 0 was the first that waited for replica 1 {seen}"
        rests = f"no letter and no answer waited for replica 0 {seen}"
        for number, line, other, why in (
            (6, "3 1 hear 0", f"3 1 tick {STAMP}", f"worked out here it is '3 1 hear 0': {waits}"),
            (7, f"4 0 tick {STAMP}", "4 0 hear 1", f"worked out here it is '4 0 tick {STAMP}': {rests}"),
            (8, f"5 1 tick {STAMP}", f"5 0 tick {STAMP}", "replica 0 has had all its turns, which are 3"),
            (6, "3 1 hear 0", "3 2 campaign", "replica 2 doesn't run"),
        ):
            self.assertEqual(self.refused(run, order, (line, other)), f"line {number} of the journal is '{other}', and {why}")
        why = "line 8 of the journal is 'command end', where each replica that runs has 3 turns: replica 1 has had 2"
        self.assertEqual(self.refused(run, order, (f"5 1 tick {STAMP}", None)), why)

    def test_the_order_may_settle_what_is_launched(self):
        """The example without a report in docs/SCRIPTS.md: the minutes of grace end behind the free turns."""
        head, job = ["cronrun 1", "replicas 3", f"window {STAMP} 2024-03-31T04:00Z", "grace 5"], ["crontab alice UTC 1", "0 1 * * * x"]
        for turns, outcomes in ((20, {"launched 0 void 1", "launched 1 void 0"}), (60, {"launched 1 void 0"})):
            script = ["campaign 0", f"free 2024-03-31T01:00Z {turns}", *["round 2024-03-31T01:06Z 1"] * (turns == 20)]
            run = RunFile("\n".join([*head, *job, "script", *script, "end", ""]))
            told = {report_of(World(run, seed).play()).split("job alice:1 ")[1].split("\n")[0] for seed in SEEDS}
            self.assertEqual(told, outcomes)

    def test_what_is_seen_of_the_board(self):
        for script, lines in (
            ([f"free {STAMP} 2"], ["watch 1 1 1"]),
            ([f"free {STAMP} 20"], ["watch 1 2 0"]),
            (["stop 0", f"free {STAMP} 20"], ["watch 2 0 0"]),
            (["campaign 0", f"round {STAMP} 4"], []),
            # What rounds have learned is shown after a free turn.
            (["campaign 0", f"round {STAMP} 4", f"free {STAMP} 1"], ["watch 3 2 0"]),
            # It starts again, and has to learn anew what the board shows.
            ([f"free {STAMP} 4", "stop 0", "restart 0", f"free {STAMP} 1"], ["watch 1 2 0", "watch 4 2 0"]),
            # Its disk stops as it saves the vote by which it would learn the first entry, be that kept or not.
            (["break 0 4 0", f"free {STAMP} 20"], ["watch 2 0 0"]),
            (["break 0 7 1", f"free {STAMP} 20"], ["watch 2 0 0"]),
        ):
            world = World(run_of(1, *script, entry="0,20,40 * * * *")).play()
            self.assertEqual(watch_of(world).splitlines(), lines, script)

    def test_rounds_are_judged_too(self):
        run = run_of(2, "campaign 0", f"round {STAMP} 1")
        why = self.refused(run, [], ("1 0 tick 2024-03-31T00:00Z", "1 0 tick 2024-03-31T00:01Z"))
        told = "line 5 of the journal is '1 0 tick 2024-03-31T00:01Z', and worked out here it is '1 0 tick 2024-03-31T00:00Z'"
        self.assertEqual(why, told)
        lines = lines_of(World(run).play())
        self.assertIn("is 'command 9', and worked out here it is 'end'", fault_of(run, [*lines, "command 9"]))
        self.assertIn(f"is 'end', and worked out here it is {lines[-1]!r}", fault_of(run, lines[:-1]))

    def test_made_runs(self):
        chance = random.Random(0)
        for seed in SEEDS:
            run = RunFile(free_run(seed))
            lines = lines_of(World(run, seed).play())
            self.assertIsNone(fault_of(run, lines), seed)
            other = changed(chance, lines)
            self.assertTrue(other == lines or fault_of(run, other), (seed, other))

    def test_orders_differ(self):
        run = RunFile(free_run(1))
        texts = {journal_of(World(run, seed).play()) for seed in range(5)}
        self.assertEqual(len(texts), 5)
        self.assertEqual(journal_of(World(run, 3).play()), journal_of(World(run, 3).play()))

    def test_those_who_show_a_run_follow_it(self):
        run = RunFile(free_run(4))
        world = Recorded(run, 9).play()
        for other in (Followed(run, lines_of(world)).play(), Replay(run).play_lines(lines_of(world))):
            self.assertEqual((other.roles, other.heard, report_of(other)), (world.roles, world.heard, report_of(world)))


if __name__ == "__main__":
    unittest.main()
