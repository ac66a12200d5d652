#!/usr/bin/env python3
"""Tests of stores and nodes on disks that stop, in the small world: what commands of store_play come to, and which bytes are letters. What
has to come was worked out by hand.

Usage: tools/test_store.py [NAME..]
"""
import unittest
from unittest import mock

from small_world.disk import Disk
from small_world.files import BODY, base_bodies, kept_by
from small_world.jobs import Version
from small_world.laws import Broken
from small_world.launches import LAUNCH, NOOP, VOID, End, Row, Start, Table, apply
from small_world.letters import fault_of, letter_bytes, packets_in
from small_world.replica import Accept, Accepted, AskFrom, Kept, Known, Lead, Nack, Prepare, Promise, Snap, Vote
from small_world.store import text_of
from small_world.store_made import Commands

SEEDS = range(60)
FRESH = ["kept: tried 0, promised none, base 0", "row job 0", "row table"]
TRIED = ["kept: tried 1, promised 1.0, base 0", "row job 0", "row table"]
# The record of ballot 1.0 as one that is tried, behind an open gate and before a shut one.
RECORD = f"01{'01' + 14 * '00' + '08' + 40 * '00'}00"
PREPARE = "01010000" + "00000000" + "0000000000000009" + 40 * "00"
# A table with one job, of one version, and its rows.
VERSIONS = [Version(0, ["a job"])]
ROWS = [Row(20, 21, None, 1, 2), Row()]
# Rows that aren't those of such a table: one too few, as they were before the table had a row of its own; one too many; and with a last
# one that has what the table's own may not have.
OTHER_OWN = [Row(20), Row(20, 21), Row(last=20), Row(launched=1), Row(20, launched=1), Row(voided=1)]
OTHER_ROWS = [[Row()], [Row()] * 3, *([Row(), own] for own in OTHER_OWN)]
PACKETS = [
    Known(0, NOOP),
    Known(1, Start(1, 20, 21)),
    Known(2, Table(1, 22)),
    Nack(9, 17),
    Promise(10, 3, {3: Vote(9, NOOP), 5: Vote(8, End(0, 40, LAUNCH)), 6: Vote(8, Table(2**32 - 1, -1))}),
    Accepted(9, 2),
    AskFrom(7),
    Lead(9, 8),
    Snap(5, ROWS),
]


def told(*commands):
    """What comes of the last of the commands, on a disk of replica 0 of three with one job."""
    text = text_of("".join(f"> {command}\n" for command in ("disk 3 0 1", *commands)))
    return [line.strip() for line in text.rpartition("> ")[2].split("\n")[1:-1]]


class Stores(unittest.TestCase):
    def test_what_a_stop_leaves(self):
        """A record's gate is written by the third call and synced by the fourth; image 1 and 5 show it as 1, and image 8 as 2."""
        for calls in range(4):
            for image in (0, 1, 2, 5, 8):
                kept = TRIED if calls >= 2 and image in (1, 5) else FRESH
                stopped = "attach", f"arm {calls} {image}", "save tried 1.0"
                self.assertEqual(told(*stopped), ["fault Stopped"])
                self.assertEqual(told(*stopped, "attach"), ["fault Stopped"])
                self.assertEqual(told(*stopped, "revive", "attach"), kept, (calls, image))
        self.assertEqual(told("attach", "arm 4 0", "save tried 1.0", "keeps"), TRIED)
        self.assertEqual(told("attach", "arm 0 0", "disarm", "save tried 1.0"), ["saved"])

    def test_what_files_have(self):
        self.assertEqual(told("files"), ["chooser none", "area 0 none", "area 1 none"])
        self.assertEqual(told("attach", "stop", "files"), ["chooser none", "area 0 00", "area 1 none"])
        self.assertEqual(told("attach", "save tried 1.0", "stop", "files")[1], f"area 0 {RECORD}")
        base = "attach", "save base 1; row job 0"
        self.assertEqual(told(*base, "stop", "files")[0], "chooser 01")
        self.assertEqual(told(*base, "save base 2; row job 0", "stop", "files")[0], "chooser 00")

    def test_the_rows_of_a_base(self):
        """The table's own row stands behind those of the jobs. It needn't be told, and another one doesn't stand."""
        saved = ["kept: tried 0, promised none, base 1", "row job 0, launched 2", "row table"]
        for rows in ("row job 0, launched 2", "row job 0, launched 2; row table"):
            self.assertEqual(told("attach", f"save base 1; {rows}", "keeps"), saved)
        for rows in ("row table", "row job 0; row job 1", "row job 0; row job 1; row table", "row job 0; row table, launched 1"):
            self.assertEqual(told("attach", f"save base 1; {rows}"), ["refused: the change may not follow what is kept"])

    def test_a_vote_for_a_version(self):
        """Its record has tag 4, the version in job and the minute in now."""
        vote = "1.1 at 2 version 1 2024-03-31T00:30Z"
        record = f"03000400{'00000001'}{'0000000000000009'}{'0000000000000002'}{16 * '00'}{'0000000001b3583e'}{8 * '00'}"
        saved = "attach", f"save voted {vote}"
        self.assertEqual(told(*saved, "stop", "files")[1], f"area 0 01{record}00")
        self.assertEqual(told(*saved, "stop", "attach"), ["kept: tried 0, promised 1.1, base 0", f"vote {vote}", *FRESH[1:]])

    def test_rows_that_stand_for_nothing(self):
        def kept(rows):
            return kept_by([BODY.unpack(one) for one in base_bodies(Kept(0, 0, {}, 0, []), 0, 5, rows)], VERSIONS)

        self.assertEqual(kept(ROWS), Kept(0, 0, {}, 5, ROWS))
        for rows in OTHER_ROWS:
            self.assertIsNone(kept(rows), rows)

    def test_what_an_attach_does(self):
        """It syncs the chooser and an area, and writes and syncs a gate."""
        for calls in range(4):
            self.assertEqual(told(f"arm {calls} 1", "attach"), ["fault Stopped"])
        self.assertEqual(told("arm 4 1", "attach"), FRESH)
        self.assertEqual(told("attach", "stop", "arm 2 1", "attach"), FRESH)

    def test_what_cannot_be_done(self):
        changes = "save tried 1.0", "save promised 1.1"
        for refused in ("tried 2.0", "promised 1.1", "voted 1.0 at 0 noop", "base 0; row job 0", "base 1", "base 1; row job 1"):
            held = ["saved"] if refused == "tried 2.0" else ["refused: the change may not follow what is kept"]
            self.assertEqual(told("attach", *changes, f"save {refused}"), held)
        self.assertEqual(told("save tried 1.0"), ["refused: nothing is attached"])
        self.assertEqual(told("attach", "campaign"), ["refused: a store is attached"])
        self.assertEqual(told("start", "revive"), ["refused: a node runs"])
        self.assertEqual(told("start", "arm 0 0", "campaign", "arm 0 0"), ["refused: the node was stopped"])
        self.assertEqual(text_of("> attach\n"), "> attach\n  refused: there is no disk\n")


class Nodes(unittest.TestCase):
    def test_what_a_stop_keeps(self):
        for image, kept, round_next in ((0, "was lost", 1), (1, "was kept: tried 1.0", 2)):
            stopped = "start", f"arm 3 {image}", "campaign"
            self.assertEqual(told(*stopped), ["fault Stopped"])
            self.assertEqual(told(*stopped, "reopen"), [kept])
            self.assertEqual(told(*stopped, "reopen", "start", "campaign")[0], f"delta tried {round_next}.0")

    def test_letters(self):
        promise = "0200" + PREPARE[4:]
        self.assertEqual(told("start", f"hear {PREPARE}"), ["delta promised 1.1", f"letter to 1: {promise}"])
        self.assertEqual(told("start", f"hear {PREPARE[:-2]}"), ["fault Letter(BadLength { packet: 0 })"])
        self.assertEqual(told("start", f"hear {PREPARE}{PREPARE}"), ["fault Letter(BadGroup { packet: 1 })"])
        self.assertEqual(told("start", "tick 2024-03-31T01:00Z")[0][:27], "refused: the stamp is outsi")

    def test_an_adoption_of_no_version(self):
        """Where the table has one version, an adoption of another is learned, and the launch table stays as it is."""
        known = letter_bytes(1, [Known(0, Table(1, 20))]).hex()
        self.assertEqual(told("start", f"hear {known}"), ["learned 0: version 1 minute 20"])
        rows = list(ROWS)
        apply(VERSIONS, rows, Table(1, 22))
        self.assertEqual(rows, ROWS)

    def test_snapshots(self):
        """A letter whose snapshot hasn't the rows of the table is heard as one without packets."""
        change = "delta base 5; row job 0, cursor minute 20, open minute 21, launched 1, voided 2; row table"
        for rows in (ROWS, *OTHER_ROWS):
            heard = told("start", f"hear {letter_bytes(1, [Snap(5, rows)]).hex()}")
            self.assertEqual(heard, [change] if rows == ROWS else [], rows)

    def test_numbers_beyond_bounds(self):
        saved = "attach", f"save tried {2**59}.0", "stop", "start"
        self.assertEqual(told(*saved, "campaign"), ["refused: the replica's numbers are beyond its bounds"])


class Letters(unittest.TestCase):
    def test_there_and_back(self):
        content = letter_bytes(2, PACKETS)
        self.assertIsNone(fault_of(content, 3))
        self.assertEqual(packets_in(content), (2, PACKETS))

    def fault(self, *changes, packets=(Prepare(9, 0),), members=3):
        """The fault of a letter in which bytes are other ones."""
        content = bytearray(letter_bytes(1, packets))
        for place, byte in changes:
            content[place] = byte
        return fault_of(bytes(content), members)

    def test_rules(self):
        self.assertEqual(fault_of(b"", 3), ("BadLength", 0))
        for changes, name in [
            ([(0, 0)], "BadKind"),
            ([(0, 12)], "BadKind"),
            ([(2, 1)], "NotZero"),
            ([(3, 1)], "NotZero"),
            ([(55, 1)], "NotZero"),
            ([(1, 3)], "BadMember"),
            ([(15, 11)], "BadMember"),
            ([(15, 1)], "BadMember"),
        ]:
            self.assertEqual(self.fault(*changes), (name, 0), changes)
        row = Row(20, 21, 22, 1, 2)
        rows = [(2, 2, "BadKind"), (2, 8, "BadKind"), (11, 1, "BadKind"), (2, 1, "NotZero"), (7, 1, "BadGroup"), (1, 2, "BadMember")]
        for place, byte, name in rows:
            self.assertEqual(self.fault((56 + place, byte), packets=[Snap(5, [row])]), (name, 1), place)

    def test_entries(self):
        """A no-op uses no field, an end no now, an adoption no at; there is no tag above 4."""
        start, table = Start(1, 20, 21), Table(1, 21)
        entries = [
            (start, (2, 5), "BadKind"),
            (start, (2, 4), "NotZero"),
            (start, (2, 2), "NotZero"),
            (table, (39, 1), "NotZero"),
            (table, (55, 1), "NotZero"),
            (table, (2, 3), "NotZero"),
            (table, (2, 5), "BadKind"),
            (NOOP, (7, 1), "NotZero"),
            (End(1, 20, VOID), (47, 1), "NotZero"),
        ]
        for entry, change, name in entries:
            self.assertEqual(self.fault(change, packets=[Accept(9, 0, entry)]), (name, 0), (entry, change))
        for place in (4, 7, 40, 47):
            self.assertIsNone(self.fault((place, 255), packets=[Accept(9, 0, table)]), place)

    def test_groups(self):
        promise = Promise(10, 3, {3: Vote(9, NOOP)})
        self.assertEqual(self.fault((31, 2), packets=[promise]), ("BadGroup", 2))
        self.assertEqual(self.fault((31, 0), packets=[promise]), ("BadGroup", 1))
        self.assertEqual(self.fault((31, 2), packets=[promise, Lead(9, 0)]), ("BadGroup", 2))
        self.assertEqual(self.fault(packets=[Accept(9, 0, NOOP), Snap(5, [])]), ("BadGroup", 1))
        self.assertEqual(len(letter_bytes(1, [promise])), 2 * BODY.size)


class Made(unittest.TestCase):
    def test_made_commands(self):
        """What comes of commands is what came of them as they were made."""
        for seed in SEEDS:
            text = Commands(seed).text()
            self.assertEqual(text_of("".join(f"{line}\n" for line in text.split("\n") if line.startswith("> "))), text, seed)

    def test_wrong_disks(self):
        """A disk that decides otherwise by arithmetic than by its bytes is found."""
        for wrong in (lambda disk, change, byte: byte == 1, lambda disk, change, byte: byte % 2 == 1):
            with mock.patch.object(Disk, "is_after", wrong), self.assertRaisesRegex(Broken, "its files stand for what is kept"):
                for seed in range(500):
                    Commands(seed)


if __name__ == "__main__":
    unittest.main()
