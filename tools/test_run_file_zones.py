#!/usr/bin/env python3
"""Tests of tools/run_file: the zone of a machine, the files of zones, and the first day of a run.

Usage: tools/test_run_file_zones.py [NAME..]
"""
import os
import struct
import unittest
from datetime import date, datetime, timedelta

from run_file_lib.clocks import ZoneFault, beginning_of, changes_between, clock_at, instants_of, offset_at, read_zone
from run_file_lib.machine_zone import machine_zone, other_zones
from run_file_lib.places import Root
from run_file_lib.zones import Zones
from test_run_file import LOOP, NO_FILE, NOTHING, PARIS, ZONES, RunFileTest

NEW_YORK = ZONES.zone_bytes(ZONES.RULES["America/New_York"])
END = "; name the zone by --zone"
EPOCH = datetime(1970, 1, 1)
# The version, and the numbers of: flags of two kinds, leap seconds, changes, kinds of local time, bytes of names.
HEADER = struct.Struct(">4x1s15x6L")


def block(form, changes, kinds):
    """A header of version 2 and its block: changes as pairs of a second and the place of a kind, kinds as offsets."""
    head = HEADER.pack(b"2", 0, 0, 0, len(changes), len(kinds), 4).replace(bytes(4), b"TZif", 1)
    seconds = struct.pack(f">{len(changes)}{form}", *(second for second, _ in changes))
    places = bytes(place for _, place in changes)
    return head + seconds + places + b"".join(struct.pack(">lBB", offset, 0, 0) for offset in kinds) + b"ABC\0"


def zone_file(changes, kinds, rule):
    """A TZif file of these changes and kinds of local time, with a rule at its end."""
    return block("l", [], kinds[:1]) + block("q", changes, kinds) + b"\n" + rule + b"\n"


class MachineZone(RunFileTest):
    """The zone of a machine."""

    def told(self, *words):
        """The comments about the zone, of a root without tables."""
        status, _, notes = self.ran(*words)
        self.assertEqual((status, notes[-1]), (0, "# there is no table"), notes)
        return [note[2:] for note in notes[:-1]]

    def test_default(self):
        missing = self.file("etc/localtime")
        self.assertEqual(self.told(), [f"the zone of the tables is UTC, by default: there is no {missing}"])

    def test_localtime_decides(self):
        for target in ("../usr/share/zoneinfo/Europe/Paris", "/usr/share/zoneinfo/Europe/Paris"):
            file = self.link("etc/localtime", target)
            self.assertEqual(self.told(), [f"the zone of the tables is Europe/Paris, by {file}"])
            os.remove(file)

    def test_links_to_links(self):
        file = self.link("etc/localtime", "alternatives/zone")
        self.link("etc/alternatives/zone", "../../usr/share/zoneinfo/Europe/Paris")
        self.assertEqual(self.told(), [f"the zone of the tables is Europe/Paris, by {file}"])

    def test_links_stay_below_the_root(self):
        self.link("etc", "/private")
        self.link("private/localtime", "/zones/here")
        self.link("zones", "/private/zones")
        self.link("private/zones/here", "/usr/share/zoneinfo/Europe/Paris")
        self.assertEqual(self.zone_of_the_root(), "Europe/Paris")

    def test_another_timezone(self):
        self.write("usr/share/zoneinfo/America/New_York", NEW_YORK)
        self.write("usr/share/zoneinfo/Europe/Monaco", PARIS)
        file = self.link("etc/localtime", "/usr/share/zoneinfo/Europe/Paris")
        first = f"the zone of the tables is Europe/Paris, by {file}"
        timezone = self.file("etc/timezone")
        for text, name in (
            ("\n America/New_York \n", "America/New_York"),
            ("Mars/Base\n", "Mars/Base"),
            ("Mars\0\n", "Mars\\x00"),
            ("UTC", "UTC"),
        ):
            self.write("etc/timezone", text)
            other = f"{timezone} names {name}, which cron doesn't read; --zone takes another zone"
            self.assertEqual(self.told(), [first, other])
        # The same name, another name of the same file, and none.
        for text in ("Europe/Paris\n", "Europe/Monaco\n", "\n\n"):
            self.write("etc/timezone", text)
            self.assertEqual(self.told(), [first])
        os.remove(timezone)
        os.mkdir(timezone)
        self.assertEqual(self.told(), [first])

    def test_timezone_without_localtime(self):
        file = self.write("etc/timezone", "Europe/Paris\n")
        self.assertEqual(self.told()[1], f"{file} names Europe/Paris, which cron doesn't read; --zone takes another zone")
        self.write("etc/timezone", "Etc/UTC\n")
        self.assertEqual(len(self.told()), 1)

    def zones(self):
        """The zones of the root."""
        return Zones(self.file("usr/share/zoneinfo"), lambda name: Root(self.root).read(f"/usr/share/zoneinfo/{name}"))

    def zone_of_the_root(self):
        """The name of the root's zone."""
        return machine_zone(Root(self.root), self.zones()).name

    def test_variable(self):
        zones = self.zones()
        self.link("etc/localtime", "/usr/share/zoneinfo/Europe/Paris")
        self.assertEqual(self.zone_of_the_root(), "Europe/Paris")
        for text, name in (
            (None, None),
            ("Europe/Paris", None),
            (":Europe/Paris", None),
            ("/usr/share/zoneinfo/Europe/Paris", None),
            (":/etc/localtime", None),
            ("Asia/Tokyo", "Asia/Tokyo"),
            ("CET-1CEST,M3.5.0,M10.5.0/3", "CET-1CEST,M3.5.0,M10.5.0/3"),
            ("", "UTC"),
        ):
            told = list(other_zones(Root(self.root), zones, "Europe/Paris", text))
            expected = f"the variable TZ names {name}, but cron goes by its own environment; --zone takes another zone"
            self.assertEqual(told, [expected] if name else [])

    def test_variable_says_nothing_of_a_copied_root(self):
        self.assertEqual(len(self.ran(environment={"TZ": "Europe/Paris"})[2]), 2)

    def test_file_in_place_of_a_link(self):
        file = self.write("etc/localtime", PARIS)
        self.assertEqual(self.told(), [f"the zone of the tables is localtime, by {file}, which doesn't tell its name"])
        self.write("etc/crontab", "@daily root x\n")
        lines = self.lines()
        self.assertEqual(lines[4:6], [f"zone localtime tzif {PARIS.hex()}", "system etc-crontab localtime 1"])
        os.remove(self.file("etc/crontab"))
        self.write("etc/timezone", "Europe/Paris\n")
        self.assertEqual(self.told(), [f"the zone of the tables is Europe/Paris, by {file}, which is its file"])
        self.write("etc/localtime", NEW_YORK)
        self.assertIn("is localtime, by", self.told()[0])
        # UTC is a zone of each run, and has no line.
        self.write("usr/share/zoneinfo/UTC", NEW_YORK)
        self.write("etc/timezone", "UTC\n")
        self.assertEqual(self.told(), [f"the zone of the tables is UTC, by {file}, which is its file"])
        self.assertEqual(self.lines()[4:], ["script", "end"])
        self.write("etc/timezone", "Europe/Paris\n")
        self.assertIn("names Europe/Paris", self.told()[1])

    def test_faults(self):
        file = self.link("etc/localtime", "/usr/share/zoneinfo/Mars")
        missing = f"there is no zone Mars: {self.file('usr/share/zoneinfo/Mars')}: {NO_FILE} (cause 21)"
        self.assertEqual(self.faults(), [f"{file}: {missing}{END}"])
        os.remove(file)
        self.link("etc/localtime", "/etc/zone")
        self.assertEqual(self.faults(), [f"{file}: it can't be read: {NO_FILE}{END}"])
        self.link("etc/zone", "/etc/zone")
        self.assertEqual(self.faults(), [f"{file}: it can't be read: {LOOP}{END}"])
        os.remove(file)
        self.write("etc/localtime", "no zone")
        message = f"{file}: the zone localtime can't be taken: {file} is no TZif file (cause 32){END}"
        self.assertEqual(self.faults(), [message])


class ZoneFiles(RunFileTest):
    """The files of zones."""

    def test_files_that_cannot_be_taken(self):
        good = zone_file([(0, 1), (9, 0)], [3600, 7200], b"CET-1")
        read_zone("Good", good)
        strange = "is a TZif file that zoneinfo can't read"
        for data, message in (
            (b"# leap seconds\n", "is no TZif file"),
            (b"TZif", strange),
            (good[: len(good) // 2], strange),
            (good[:60], strange),
            (zone_file([], [3600], b"CET"), strange),
        ):
            with self.assertRaises(ZoneFault) as raised:
                read_zone("Bad", data)
            self.assertEqual(str(raised.exception), message)
            file = self.write("usr/share/zoneinfo/Bad", data)
            table = self.write("var/spool/cron/bob", "CRON_TZ=Bad\n")
            fault = f"{table}:1: the zone Bad can't be taken: {file} {message} (cause 32)"
            self.assertEqual(self.faults(), [fault, NOTHING.format("1 fault")])

    def test_files_that_cannot_be_read(self):
        file = self.link("usr/share/zoneinfo/Loop", "Loop")
        table = self.write("var/spool/cron/bob", "CRON_TZ=Loop\n")
        message = f"{table}:1: the zone Loop can't be taken: {file}: {LOOP} (cause 32)"
        self.assertEqual(self.faults()[0], message)
        file = self.write("usr/share/zoneinfo/Long", b"TZif" + bytes(1_048_576))
        self.write("var/spool/cron/bob", "CRON_TZ=Long\n")
        message = f"{table}:1: the zone Long can't be taken: {file}: it has more than 1,048,576 bytes (cause 32)"
        self.assertEqual(self.faults()[0], message)

    def test_local_times(self):
        zone = read_zone("Here", zone_file([(0, 1), (86_400, 0)], [3600, -1800], b""))
        for second, offset in ((-1, 3600), (0, -1800), (86_399, -1800), (86_400, 3600), (10**9, 3600)):
            instant = EPOCH + timedelta(seconds=second)
            self.assertEqual(offset_at(zone, instant), timedelta(seconds=offset))

    def test_version_1(self):
        zone = read_zone("Here", block("l", [(0, 1)], [0, 3600]).replace(b"TZif2", b"TZif\0"))
        self.assertEqual(clock_at(zone, datetime(2024, 7, 1)), datetime(2024, 7, 1, 1))

    def test_rules(self):
        for rule, instant, clock in (
            ("UTC0", (2024, 7, 1, 12, 0), (2024, 7, 1, 12, 0)),
            ("<+0530>-5:30", (2024, 7, 1, 12, 0), (2024, 7, 1, 17, 30)),
            ("CET-1CEST,M3.5.0,M10.5.0/3", (2024, 3, 31, 0, 59), (2024, 3, 31, 1, 59)),
            ("CET-1CEST,M3.5.0,M10.5.0/3", (2024, 3, 31, 1, 0), (2024, 3, 31, 3, 0)),
            ("CET-1CEST,M3.5.0,M10.5.0/3", (2024, 10, 27, 0, 59), (2024, 10, 27, 2, 59)),
            ("CET-1CEST,M3.5.0,M10.5.0/3", (2024, 10, 27, 1, 0), (2024, 10, 27, 2, 0)),
            ("<-03>3<-02>,M3.5.0/-2,M10.5.0/-1", (2024, 3, 31, 0, 59), (2024, 3, 30, 21, 59)),
            ("<-03>3<-02>,M3.5.0/-2,M10.5.0/-1", (2024, 3, 31, 1, 0), (2024, 3, 30, 23, 0)),
            # Summer time over the turn of the year, as in the south.
            ("AEST-10AEDT,M10.1.0,M4.1.0/3", (2024, 12, 31, 12, 59), (2024, 12, 31, 23, 59)),
            ("AEST-10AEDT,M10.1.0,M4.1.0/3", (2024, 1, 1, 0, 0), (2024, 1, 1, 11, 0)),
            ("AEST-10AEDT,M10.1.0,M4.1.0/3", (2024, 7, 1, 0, 0), (2024, 7, 1, 10, 0)),
            # Summer time always.
            ("EST5EDT,0/0,J365/25", (2024, 1, 1, 5, 0), (2024, 1, 1, 1, 0)),
            ("EST5EDT,0/0,J365/25", (2024, 12, 31, 23, 59), (2024, 12, 31, 19, 59)),
            # J60 is 1 March in each year.
            ("AAA0BBB,J60/0,J300", (2024, 2, 29, 23, 59), (2024, 2, 29, 23, 59)),
            ("AAA0BBB,J60/0,J300", (2024, 3, 1, 0, 0), (2024, 3, 1, 1, 0)),
        ):
            zone = read_zone("Here", zone_file([], [0], rule.encode()))
            self.assertEqual(clock_at(zone, datetime(*instant)), datetime(*clock), rule)

    def test_changes(self):
        paris = read_zone("Europe/Paris", PARIS)
        found = list(changes_between(paris, datetime(2024, 3, 31, 1), datetime(2024, 10, 27, 1, 1)))
        spring = (datetime(2024, 3, 31, 1), datetime(2024, 3, 31, 2), datetime(2024, 3, 31, 3))
        autumn = (datetime(2024, 10, 27, 1), datetime(2024, 10, 27, 3), datetime(2024, 10, 27, 2))
        self.assertEqual([tuple(change) for change in found], [spring, autumn])
        self.assertEqual(list(changes_between(paris, datetime(2024, 3, 31, 1, 1), datetime(2024, 10, 27, 1))), [])

    def test_instants(self):
        paris = read_zone("Europe/Paris", PARIS)
        for local, instants in (
            (datetime(2024, 3, 31, 2, 30), []),
            (datetime(2024, 3, 31, 3), [datetime(2024, 3, 31, 1)]),
            (datetime(2024, 10, 27, 2, 30), [datetime(2024, 10, 27, 0, 30), datetime(2024, 10, 27, 1, 30)]),
            (datetime(2024, 7, 1), [datetime(2024, 6, 30, 22)]),
        ):
            self.assertEqual(instants_of(paris, local), instants)


class FirstDay(RunFileTest):
    """The window of a run without --from: the test's now is 17:45 of 30 March 2024 in UTC."""

    def window(self, rule, *words):
        self.write("usr/share/zoneinfo/Here", ZONES.zone_bytes(rule))
        return self.lines("--zone", "Here", *words)[2]

    def test_days_are_those_of_the_zone(self):
        for rule, window in (
            ("CET-1CEST,M3.5.0,M10.5.0/3", "2024-03-29T23:00Z 2024-03-30T23:00Z"),
            ("JST-9", "2024-03-30T15:00Z 2024-03-31T15:00Z"),
            ("HST10", "2024-03-30T10:00Z 2024-03-31T10:00Z"),
            # The clock goes from 23:59 on 30 March to 01:00.
            ("AAA0BBB,M3.5.0/0,M10.5.0", "2024-03-30T00:00Z 2024-03-31T00:00Z"),
        ):
            self.assertEqual(self.window(rule), f"window {window}")

    def test_days_of_23_and_25_hours(self):
        paris = "CET-1CEST,M3.5.0,M10.5.0/3"
        self.assertEqual(self.window(paris, "--days", "2"), "window 2024-03-29T23:00Z 2024-03-31T22:00Z")
        # With a stamp of UTC a day has 24 hours.
        words = ["--from", "2024-03-29T23:00Z", "--days", "2"]
        self.assertEqual(self.window(paris, *words), "window 2024-03-29T23:00Z 2024-03-31T23:00Z")
        self.assertEqual(self.window(paris, "--until", "2024-03-30T12:00Z"), "window 2024-03-29T23:00Z 2024-03-30T12:00Z")

    def test_400_days(self):
        self.assertEqual(self.window("JST-9", "--days", "400"), "window 2024-03-30T15:00Z 2025-05-04T15:00Z")
        self.write("usr/share/zoneinfo/Here", ZONES.zone_bytes("AAA0BBB,M1.1.0,M4.1.0"))
        # The clock is put back twice in these days, and forward once.
        message = "run_file: the window is longer than 400 days of 24 hours"
        self.assertEqual(self.faults("--zone", "Here", "--days", "400"), [message])
        self.assertEqual(self.window("AAA0BBB,M1.1.0,M4.1.0", "--days", "399")[:24], "window 2024-03-29T23:00Z")

    def test_days_that_the_clock_skips(self):
        # As in Samoa: ten hours behind UTC, then fourteen ahead, from midnight of 30 December 2011 on.
        second = (datetime(2011, 12, 30, 10) - EPOCH) // timedelta(seconds=1)
        zone = read_zone("Here", zone_file([(second, 1)], [-36_000, 50_400], b"<+14>-14"))
        self.assertEqual(beginning_of(zone, date(2011, 12, 29)), datetime(2011, 12, 29, 10))
        for day in (30, 31):
            self.assertEqual(beginning_of(zone, date(2011, 12, day)), datetime(2011, 12, 30, 10))


class Testdata(unittest.TestCase):
    """The zones of testdata."""

    def test_zones_are_as_they_are_written(self):
        for folder in ZONES.FOLDERS:
            for name, rule in ZONES.RULES.items():
                with open(os.path.join(folder, name), "rb") as file:
                    self.assertEqual(file.read(), ZONES.zone_bytes(rule))
        with open(ZONES.CUT, "rb") as file:
            self.assertEqual(file.read(), ZONES.cut_bytes())


if __name__ == "__main__":
    unittest.main()
