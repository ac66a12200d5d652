#!/usr/bin/env python3
"""Prints the rows of calendar_tests' changes of the clocks: a TZ rule, a window, and the due instants of a fixed entry and of a
frequent one, in minutes from the window's first on.

Usage: bench/zone_rows.py

The local times are those of Python's zoneinfo, and each minute of a window is looked at. An entry whose minute or hour
begins with `*` is due where it matches the local time. Another one is due where it matches and the clocks haven't shown
that local time in the 179 minutes before, and at the first minute after a change that skips a time which it matches, if
the change skips fewer than 180 minutes.
"""
import io
import struct
from datetime import datetime, timedelta, timezone
from zoneinfo import ZoneInfo

MINUTE = timedelta(minutes=1)
FORMAT = "%Y-%m-%dT%H:%MZ"
FIXED = "20,50 1,2,3,13 * * *"
FREQUENT = "*/40 1,2,3,13 * * *"


def zone_of(rule):
    """The zone of a TZ rule, by a TZif file that has no transition and the rule as its footer."""
    header = b"TZif2" + bytes(15)
    counts = struct.pack(">6l", 0, 0, 0, 0, 1, 4)
    block = struct.pack(">lbb", 0, 0, 0) + b"LMT\0"
    return ZoneInfo.from_file(io.BytesIO((header + counts + block) * 2 + b"\n" + rule.encode() + b"\n"))


def values(field, low, high):
    """The values of a field: numbers between commas, or a `*` with or without a step."""
    if field.startswith("*"):
        return set(range(low, high + 1, int(field[2:] or 1)))
    return {int(number) for number in field.split(",")}


def minutes_between(start, end):
    """Each minute from one on and before another."""
    return (start + step * MINUTE for step in range(int((end - start) / MINUTE)))


def due(rule, start, end, entry):
    """The instants of the window at which the entry is due. Its days and months are all `*`."""
    zone = zone_of(rule)
    minute, hour, *_ = entry.split()
    minutes, hours = values(minute, 0, 59), values(hour, 0, 23)
    local = {
        instant: instant.astimezone(zone).replace(tzinfo=None)
        for instant in minutes_between(start - 180 * MINUTE, end)
    }

    def matches(shown):
        return shown.minute in minutes and shown.hour in hours

    def is_due(instant):
        shown, before = local[instant], local[instant - MINUTE]
        if minute.startswith("*") or hour.startswith("*"):
            return matches(shown)
        if matches(shown) and all(local[instant - back * MINUTE] != shown for back in range(1, 180)):
            return True
        skipped = int((shown - before) / MINUTE) - 1
        return skipped < 180 and any(matches(before + step * MINUTE) for step in range(1, skipped + 1))

    return [instant for instant in minutes_between(start, end) if is_due(instant)]


def hours(number):
    """So many hours."""
    return timedelta(hours=number)


def changes_by_size():
    """Each rule of a change of the clocks, and of two within 180 minutes, with the first instant and the end of a window."""
    forward = datetime(2024, 3, 31, 1, tzinfo=timezone.utc)
    for size in [30, 60, 120, 179, 180, 181]:
        back = datetime(2024, 10, 27, 6, tzinfo=timezone.utc) - size * MINUTE
        rule = f"AAA0BBB-{size // 60}:{size % 60:02},M3.5.0/1,M10.5.0/6"
        yield rule, forward - hours(2), forward + hours(4)
        yield rule, back - hours(5), back + hours(6)
    # A whole day.
    rule = "AAA12BBB-12,M3.5.0/1,M10.5.0/6"
    yield rule, datetime(2024, 3, 31, tzinfo=timezone.utc), datetime(2024, 4, 1, 6, tzinfo=timezone.utc)
    yield rule, datetime(2024, 10, 25, 12, tzinfo=timezone.utc), datetime(2024, 10, 27, 18, tzinfo=timezone.utc)
    # Forward at 01:00Z and back two hours later, and the other way round.
    for rule in ["AAA0BBB-1,M3.5.0/1,M3.5.0/4", "AAA0BBB-1,M3.5.0/3,M3.5.0/2"]:
        yield rule, forward - hours(2), forward + hours(5)


def changes_at_edges():
    """A change at the first minute of a window, at its last one, and before it."""
    rule = "AAA0BBB-1,M3.5.0/1,M10.5.0/3"
    for change in [datetime(2024, 3, 31, 1, tzinfo=timezone.utc), datetime(2024, 10, 27, 2, tzinfo=timezone.utc)]:
        yield rule, change, change + hours(3)
        yield rule, change - hours(2), change + MINUTE
        for passed in [1, 45, 179]:
            yield rule, change + passed * MINUTE, change + passed * MINUTE + hours(3)


for name, changes in [("BY_SIZE", changes_by_size), ("AT_EDGES", changes_at_edges)]:
    print(f"{name}:")
    for rule, start, end in changes():
        print("    (")
        print(f'        "{rule}",')
        print(f'        "{start.strftime(FORMAT)}",')
        print(f'        "{end.strftime(FORMAT)}",')
        for entry in [FIXED, FREQUENT]:
            minutes = [int((instant - start) / MINUTE) for instant in due(rule, start, end, entry)]
            print(f"        &{minutes},")
        print("    ),")
