"""The clocks of zones, by Python's zoneinfo: what each shows at an instant, and at which instants it is changed."""
import io
import struct
from collections import namedtuple
from datetime import datetime, timedelta, timezone
from zoneinfo import ZoneInfo

UTC = timezone.utc
EPOCH = datetime(1970, 1, 1)
MAGIC = b"TZif"
# What zoneinfo raises for a file that it can't read.
FAULTS = (ValueError, IndexError, KeyError, EOFError, OverflowError, TypeError, struct.error)
MINUTE, HOUR = timedelta(minutes=1), timedelta(hours=1)
# No offset reaches so far, and no clock is changed twice within this time.
FARTHEST, STEP = timedelta(hours=26), timedelta(hours=6)

# A change of a clock: its instant in UTC, and what the clock would have shown there, and shows.
Change = namedtuple("Change", "instant before after")


class ZoneFault(Exception):
    """What is wrong with a zone's file."""


def read_zone(name, data):
    """The zone of the bytes of a TZif file (RFC 8536)."""
    if not data.startswith(MAGIC):
        raise ZoneFault("is no TZif file")
    try:
        return ZoneInfo.from_file(io.BytesIO(data), key=name)
    except FAULTS as fault:
        raise ZoneFault("is a TZif file that zoneinfo can't read") from fault


def clock_at(zone, instant):
    """What the clock of a zone shows at an instant of UTC, to the minute."""
    return zone.fromutc(instant.replace(tzinfo=zone)).replace(tzinfo=None, second=0, microsecond=0, fold=0)


def offset_at(zone, instant):
    """How far the clock of a zone is ahead of UTC at an instant."""
    return zone.fromutc(instant.replace(tzinfo=zone)).utcoffset()


def changes_between(zone, first, last):
    """The changes of a zone's clock from an instant on and before another."""
    instant, offset = first - MINUTE, offset_at(zone, first - MINUTE)
    while instant < last - MINUTE:
        later = min(instant + STEP, last - MINUTE)
        if offset_at(zone, later) != offset:
            change = change_in(zone, instant, later)
            yield change
            later = change.instant
        instant, offset = later, offset_at(zone, later)


def change_in(zone, instant, later):
    """The change behind an instant, and at another one or before it, between which the offset changes."""
    offset = offset_at(zone, instant)
    while later - instant > MINUTE:
        middle = instant + (later - instant) // MINUTE // 2 * MINUTE
        instant, later = (middle, later) if offset_at(zone, middle) == offset else (instant, middle)
    return Change(later, (later + offset).replace(second=0), clock_at(zone, later))


def instants_of(zone, local):
    """The instants at which the clock of a zone shows a time: none where it is skipped, and two where it comes twice."""
    shown = (local.replace(tzinfo=zone, fold=fold).astimezone(UTC).replace(tzinfo=None, second=0) for fold in (0, 1))
    return sorted({instant for instant in shown if clock_at(zone, instant) == local})


def skip_of(zone, local):
    """The change by which the clock of a zone skips a time."""
    near = changes_between(zone, local - FARTHEST, local + FARTHEST)
    return next(change for change in near if change.before <= local < change.after)


def first_instant_of(zone, local):
    """The first instant at which the clock of a zone shows a time, or a later one where it skips that one."""
    instants = instants_of(zone, local)
    return instants[0] if instants else skip_of(zone, local).instant


def beginning_of(zone, day):
    """The first minute, in UTC, at which the clock of a zone shows a day, or a later day where it skips that one."""
    return first_instant_of(zone, datetime(day.year, day.month, day.day))
