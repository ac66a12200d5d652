"""Instants and zones. An instant is a number of minutes since the epoch, and a civil minute one since 1970-01-01 00:00."""
import functools
import io
import struct
from datetime import date, datetime, timedelta, timezone
from zoneinfo import ZoneInfo

EPOCH = datetime(1970, 1, 1, tzinfo=timezone.utc)
FIRST_DAY = EPOCH.date().toordinal()
DAY = 1440


def minute_of(stamp):
    """The instant of a stamp."""
    instant = datetime.strptime(stamp, "%Y-%m-%dT%H:%MZ").replace(tzinfo=timezone.utc)
    return (instant - EPOCH) // timedelta(minutes=1)


@functools.lru_cache(maxsize=None)
def stamp_of(minute):
    """The stamp of an instant."""
    return (EPOCH + timedelta(minutes=minute)).strftime("%Y-%m-%dT%H:%MZ")


def date_of(day):
    """The date of so many days since the epoch."""
    return date.fromordinal(FIRST_DAY + day)


class Zone:
    """Local times, each worked out once."""

    def __init__(self, zone):
        self.zone = zone
        self.known = {}

    def local(self, minute):
        """The civil minute of an instant, rounded down."""
        if self.zone is timezone.utc:
            return minute
        if minute not in self.known:
            instant = EPOCH + timedelta(minutes=minute)
            offset = instant.astimezone(self.zone).utcoffset()
            self.known[minute] = (instant + offset - EPOCH) // timedelta(minutes=1)
        return self.known[minute]


def zone_of(kind, text):
    """The zone of a zone line."""
    if kind == "fixed":
        hours, minutes = text[1:].split(":")
        ahead = timedelta(hours=int(hours), minutes=int(minutes))
        return Zone(timezone(-ahead if text[0] == "-" else ahead))
    if kind == "tzif":
        return Zone(ZoneInfo.from_file(io.BytesIO(bytes.fromhex(text))))
    # A TZif file without transitions, whose footer is the rule.
    counts = struct.pack(">6l", 0, 0, 0, 0, 1, 4)
    block = b"TZif2" + bytes(15) + counts + struct.pack(">lbb", 0, 0, 0) + b"UTC\0"
    return Zone(ZoneInfo.from_file(io.BytesIO(2 * block + b"\n" + text.encode() + b"\n")))
