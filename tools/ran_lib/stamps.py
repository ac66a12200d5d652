"""The instants of the stamps of a log, in seconds since 1970."""
import re
from calendar import timegm
from datetime import datetime

from .clock import DAY

MONTHS = {name: place for place, name in enumerate("Jan Feb Mar Apr May Jun Jul Aug Sep Oct Nov Dec".split(), 1)}
ISO = re.compile(r"(\d{4})-(\d\d)-(\d\d)[T ](\d\d):(\d\d)(?::(\d\d))?(?:[.,]\d+)?(?:(Z)|([+-])(\d\d):?(\d\d))")
OLD = re.compile(r"([A-Z][a-z]{2}) +(\d{1,2}) (\d\d):(\d\d):(\d\d)")
# A clock that goes back by less, from one line to the next, was set; one that goes back by more shows an hour twice.
SET_BACK = 300
# A stamp without a year is at most so far ahead of the clock of this machine.
AHEAD = DAY
HALF_A_YEAR = 6


def iso_second(text):
    """The second of a stamp with a date, a time and an offset; none where the text is none."""
    found = ISO.fullmatch(text)
    if not found:
        return None
    try:
        second = timegm(datetime(*(int(part or 0) for part in found.groups()[:6])).timetuple())
    except ValueError:
        return None
    ahead = 3600 * int(found[9]) + 60 * int(found[10]) if found[8] else 0
    return second + ahead if found[8] == "-" else second - ahead


def old_parts(text):
    """The month, the day, the hour, the minute and the second of a stamp as syslog writes it; none where the text is none."""
    found = OLD.fullmatch(text)
    if not found or found[1] not in MONTHS:
        return None
    return (MONTHS[found[1]], *map(int, found.groups()[1:]))


class Years:
    """Turns the stamps of a log into seconds. Those that lack the year and the zone follow one another."""

    def __init__(self, clock, year):
        self.clock = clock
        self.year = year
        self.month = None
        self.last = None
        self.known = {}

    def second(self, stamp):
        """The second of a stamp, of which one without a year is its parts; none where there is no such day."""
        if not isinstance(stamp, tuple):
            return stamp
        month = stamp[0]
        if self.month is not None and month + HALF_A_YEAR <= self.month:
            self.year += 1
        self.month = month
        key = self.year, *stamp[:4]
        if key not in self.known:
            self.known[key] = self.seconds_of_minute(*key)
        found = [second + stamp[4] for second in self.known[key]]
        if not found:
            return None
        later = [second for second in found if self.last is None or second >= self.last - SET_BACK]
        self.last = (later or found)[0]
        return self.last

    def seconds_of_minute(self, *parts):
        """The seconds at which a minute of the zone's clock begins. One that it skips is read by the clock before."""
        try:
            local = timegm(datetime(*parts).timetuple())
        except ValueError:
            return []
        return self.clock.seconds_of(local) or [self.clock.second_before(local)]


def first_year(stamps, clock, now):
    """The year of the first stamp, where stamps have none: the latest one by which none is ahead of this machine's clock, which
    shows `now`, in seconds."""
    parts = [stamp for stamp in stamps if isinstance(stamp, tuple)]
    year = clock.shown(now).year
    while parts and year > 1971:
        years = Years(clock, year)
        seconds = [years.second(stamp) for stamp in parts]
        if None not in seconds and seconds[-1] <= now + AHEAD:
            break
        year -= 1
    return year
