"""The stamps of the command line, and the window: in UTC, or by the clock of the tables' zone."""
import re
from collections import namedtuple
from datetime import datetime, timedelta

from .clocks import UTC, beginning_of, clock_at, instants_of, skip_of
from .faults import Stop, counted, shown

MOST_MINUTES = 576_000
MOST_DAYS = MOST_MINUTES // 1440
FIRST, LAST = datetime(1971, 1, 1), datetime(2200, 1, 1)
STAMP = re.compile("([0-9]{4}-[0-9]{2}-[0-9]{2})(?:[T ]([0-9]{2}:[0-9]{2})(Z|[+-][0-9]{2}:[0-9]{2})?)?")
FORM = "2024-03-31, '2024-03-31 02:00' or 2024-03-31T00:00Z"

# An instant of UTC, and what the tables' clock shows there, where the stamp is of that clock.
Moment = namedtuple("Moment", "instant local")
# The window: its first minute, the one behind its last one, and what is told of both.
Window = namedtuple("Window", "first last notes")


def stamp_of(instant):
    """The stamp of an instant."""
    return f"{instant:%Y-%m-%dT%H:%M}Z"


class Clock:
    """The clock of the tables' zone, by which stamps are read. What is to be told of a stamp is kept."""

    def __init__(self, name, zone):
        self.name = name
        self.zone = zone
        self.notes = []

    def moment(self, word, text):
        """The moment of a stamp behind a word: in UTC where it ends with `Z` or an offset, and by this clock otherwise."""
        found = STAMP.fullmatch(text)
        try:
            date, time, offset = found.groups() if found else (None, None, None)
            read = datetime.fromisoformat(f"{date}T{time or '00:00'}{(offset or '').replace('Z', '+00:00')}")
        except ValueError as fault:
            raise Stop(f"run_file: {word}: `{shown(text)}` is no stamp; write it as {FORM}") from fault
        # Near the ends of Python's calendar no offset could be added.
        if not FIRST.year <= read.year <= LAST.year:
            raise Stop(f"run_file: {word}: {read.year} isn't within the years 1971 to 2199")
        if offset:
            return self.within(word, Moment(read.astimezone(UTC).replace(tzinfo=None), None))
        return self.within(word, Moment(self.instant_of(word, read) if time else beginning_of(self.zone, read), read))

    def within(self, word, moment):
        """A moment, which has to be one of the program's."""
        if not FIRST <= moment.instant <= LAST:
            raise Stop(f"run_file: {word}: {(moment.local or moment.instant).year} isn't within the years 1971 to 2199")
        return moment

    def instant_of(self, word, local):
        """The instant of a time of this clock, the first one where it comes twice; where it is skipped, that of the change."""
        instants = instants_of(self.zone, local)
        if len(instants) == 1:
            return instants[0]
        shows = f"{word}: {local:%Y-%m-%d %H:%M}"
        if instants:
            both = f"at {stamp_of(instants[0])} and {stamp_of(instants[1])}"
            self.notes.append(f"{shows} comes twice in {self.name}, {both}; the first is taken")
            return instants[0]
        change = skip_of(self.zone, local)
        taken = f"{change.after:%H:%M} is taken, at {stamp_of(change.instant)}"
        goes = f"whose clock goes from {change.before:%H:%M} to {change.after:%H:%M}"
        self.notes.append(f"{shows} is skipped in {self.name}, {goes}; {taken}")
        return change.instant

    def window(self, options, now, days):
        """The window of options. Without --from its days are those of the zone, from today on."""
        if options.days is not None and options.until is not None:
            raise Stop("run_file: --days and --until say the same; take one of them")
        if options.first is None:
            today = clock_at(self.zone, now).replace(hour=0, minute=0)
            first = Moment(beginning_of(self.zone, today), today)
        else:
            first = self.moment("--from", options.first)
        if first.instant == LAST:
            raise Stop(f"run_file: --from: {LAST.year} isn't within the years 1971 to 2199")
        last = self.moment("--until", options.until).instant if options.until is not None else self.later(first, timedelta(days))
        if last > LAST:
            raise Stop(f"run_file: the window ends behind {stamp_of(LAST)}")
        if last <= first.instant:
            raise Stop("run_file: the window is empty: --until isn't behind --from")
        return Window(first.instant, last, self.notes)

    def later(self, moment, days):
        """The instant that is so many days later, by this clock where the moment is one of it."""
        if moment.local is None:
            return moment.instant + days
        local = moment.local + days
        return beginning_of(self.zone, local) if local.time() == datetime.min.time() else self.instant_of("--days", local)


def judge_length(window):
    """Judges the length of a window, which a run file has."""
    if window.last - window.first > timedelta(minutes=MOST_MINUTES):
        raise Stop(f"run_file: the window is longer than {counted(MOST_DAYS, 'day')} of 24 hours")
