"""When an entry is due by its fields, as docs/TABLES.md has it: what each field matches, and the day rule."""
from collections import namedtuple
from datetime import timedelta

from .anacrontabs import fnv
from .crontabs import NICKNAMES, split_word
from .fields import KINDS, value_of

# A hashed day of the month is one that each month has, and a hashed day of the week isn't Sunday twice.
HASHED = [(0, 59), (0, 23), (1, 28), (1, 12), (0, 6)]
MOST_DAYS_OF_MONTHS = [31, 29, 31, 30, 31, 30, 31, 31, 30, 31, 30, 31]
# A jump of the clock that is so long is a correction of it.
CORRECTION = timedelta(minutes=180)

# A field: its text, and its values.
Matched = namedtuple("Matched", "text values")


class Times:
    """The times of an entry: its five fields."""

    def __init__(self, fields):
        self.fields = fields
        self.minute, self.hour, self.day, self.month, self.week_day = fields
        # It follows the clock through its changes.
        self.is_frequent = self.minute.text.startswith("*") or self.hour.text.startswith("*")
        # A date has to match both of the day's fields.
        self.needs_both_days = self.day.text.startswith("*") or self.week_day.text.startswith("*")

    def matches(self, local):
        """Whether the fields match what a clock shows."""
        has_time = local.minute in self.minute.values and local.hour in self.hour.values
        return has_time and local.month in self.month.values and self.matches_day(local)

    def matches_day(self, local):
        """Whether the fields of the day match a date."""
        days = [local.day in self.day.values, local.isoweekday() % 7 in self.week_day.values]
        return all(days) if self.needs_both_days else any(days)

    def is_never_due(self):
        """Whether no date has the day and the month. Each date that there is falls on each day of the week in some year."""
        if not self.needs_both_days:
            return False
        return not any(min(self.day.values) <= MOST_DAYS_OF_MONTHS[month - 1] for month in self.month.values)

    def first_skipped(self, change):
        """The first time that the fields match of those that a change of the clock skips; none where there is none."""
        if self.is_frequent or not timedelta(0) < change.after - change.before < CORRECTION:
            return None
        minutes = (change.after - change.before) // timedelta(minutes=1)
        skipped = (change.before + timedelta(minutes=minute) for minute in range(minutes))
        return next((local for local in skipped if self.matches(local)), None)

    def moved_from(self, change):
        """The first time from which an entry is moved to a change's instant; none where it isn't, or is due there anyway."""
        return None if self.matches(change.after) else self.first_skipped(change)


def times_of(text, owner, command):
    """The times of an entry, whose line is good; none of `@reboot`. The owner and the command pick the value of a `?`."""
    nickname, _ = split_word(text)
    rest = NICKNAMES.get(nickname, text)
    if not rest:
        return None
    fields = []
    for place in range(len(KINDS)):
        word, rest = split_word(rest)
        fields.append(Matched(word, values_of(place, word, owner, command)))
    return Times(fields)


def values_of(place, text, owner, command):
    """The values of the field at a place, which is good. The owner and the command pick the value of a `?`."""
    if text == "?":
        return {picked(place, owner, command)}
    kind, values = KINDS[place], set()
    for item in text.split(","):
        base, _, step = item.partition("/")
        low, _, high = base.partition("-")
        first, last = HASHED[place] if place == 4 and base == "*" else kind[1:3]
        if base != "*":
            first = value_of(kind, low)
            last = value_of(kind, high) if high else first
        values.update(range(first, last + 1, int(step or 1)))
    return {value % 7 for value in values} if place == 4 else values


def picked(place, owner, command):
    """The value of a field `?`, which a hash picks."""
    least, greatest = HASHED[place]
    data = owner.encode("utf-8", "surrogateescape") + b"\0" + command.encode("utf-8", "surrogateescape") + b"\0%d" % place
    return least + fnv(data) % (greatest - least + 1)
