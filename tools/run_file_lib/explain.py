"""Why an entry is due at a minute, or isn't: by its fields, the day rule and the changes of the clock. The program decides it."""
import functools
from datetime import timedelta

from .clocks import UTC, changes_between, clock_at
from .faults import NoAnswer, shown
from .fields import KINDS
from .matching import CORRECTION
from .origins import of_window
from .program import answer_of
from .stamps import stamp_of

MINUTE = timedelta(minutes=1)
WEEK_DAYS = "Monday Tuesday Wednesday Thursday Friday Saturday Sunday".split()
FREQUENT = "its minute or its hour begins with `*`, so it follows the clock as it shows: it has no time that is made up for"
RUNS_ONCE = "it has fixed times, and each of them is launched once: the clock showed this one at {} already"
MADE_UP = "{} is skipped, and a fixed time that is skipped is launched at once after the change"
AT_ONCE = "a fixed time that is skipped is launched at once after the change"


@functools.lru_cache(maxsize=1_000)
def changes_near(zone, instant):
    """The changes of a zone's clock at an instant and within the three hours before, which many entries may be asked about."""
    return [] if zone is UTC else list(changes_between(zone, instant - CORRECTION, instant + MINUTE))


class Explanation:
    """Why an entry is due at an instant, or isn't."""

    def __init__(self, origin, zone, instant):
        self.origin = origin
        self.times = origin.times
        self.zone = zone
        self.instant = instant
        self.local = clock_at(zone, instant)
        self.changes = changes_near(zone, instant)
        self.here = next((change for change in self.changes if change.instant == instant), None)

    def shown_before(self):
        """The instant at which the clock showed the same within the 179 minutes before; none where it didn't."""
        if not self.changes:
            return None
        before = (self.instant - count * MINUTE for count in range(1, 180))
        return next((instant for instant in before if clock_at(self.zone, instant) == self.local), None)

    def is_due(self):
        """Whether the entry is due, by the rule of docs/TABLES.md."""
        if self.times.is_frequent:
            return self.times.matches(self.local)
        skipped = self.here is not None and self.times.first_skipped(self.here) is not None
        return skipped or (self.times.matches(self.local) and self.shown_before() is None)

    def lines(self):
        """The lines that tell it, field by field."""
        values = [self.local.minute, self.local.hour, self.local.day, self.local.month, self.local.isoweekday() % 7]
        names = [*map(str, values[:4]), WEEK_DAYS[self.local.weekday()]]
        for kind, field, value, name in zip(KINDS, self.times.fields, values, names):
            verb = "matches" if value in field.values else "doesn't match"
            yield f"the {kind.name} `{field.text}`{self.picked(field)}: {name} {verb}"
        yield self.day_rule()
        yield from self.clock_lines()

    def picked(self, field):
        """The value of a hashed field."""
        return f", which is {min(field.values)} here," if field.text == "?" else ""

    def day_rule(self):
        """The day rule, as it holds for the entry."""
        verb = "matches" if self.times.matches_day(self.local) else "doesn't match"
        if self.times.needs_both_days:
            return f"the date {verb}: one of the day's fields begins with `*`, so both have to match"
        return f"the date {verb}: neither of the day's fields begins with `*`, so one of them has to match"

    def clock_lines(self):
        """What the changes of the clock have to do with it."""
        for change in self.changes:
            yield f"{self.origin.zone} goes from {change.before:%H:%M} to {change.after:%H:%M} at {stamp_of(change.instant)}"
        if self.changes and self.times.is_frequent:
            yield FREQUENT
            return
        before = self.shown_before() if self.times.matches(self.local) else None
        if before:
            yield RUNS_ONCE.format(stamp_of(before))
        skipped = self.here and self.times.first_skipped(self.here)
        if skipped:
            yield MADE_UP.format(f"{skipped:%H:%M}")


def why_lines(program, made, due, origin, instant):
    """The lines that tell why a job is due at an instant, or isn't."""
    line = f"{shown(origin.section.file)}:{origin.job.line}: {shown(origin.job.text)}"
    if origin.section.kind == "anacrontab":
        return [line, f"a job of an anacrontab is launched on dates, {origin.job.when}"]
    if origin.times is None:
        return [line, "it is launched as cron starts, and is due at no minute"]
    explanation = Explanation(origin, due.zones[origin.zone], instant)
    answer = answer_of(program, "--list", of_window(made, instant, instant + MINUTE), "cron due 1")
    is_due = any(it.startswith(f"due {origin.name}@") for it in answer)
    if is_due != explanation.is_due():
        answer = "yes" if is_due else "no"
        raise NoAnswer(f"run_file: whether {origin.name} is due, the script finds otherwise than the program, which says {answer}")
    local = explanation.local
    where = f"{local:%a %Y-%m-%d %H:%M} in {origin.zone}, {stamp_of(instant)}"
    return [line, f"{'due' if is_due else 'not due'} at {where}", *(f"  {text}" for text in explanation.lines())]
