"""The due list of the program over a window of any length: where it takes no more due instants or days at once, of its parts."""
from datetime import timedelta

from .faults import Stop, cause_of
from .origins import of_window
from .program import answer_of
from .stamps import MOST_MINUTES

TOO_MANY = 24
MINUTE = timedelta(minutes=1)
# The program tells 20,000 due instants at most. The first part is so long that it has no more than many; where a part has few lines,
# the next one is twice as long.
FEW_LINES, MANY_LINES = 8_000, 18_000


def answers(program, made, most_per_day):
    """The lines of the due list of each part of the window, in order. Whether an instant is due doesn't depend on the window. A part
    of one minute has at most 1,000 due instants, so each comes to an end."""
    first, last = made.window.first, made.window.last
    size = min(last - first, MOST_MINUTES * MINUTE, max(1440 * MANY_LINES // max(most_per_day, 1), 1) * MINUTE)
    while first < last:
        end = min(first + size, last)
        try:
            lines = answer_of(program, "--list", of_window(made, first, end), "cron due 1")
        except Stop as stop:
            if cause_of(str(stop)) != TOO_MANY or size <= MINUTE:
                raise
            size = max(min(size, last - first) // (2 * MINUTE) * MINUTE, MINUTE)
            continue
        yield lines
        first = end
        if len(lines) < FEW_LINES:
            size = min(2 * size, MOST_MINUTES * MINUTE)
