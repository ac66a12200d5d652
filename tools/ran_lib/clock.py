"""What the clock of the tables' zone shows. All that tools/ran asks of a zone is asked here, in seconds since 1970."""
from datetime import timedelta

from run_file_lib.clocks import EPOCH, beginning_of, clock_at, offset_at

DAY = 86_400
SECOND = timedelta(seconds=1)


class Clock:
    """The clock of a zone, which is one that tools/run_file has read."""

    def __init__(self, zone):
        self.zone = zone

    def shown(self, second):
        """What it shows at a second."""
        return clock_at(self.zone, EPOCH + second * SECOND)

    def begin_of(self, day):
        """The second at which a day begins."""
        return (beginning_of(self.zone, day) - EPOCH) // SECOND

    def seconds_of(self, local):
        """The seconds at which it shows a time, which is given in seconds as if it were of UTC: none, one or two."""
        offsets = {self.offset_at(local + near) for near in (-DAY, 0, DAY)}
        return sorted(local - offset for offset in offsets if self.offset_at(local - offset) == offset)

    def second_before(self, local):
        """The second at which the clock of the day before would show a time."""
        return local - self.offset_at(local - DAY)

    def offset_at(self, second):
        """How many seconds it is ahead of UTC at a second."""
        return offset_at(self.zone, EPOCH + second * SECOND) // SECOND
