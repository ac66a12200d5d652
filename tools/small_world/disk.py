"""The disk of a replica, as far as it may be armed to stop within a call: which of its calls save a change, in which of them it
stops, and whether the change is kept then."""
from typing import NamedTuple

KEPT, LOST = "kept", "lost"
# So many calls save a change. The last two of them write and sync the byte that shows it: a record's gate, or the chooser's of a base.
CALLS = {"tried": 4, "promised": 4, "voted": 4, "base": 5}
SHOWING = 2
# The byte of an open gate.
OPEN = 1


class Arm(NamedTuple):
    """How many more calls succeed, and the number of the image that the stop leaves."""

    left: int
    image: int


def shows(image, is_shown_by):
    """Whether the image of a number shows a byte that was written and not synced: image 1 of each three has the stopped call done,
    and image 2 has a byte in its place, which may be one that says the same."""
    return image % 3 == 1 or (image % 3 == 2 and is_shown_by(image // 3 % 256))


class Disk:
    """Which stop is to come, if one is, and how many bases the disk has kept."""

    def __init__(self):
        self.arm = None
        self.bases = 0

    def save(self, change):
        """Saves a change. Where the disk stops within, tells whether it is kept or lost, and the disk is armed no more."""
        calls, arm, end = CALLS[change[0]], self.arm, None
        if arm and arm.left < calls:
            self.arm = None
            end = KEPT if arm.left >= calls - SHOWING and shows(arm.image, lambda byte: self.is_after(change, byte)) else LOST
        elif arm:
            self.arm = arm._replace(left=arm.left - calls)
        self.bases += change[0] == "base" and end != LOST
        return end

    def is_after(self, change, byte):
        """Whether a byte shows the state after a change. The low bit of the chooser's turns with each base that is kept, from 0 on."""
        return byte % 2 == (self.bases + 1) % 2 if change[0] == "base" else byte == OPEN
