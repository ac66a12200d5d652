"""Where the turns and the tracks of a picture stand, in pixels from the upper edge of the commands."""
from .svg import LETTER

LEFT, RIGHT, COLUMN, TRACK, ROW, FOOT = 92, 18, 18, 76, 14, 46
# So many rows of commands at most, and of the names of launches; what finds no room there is told by its title alone.
MOST_ROWS, MOST_NAMES = 5, 3
# How high the mark of a part of `free` is, above the tracks.
FREE = 16
LEAST_WIDTH = 500


class Layout:
    """The places of the turns from one on and before another, below the commands of a script. The names are texts that stand below
    the turns in which the scheduler is called."""

    def __init__(self, members, first, until, commands, names, is_free):
        self.members = members
        self.first = first
        self.until = until
        self.left = LEFT
        self.right = LEFT + (until - first) * COLUMN
        self.width = max(LEAST_WIDTH, self.right + RIGHT)
        self.commands = self.placed(commands)
        self.names = self.named(names)
        rows = [row for _, _, row, _ in self.commands if row is not None]
        self.top = ROW * (max(rows, default=0) + 1) + 6
        self.head = self.top + (FREE if is_free else 0)
        self.scheduler = self.head + members * TRACK + TRACK // 2 - 8
        named = max((row for row, _, _ in self.names.values()), default=-1) + 1
        self.bottom = self.scheduler + 14 + ROW * max(named, 1)
        self.height = self.bottom + FOOT

    def is_drawn(self, turn):
        return self.first <= turn < self.until

    def edge(self, turn):
        """Where a turn begins."""
        return self.left + (turn - self.first) * COLUMN

    def x(self, turn):
        return self.edge(turn) + COLUMN / 2

    def turn_at(self, x):
        """The turn that stands at a place."""
        return int(self.first + (x - self.left) // COLUMN)

    def y(self, who):
        return self.head + who * TRACK + TRACK // 2

    def name_y(self, row):
        """Where the texts of a row of names stand."""
        return self.scheduler + 19 + row * ROW

    def placed(self, commands):
        """Each command that is drawn: its turn, its text, and the row in which there is room for it with its place there."""
        ends, found = [0] * MOST_ROWS, []
        for turn, text in commands:
            if not self.is_drawn(turn):
                continue
            wide = len(text) * LETTER + 8
            x = max(self.left, min(self.edge(turn) + 3, self.width - wide))
            row = next((row for row, end in enumerate(ends) if end <= x), None)
            if row is not None:
                ends[row] = x + wide
            found.append((turn, text, row, x))
        return found

    def named(self, names):
        """The names that are drawn, by their turns: the row in which there is room for each, its place there, and its text."""
        ends, found = [0] * MOST_NAMES, {}
        for turn, text in names:
            wide = len(text) * LETTER + 6
            x = max(self.left, min(self.x(turn) - wide / 2, self.width - wide))
            row = next((row for row, end in enumerate(ends) if end <= x), None) if self.is_drawn(turn) else None
            if row is not None:
                ends[row] = x + wide
                found[turn] = row, x + 3, text
        return found
