"""The picture: its tracks with their marks, and what stands around them."""
from xml.sax.saxutils import escape

from small_world.instants import stamp_of

from .layout import LEFT, ROW, Layout
from .marks import FAULT, FRAME, Mark, Marks, turn_sign
from .palette import STYLE
from .story import calls_of, told
from .svg import LETTER, box, cross, diamond, disc, element, group, group_of, line, words
from .words import launch_label, words_of

# Clocks are told at least that far apart.
APART = 80
LEGEND_ROW = 20
# A picture whose marks have titles of their own, and not one image.
ROLE = "graphics-document document"
ARROW = """
<defs><marker id="arrow" viewBox="0 0 8 8" refX="8" refY="4" markerWidth="7" markerHeight="7" orient="auto"
markerUnits="userSpaceOnUse"><path d="M0,0L8,4L0,8z" class="arrow"/></marker></defs>
"""
# The kinds of marks: the sign of each, from its left edge and its middle on, and what it is.
SIGNS = [
    ("candidate", box(0, -7, 16, 14, "candidate"), "candidate"),
    ("leader", box(0, -7, 16, 14, "leader"), "leader"),
    ("stopped", box(0, -7, 16, 14, "stopped"), "stopped"),
    ("free", box(0, -7, 16, 14, "free"), "free turns"),
    ("campaign", turn_sign(8, 0, "campaign"), "stands for leader"),
    ("tick", turn_sign(8, 0, "tick"), "clock ticks"),
    ("hear", turn_sign(8, 0, "hear"), "hears a letter"),
    ("letter", line(0, 0, 16, 0, "letter", marker_end="url(#arrow)"), "letter"),
    ("lost", line(0, 0, 11, 0, "lost") + cross(13, 0, 3, "lost"), "lost"),
    ("vote", diamond(8, 0, "vote"), "vote"),
    ("learned", box(4, -4, 8, 8, "learned"), "entry learned"),
    ("base", box(4, -4, 8, 8, "base"), "launch table kept"),
    ("version", line(8, -7, 8, 7, "version"), "version adopted"),
    ("answer", turn_sign(8, 0, "answer"), "takes the answer"),
    ("stop", turn_sign(8, 0, "stop"), "stops"),
    ("stop_kept", turn_sign(8, 0, "stop_kept"), "stops within a write, which is kept"),
    ("stop_lost", turn_sign(8, 0, "stop_lost"), "stops within a write, which is lost"),
    ("restart", turn_sign(8, 0, "restart"), "starts again"),
    ("launch", disc(8, 0, 6, "launch"), "launch"),
    ("found", disc(8, 0, 6, "found"), "launch found"),
    ("void", cross(8, 0, 5, "void"), "void"),
    ("waiting", disc(8, 0, 6, "waiting"), "late call"),
    ("fault", cross(8, 0, 5, "fault"), "line at fault"),
]


class Picture:
    """A picture of the turns of a run, which has a name, from one turn on and before another; and of the line at fault behind them."""

    def __init__(self, launches, first, until, name, fault=None):
        self.launches = launches
        self.world = world = launches.world
        self.run = world.run
        self.name = name
        labels = [(turn, launch_label(self.run, call)) for turn, call, _ in calls_of(world, first, until)]
        labels += [(turn, f"version {entry.version}") for turn, entry in launches.adoptions]
        is_free = any(begin < until and end > first for begin, end in self.free_parts())
        self.layout = Layout(self.run.members, first, until, self.commands(first), sorted(labels), is_free)
        marks = Marks(world, launches, words_of(world.run), self.layout).all()
        faults = [self.fault(fault)] if fault and not fault.is_of_report and until == len(world.turns) else []
        self.marks = sorted([*self.free(), *self.parts(), *self.axis(), *faults, *marks], key=lambda mark: mark.layer)

    def text(self, jobs=None, note=None):
        """The whole picture, with what is about these jobs alone where there are some, and with a note where there is one."""
        layout = self.layout
        marks = [mark for mark in self.marks if jobs is None or mark.jobs is None or mark.jobs & jobs]
        legend, top = self.legend({mark.kind for mark in marks})
        said = [words(8, top + 12, note, "note")] if note else []
        top += 20 if note else 0
        said += [words(LEFT, top + layout.bottom + 44, f"{self.extent()} are drawn", "small")] if self.is_cut() else []
        inside = [box(0, 0, layout.width, top + layout.height, "paper"), *legend, *said]
        inside.append(group("\n".join([*(mark.text for mark in marks), *self.names()]), 0, top))
        size = {"width": layout.width, "height": top + layout.height, "viewBox": f"0 0 {layout.width} {top + layout.height}"}
        style = f"{self.description()}<style>{STYLE}</style>{ARROW}"
        drawn = style + "\n".join(inside)
        return element("svg", self.title(), drawn, xmlns="http://www.w3.org/2000/svg", role=ROLE, **size) + "\n"

    def title(self):
        count = self.run.members
        return f"{self.name}: {self.extent()} of a run of {count} replica{'' if count == 1 else 's'}"

    def description(self):
        """What happens, for those who don't see the picture."""
        return element("desc", inside=escape(told(self.launches, self.layout.first, self.layout.until)))

    def is_cut(self):
        """Whether some turns aren't drawn."""
        return self.layout.until - self.layout.first < len(self.world.turns)

    def extent(self):
        """Which turns are drawn."""
        if self.layout.first == self.layout.until:
            return "no turn"
        first, last = self.layout.first, self.layout.until - 1
        return f"turns {first} to {last}" + (f" of {len(self.world.turns)}" if self.is_cut() else "")

    def legend(self, kinds):
        """The signs of these kinds, from left to right and in as many rows as it takes; and how high they are."""
        found, x, y = [], 8, 14
        for kind, sign, told in SIGNS:
            if kind not in kinds:
                continue
            wide = 21 + len(told) * LETTER + 10
            if x + wide > self.layout.width:
                x, y = 8, y + LEGEND_ROW
            found.append(group(sign + words(21, 4, told), x, y))
            x += wide
        return found, y + 16

    def commands(self, first):
        """The commands of the script with the turns in which their parts begin; of one turn all together. The part within which
        a turn stands, the first one that is drawn, is told there."""
        told = {}
        names = [" ".join(command) for command in self.run.script] + ["the walk to the end"]
        for turn, name in zip(self.world.parts, names):
            told.setdefault(turn, []).append(name)
        before = [turn for turn in told if turn < first]
        goes_on = [(first, f".. {told[before[-1]][-1]}")] if before and first not in told else []
        return goes_on + [(turn, "; ".join(names)) for turn, names in told.items()]

    def fault(self, fault):
        """The line at fault: behind the last turn, and on the track of the replica whose turn it tells, if it tells one."""
        layout = self.layout
        x = layout.x(layout.until)
        y = layout.top if fault.who is None else layout.y(fault.who)
        text = group_of(line(x, layout.top, x, layout.bottom, "fault") + cross(x, y, 6, "fault"), fault.text)
        return Mark(FAULT, "fault", x - 6, x + 6, text, () if fault.who is None else (fault.who,))

    def free_parts(self):
        """The turns from which on and before which replicas run by themselves."""
        ends = [*self.world.parts[1:], len(self.world.turns)]
        parts = zip(self.world.parts, ends, self.run.script)
        return [(begin, end) for begin, end, command in parts if command[0] == "free"]

    def free(self):
        """The parts in which replicas run by themselves."""
        layout = self.layout
        for begin, end in self.free_parts():
            first, until = max(begin, layout.first), min(end, layout.until)
            if first < until:
                left, right = layout.edge(first), layout.edge(until)
                title = f"replicas run by themselves, turns {begin} to {end - 1}"
                paper = box(left, layout.top, right - left, layout.bottom - layout.top, "free", title)
                told_as = [words(x, layout.top + 11, "free", "small") for x in range(int(left) + 4, int(right), APART * 8)]
                yield Mark(FRAME, "free", left, right, paper + "".join(told_as))

    def parts(self):
        """The commands, each above the turn with which its part begins."""
        layout = self.layout
        for turn, text, row, place in layout.commands:
            x = layout.edge(turn)
            top = layout.top if row is None else (row + 0.2) * ROW
            written = words(place, (row + 1) * ROW - 3, text, "small") if row is not None else ""
            stroke = line(x, top, x, layout.bottom, "part", text)
            yield Mark(FRAME, "part", min(x, place), max(x, place + len(text) * LETTER), stroke + written)

    def axis(self):
        """The numbers of turns, and what clocks read."""
        told, last = None, -APART
        for number in range(self.layout.first, self.layout.until):
            turn, x = self.world.turns[number], self.layout.x(number)
            if number % 5 == 0:
                yield self.under(x, 14, str(number), "middle")
            if "tick" in (turn.word, turn.cause) and turn.operand != told and x - last >= APART:
                told, last = turn.operand, x
                yield self.under(x, 30, stamp_of(turn.operand)[5:-1].replace("T", " "), "start")

    def under(self, x, below, text, anchor):
        """A text below the tracks, which begins at a place or has it in its middle."""
        written = words(x - (5 if anchor == "start" else 0), self.layout.bottom + below, text, "small", text_anchor=anchor)
        return Mark(FRAME, "axis", x - APART / 2, x + APART, written)

    def names(self):
        """The names of the tracks and of the lines below them."""
        layout = self.layout
        for who in self.world.members:
            yield words(8, layout.y(who) + 4, f"replica {who}", "name")
        yield words(8, layout.scheduler + 4, "scheduler", "name")
        yield words(8, layout.bottom + 14, "turn", "small")
        yield words(8, layout.bottom + 30, "clock", "small")
