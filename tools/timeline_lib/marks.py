"""The marks of a picture, each with what it says, whose it is and of which jobs and launches it speaks."""
from typing import NamedTuple, Optional

from small_world.launches import LAUNCH, Table

from .launches import launch_of
from .layout import COLUMN, TRACK
from .svg import LETTER, bent, box, cross, diamond, disc, group_of, line, shape, words
from .words import adoption_words, call_words, letter_words, stop_words, term_label, turn_words

# Layers, from the one that lies behind the others.
FRAME, BANDS, LETTERS, TRACKS, CALLS, TURNS, FAULT = range(7)
# A letter that nobody hears ends after so many columns, between two marks, and so much of the way to the next track.
LOST, LOST_DOWN, LOST_APART = 0.5, 0.27, 7
HALF_BAND = 24
# How far letters may be bent, and how near to a mark they are taken to touch it.
BENDS = (0, 12, -12, 20, -20)
NEAR = 8


class Mark(NamedTuple):
    """An element with its layer and its kind, the pixels between which it stands, its replicas, and the jobs and the launches
    that it speaks of. Where the jobs are none, and not an empty set, it is drawn whatever jobs are asked for. The target is the
    launch whose call it is."""

    layer: int
    kind: str
    left: float
    right: float
    text: str
    who: tuple = ()
    jobs: Optional[frozenset] = None
    launches: tuple = ()
    target: Optional[int] = None


class Marks:
    """What makes the marks of a run."""

    def __init__(self, world, launches, words, layout):
        self.world = world
        self.run = world.run
        self.launches = launches
        self.words = words
        self.layout = layout

    def all(self):
        """All marks that stand among the turns that are drawn."""
        return [*self.bands(), *self.tracks(), *self.letters(), *self.calls(), *self.adoptions(), *self.turns()]

    def shown(self):
        return [(number, self.world.turns[number]) for number in range(self.layout.first, self.layout.until)]

    def of_entries(self, entries):
        """The jobs and the launches of entries, as a mark has them. A version that is adopted is about each job."""
        entries = list(entries)
        names = {launch_of(entry) for entry in entries} - {None}
        launches = tuple(sorted(self.launches.number(name) for name in names))
        has_version = any(isinstance(entry, Table) for entry in entries)
        return {"jobs": None if has_version else frozenset(job for job, _ in names), "launches": launches}

    # What stands behind the tracks.

    def tracks(self):
        layout = self.layout
        for who in self.world.members:
            yield self.track(layout.y(who))
        yield self.track(layout.scheduler)

    def track(self, y):
        left, right = self.layout.left, self.layout.right
        return Mark(TRACKS, "track", left, right, line(left, y, right, y, "track"))

    def bands(self):
        """The terms of each replica, and when it is stopped. A label that finds no room before the next one is left out."""
        for who in self.world.members:
            terms = self.terms(who)
            for place, (role, began, until) in enumerate(terms):
                label = term_label(role)
                after = terms[place + 1][1] if place + 1 < len(terms) else self.layout.until
                room = self.layout.edge(after) - self.layout.edge(began) if place + 1 < len(terms) else None
                is_told = room is None or len(label) * LETTER + 4 <= room
                yield self.band(who, role, began, until, label if is_told else None)

    def terms(self, who):
        """The terms of a replica but that of a follower: what it is, from which turn on, and before which."""
        found, began, role = [], self.layout.first, "follower"
        for number, after in [*self.states(who), (self.layout.until, None)]:
            if after == role:
                continue
            if role != "follower" and number > began:
                found.append((role, began, number))
            began, role = number, after
        return found

    def states(self, who):
        """From which turn on a replica is what, as far as it is drawn."""
        role = "follower"
        for number in range(self.layout.until):
            role = self.world.roles[number] if self.world.turns[number].who == who else role
            if number >= self.layout.first:
                yield number, role

    def band(self, who, role, began, until, label):
        left, right = self.layout.edge(began), self.layout.edge(until)
        kind, title = role.split(" ")[0], f"replica {who}: {role}, turns {began} to {until - 1}"
        top = self.layout.y(who) - HALF_BAND
        text = box(left, top, right - left, 2 * HALF_BAND, kind, title)
        if label is None:
            return Mark(BANDS, kind, left, right, text, (who,))
        told = words(min(left + 2, self.layout.width - len(label) * LETTER), top - 4, label, "label")
        return Mark(BANDS, kind, left, max(right, left + len(label) * LETTER), text + told, (who,))

    # What goes between the tracks.

    def letters(self):
        for number, letter in enumerate(self.world.letters):
            if letter.turn >= self.layout.until:
                break
            heard = [turn for turn in self.world.heard.get(number, []) if turn >= self.layout.first]
            is_lost = number not in self.world.heard and letter.turn >= self.layout.first
            if heard or is_lost:
                title = letter_words(self.words, number, letter)
                more = self.of_entries(self.launches.entries_in(letter))
                more["who"] = (letter.sender, letter.to)
                yield from (self.arrow(letter, turn, title, more) for turn in heard)
                yield from [self.lost(letter, title, more)] if is_lost else []

    def arrow(self, letter, turn, title, more):
        """A letter that is heard. Where it comes from or goes to a turn that isn't drawn, it ends at the edge."""
        layout = self.layout
        begin, end = layout.x(letter.turn), layout.x(turn)
        top, bottom = layout.y(letter.sender), layout.y(letter.to)
        title += f"; heard in turn {turn}"
        left, right = max(begin, layout.left), min(end, layout.right)
        if (left, right) == (begin, end):
            bend = self.bend(letter, turn)
            text = bent(begin, top, end, bottom, bend, "letter", title, marker_end="url(#arrow)")
            return Mark(LETTERS, "letter", left - abs(bend), right + abs(bend), text, **more)
        slope = (bottom - top) / (end - begin)
        ends = left, top + slope * (left - begin), right, bottom - slope * (end - right)
        head = {"marker_end": "url(#arrow)"} if right == end else {}
        return Mark(LETTERS, "letter", left, right, line(*ends, "letter", title, **head), **more)

    def bend(self, letter, turn):
        """How far a letter is bent so that it doesn't touch a mark of a track that it passes, if that can be had."""
        begin, end = self.layout.x(letter.turn), self.layout.x(turn)
        passed = range(min(letter.sender, letter.to) + 1, max(letter.sender, letter.to))
        for bend in BENDS:
            parts = [((who - letter.sender) / (letter.to - letter.sender), who) for who in passed]
            crossed = [(begin + (end - begin) * part + 4 * part * (1 - part) * bend, who) for part, who in parts]
            if not any(self.is_mark_near(x, who) for x, who in crossed):
                return bend
        return 0

    def is_mark_near(self, x, who):
        """Whether a turn of a replica is marked near a place on its track."""
        near = self.layout.turn_at(x)
        turns = [number for number in range(near - 1, near + 2) if 0 <= number < len(self.world.turns)]
        return any(self.world.turns[number].who == who and abs(self.layout.x(number) - x) < NEAR for number in turns)

    def lost(self, letter, title, more):
        """A letter that nobody hears. It ends near its sender, and so on no other's track; one that goes farther ends behind."""
        x, top = self.layout.x(letter.turn), self.layout.y(letter.sender)
        far = LOST_DOWN * TRACK + (abs(letter.to - letter.sender) - 1) * LOST_APART
        right, y = x + LOST * COLUMN, top + (far if letter.to > letter.sender else -far)
        text = group_of(line(x, top, right, y, "lost") + cross(right, y, 3, "lost"), f"{title}; nobody hears it")
        return Mark(LETTERS, "lost", x, right, text, **more)

    # The scheduler.

    def calls(self):
        """The calls of the scheduler and the late ones that arrive. What stands under a name since when is taken down."""
        late, held = [], set()
        for number, turn in enumerate(self.world.turns[: self.layout.until]):
            call = late[turn.operand][0] if turn.word == "arrive" else turn.call
            if not call:
                continue
            name = call.job, call.at
            if self.layout.is_drawn(number):
                more = {"jobs": frozenset([call.job]), "launches": (self.launches.number(name),)}
                more["target"] = self.launches.number(name)
                yield from self.called(number, turn, call, late, name in held, more)
            if turn.fate == "late" and not turn.answer:
                late.append((call, number))
            elif turn.fate != "lost-before":
                held.add(name)

    def called(self, number, turn, call, late, is_held, more):
        """A call, or one that arrives, where something stands under its name already or nothing does."""
        if turn.word == "arrive":
            return self.arrival(number, turn, call, late[turn.operand][1], is_held, more)
        return self.call(number, turn, is_held, {**more, "who": (turn.who,)})

    def call(self, number, turn, is_held, more):
        x, said = self.layout.x(number), call_words(self.run, number, turn, is_held)
        top, bottom = self.layout.y(turn.who), self.layout.scheduler
        if turn.fate == "lost-before":
            middle = (max(top, self.layout.y(self.run.members - 1)) + bottom) / 2
            text = group_of(line(x, top, x, middle, "lost") + cross(x, middle, 4, "lost"), said)
            return [Mark(CALLS, "lost", x, x, text, **more)]
        waits = turn.fate == "late" and not turn.answer
        kind = "waiting" if waits else ending((turn.answer or turn.call).kind, is_held)
        stroke = line(x, top, x, bottom, "late" if waits else "call")
        return [self.ended(number, x, kind, stroke, said, more)]

    def arrival(self, number, turn, call, called, is_held, more):
        x, y, title = self.layout.x(number), self.layout.scheduler, self.run.jobs[call.job].title(call.at)
        told = "something stands there already" if is_held else f"it makes a {call.kind}"
        said = f"turn {number}: late call {turn.operand} arrives, for {title}; {told}"
        left = max(self.layout.x(called), self.layout.left)
        kind = "waiting" if is_held else ending(call.kind, False)
        yield self.ended(number, left, kind, line(left, y, x, y, "late"), said, more)

    def ended(self, number, left, kind, stroke, said, more):
        """A call with its sign on the scheduler's track, and the launch's name below where there is room for it."""
        x, y = self.layout.x(number), self.layout.scheduler
        text = stroke + (cross(x, y, 5, kind) if kind == "void" else disc(x, y, 6, kind))
        told, begin, end = self.name(number)
        return Mark(CALLS, kind, min(left, x - 6, begin), max(x + 6, end), group_of(text + told, said), **more)

    def name(self, number):
        """The name that stands below a turn, if one does, and the pixels between which it stands."""
        row, place, told = self.layout.names.get(number, (None, self.layout.x(number), ""))
        text = words(place, self.layout.name_y(row), told, "label") if told else ""
        return text, place, place + len(told) * LETTER

    # The versions of the table.

    def adoptions(self):
        """The versions that are adopted, each across all tracks, with its number below where there is room for it."""
        for number, entry in self.launches.adoptions:
            if self.layout.is_drawn(number):
                x = self.layout.x(number)
                told, begin, end = self.name(number)
                stroke = line(x, self.layout.top, x, self.layout.scheduler, "version")
                text = group_of(stroke + told, adoption_words(self.words, number, entry))
                yield Mark(CALLS, "version", min(x - 1, begin), max(x + 1, end), text)

    # The tracks' turns.

    def turns(self):
        for number, turn in self.shown():
            if turn.who is None:
                continue
            yield self.turn(number, turn)
            step = self.world.steps[number]
            for vote in step.votes() if step else []:
                yield self.vote(number, turn.who, vote)
            if step and step.change and step.change[0] == "base":
                yield self.base(number, turn.who, step.change[1])
            if step and step.learned:
                yield self.learning(number, turn.who, step.learned)

    def turn(self, number, turn):
        x, y = self.layout.x(number), self.layout.y(turn.who)
        if turn.cause:
            return self.stop_within(number, turn, x, y)
        title = turn_words(number, turn) + ("" if turn.word == "stop" else f"; it is {self.world.roles[number]}")
        answered = self.launches.answers.get(number)
        launches = (self.launches.number(answered),) if answered else ()
        return Mark(TURNS, turn.word, x - 6, x + 6, turn_sign(x, y, turn.word, title), (turn.who,), launches=launches)

    def stop_within(self, number, turn, x, y):
        """A disk that stops within a write. What was to be saved is kept, or it is lost."""
        change, kind = self.world.broken_off[number], f"stop_{turn.end}"
        title = stop_words(self.words, number, turn, change)
        more = self.of_entries([change[3]]) if change[0] == "voted" else {}
        return Mark(TURNS, kind, x - 6, x + 6, turn_sign(x, y, kind, title), (turn.who,), launches=more.get("launches", ()))

    def vote(self, number, who, vote):
        x, y = self.layout.x(number), self.layout.y(who) - 15
        title = f"turn {number}: replica {who} votes {self.words.vote(*vote)}"
        return Mark(TURNS, "vote", x - 5, x + 5, diamond(x, y, "vote", title), (who,), **self.of_entries([vote[2]]))

    def base(self, number, who, slot):
        x, y = self.layout.x(number), self.layout.y(who) - 15
        title = f"turn {number}: replica {who} keeps its launch table at slot {slot} in place of the entries below"
        return Mark(TURNS, "base", x - 5, x + 5, box(x - 4, y - 4, 8, 8, "base", title), (who,))

    def learning(self, number, who, learned):
        x, y = self.layout.x(number), self.layout.y(who) + 15
        said = "; ".join(f"{slots} {entry}" for slots, entry in self.words.entries(learned))
        title = f"turn {number}: replica {who} learns {said}"
        more = self.of_entries([entry for _, entry in learned])
        return Mark(TURNS, "learned", x - 4, x + 4, box(x - 4, y - 4, 8, 8, "learned", title), (who,), **more)


def ending(kind, is_held):
    """The kind of a call's sign: a launch, or one that was made before, or a void."""
    if kind == LAUNCH:
        return "found" if is_held else "launch"
    return "void"


def turn_sign(x, y, word, title=""):
    """The sign of a turn on its replica's track."""
    if word == "campaign":
        return shape([(x - 6, y + 5), (x, y - 6), (x + 6, y + 5)], word, title)
    if word == "restart":
        return shape([(x - 5, y - 6), (x + 6, y), (x - 5, y + 6)], word, title)
    if word == "answer":
        return shape([(x - 6, y - 5), (x, y + 6), (x + 6, y - 5)], word, title)
    if word in ("stop_kept", "stop_lost"):
        within = box(x - 2.5, y - 2.5, 5, 5, "stop") if word == "stop_kept" else cross(x, y, 3, "within")
        return group_of(box(x - 6, y - 6, 12, 12, "within") + within, title)
    if word == "stop":
        return box(x - 5, y - 5, 10, 10, word, title)
    return box(x - 1, y - 5, 2, 10, "tick", title) if word == "tick" else disc(x, y, 3, "hear", title)
