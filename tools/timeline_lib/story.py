"""What happens in a run, as sentences: who leads when, what stops, what the scheduler is called for, and which versions are adopted."""
from .words import TERMS, adoption_words, call_words, stop_words, words_of

# So many sentences at most; a run may have thousands.
MOST_TOLD = 60


def calls_of(world, first, until):
    """The calls of the scheduler that come to it in the turns from one on and before another: the turn, the call, and the number
    of a late call that arrives."""
    late = []
    for number, turn in enumerate(world.turns[:until]):
        call = late[turn.operand] if turn.word == "arrive" else turn.call
        if turn.call and turn.fate == "late" and not turn.answer:
            late.append(turn.call)
        if call and number >= first and turn.fate != "lost-before":
            yield number, call, turn.operand if turn.word == "arrive" else None


def changes(world, first, until):
    """The turns in which a replica begins to be another, and what it is then."""
    roles = ["follower"] * world.run.members
    for number, turn in enumerate(world.turns[:until]):
        if turn.who is None:
            continue
        role = world.roles[number]
        if role != roles[turn.who] and number >= first:
            broken_off = stop_words(words_of(world.run), number, turn, world.broken_off[number]) if turn.cause else None
            yield number, broken_off or sentence(number, turn.who, role, roles[turn.who])
        roles[turn.who] = role


def sentence(number, who, role, before):
    kind, _, ballot = role.partition(" ")
    if kind in TERMS:
        verb = {"candidate": "stands for leader", "leader": "leads", "stopped": "stops"}[kind]
        return f"turn {number}: replica {who} {verb}{f' in ballot {ballot}' if ballot else ''}"
    ends = {"stopped": "starts again", "leader": "leads no more", "candidate": "stands for leader no more"}
    return f"turn {number}: replica {who} {ends[before.split(' ')[0]]}"


def called(world, number, call, late):
    """What comes to the scheduler in a turn."""
    if late is None:
        return call_words(world.run, number, world.turns[number])
    return f"turn {number}: late call {late} arrives, for {world.run.jobs[call.job].title(call.at)}"


def adopted(launches, first, until):
    """The turns in which versions are adopted, and what is told of each."""
    words = words_of(launches.run)
    return [(number, adoption_words(words, number, entry)) for number, entry in launches.adoptions if first <= number < until]


def told(launches, first, until):
    """The sentences of some turns, in their order."""
    world = launches.world
    found = [(number, called(world, number, call, late)) for number, call, late in calls_of(world, first, until)]
    found = sorted([*found, *changes(world, first, until), *adopted(launches, first, until)])
    texts = [text for _, text in found[:MOST_TOLD]]
    return ". ".join(text[0].upper() + text[1:] for text in texts) + ("." if texts else "") + (" .." if found[MOST_TOLD:] else "")
