"""What marks of a picture say."""
from small_world.instants import DAY, date_of, stamp_of
from small_world.launches import VOID
from small_world.words import Words, ballot_words

# A letter that says more is cut there.
MOST_SAID = 300
SAID = {
    "campaign": "stands for leader",
    "answer": "takes what the scheduler told it",
    "stop": "stops",
    "restart": "starts again",
}
TERMS = {"candidate": "stands", "leader": "leads", "stopped": "stopped"}
# What a replica does as its disk stops.
CAUSES = {
    "campaign": "it stands for leader",
    "tick": "its clock reads {}",
    "hear": "it hears letter {}",
    "answer": "it takes what the scheduler told it",
}
COMES_BACK = {
    "lost-before": "it is lost on its way",
    "lost-after": "it is made, and the answer is lost",
    "late": "it is on its way, and nothing comes back yet",
}


def words_of(run):
    """Words in which launches have their names."""
    return Words(lambda job, at: run.jobs[job].title(at))


def letter_words(words, number, letter):
    """What a letter says, and between whom it goes."""
    said = words.packets(letter.packets)
    said = said if len(said) <= MOST_SAID else f"{said[:MOST_SAID]} .."
    return f"letter {number} from replica {letter.sender} to replica {letter.to}: {said}"


def change_words(words, change):
    """What is saved on a disk: a ballot of the replica's own, or one that it promised, a vote, or a launch table."""
    kind, *parts = change
    if kind == "voted":
        return f"its vote {words.vote(*parts)}"
    if kind == "base":
        return f"its launch table at slot {parts[0]}"
    return f"its {'promise of' if kind == 'promised' else 'own'} ballot {ballot_words(parts[0])}"


def stop_words(words, number, turn, change):
    """What a disk was to save as it stopped, within which turn, and whether that is kept."""
    operand = stamp_of(turn.operand) if turn.cause == "tick" else turn.operand
    cause = CAUSES[turn.cause].format(operand)
    return f"turn {number}: the disk of replica {turn.who} stops as {cause}: {change_words(words, change)} is {turn.end}"


def turn_words(number, turn):
    """What happens in a turn of a replica."""
    if turn.word == "tick":
        return f"turn {number}: the clock of replica {turn.who} reads {stamp_of(turn.operand)}"
    if turn.word == "hear":
        return f"turn {number}: replica {turn.who} hears letter {turn.operand}"
    return f"turn {number}: replica {turn.who} {SAID[turn.word]}"


def term_label(role):
    """What a replica is, shortly."""
    kind, _, ballot = role.partition(" ")
    return f"{TERMS[kind]} {ballot}".strip()


def call_words(run, number, turn, is_held=False):
    """What is called for in a turn, and what comes back: of what is made then, or of what was held before."""
    title = run.jobs[turn.call.job].title(turn.call.at)
    before = " that was made before" if is_held else ""
    told = f"the answer is a {turn.answer.kind}{before}" if turn.answer else COMES_BACK[turn.fate]
    why = f", since {why_void(run, turn.call)}" if turn.call.kind == VOID else ""
    return f"turn {number}: replica {turn.who} calls for {title}, a {turn.call.kind}{why}: {told}"


def adoption_words(words, number, entry):
    """In which turn a version is adopted, which one, and at which clock reading."""
    return f"turn {number}: a majority has voted for {words.entry(entry)}: it is adopted"


def why_void(run, call):
    """Why a launch is given up, by the clock of who calls."""
    job, read = run.jobs[call.job], f"its clock reads {stamp_of(call.now)}"
    if job.by_period:
        return f"{read}, and the launch's date is over"
    grace = f"the grace of {run.grace:,} minute{'' if run.grace == 1 else 's'} ended at {stamp_of(call.at + run.grace)}"
    return f"{read}, and {grace if run.grace else 'there is no grace'}"


def launch_label(run, call):
    """A launch's name, shortly: its job, and when it is due in UTC. The day stands there where the window has several."""
    job = run.jobs[call.job]
    if job.by_period:
        return f"{job.name} {date_of(call.at):%m-%d}"
    is_long = (run.end - 1) // DAY > run.first // DAY
    return f"{job.name} {stamp_of(call.at)[5 if is_long else 11 : 16].replace('T', ' ')}"
