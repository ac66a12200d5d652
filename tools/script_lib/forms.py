"""The form of each command, and what is wrong with a line by it."""
from collections import namedtuple
from difflib import get_close_matches

from .operands import fate_fault, member_fault, minutes_fault, place_fault, rounds_fault, stamp_fault, turns_fault

# An operand: its name in the form, what it is, and what tells what is wrong with a word.
Operand = namedtuple("Operand", "name what fault_of")
R = Operand("R", "the number of a replica", member_fault)
A, B = R._replace(name="A"), R._replace(name="B")
AT = Operand("STAMP", "an instant of the window, as 2024-03-31T01:00Z", stamp_fault)
ROUNDS = Operand("K", "a number of rounds, 1 to 10,000", rounds_fault)
TURNS = Operand("T", "a number of turns, 1 to 20,000", turns_fault)
LETTER = Operand("L", "the number of a letter", place_fault)
LATE = Operand("C", "the number of a late call", place_fault)
MINUTES = Operand("M", "how many minutes the clock is ahead, or behind below 0", minutes_fault)
FATE = Operand("FATE", "`done`, `lost-before`, `lost-after` or `late`", fate_fault)
PASS = Operand("C", "how many more calls the disk does", place_fault)
IMAGE = Operand("I", "the number of the image that is left", place_fault)
# Of each command its operands, and what happens.
COMMANDS = {
    "round": ([AT, ROUNDS], "has K rounds at that instant"),
    "campaign": ([R], "has R stand for leader"),
    "stop": ([R], "stops R"),
    "restart": ([R], "starts R again"),
    "cut": ([A, B], "loses letters from A to B from now on"),
    "heal": ([], "ends all cuts"),
    "drop": ([A, B], "loses the letters from A that wait for B"),
    "repeat": ([A, B], "has the letters from A that wait for B come twice"),
    "reverse": ([R], "turns round the letters that wait for R"),
    "again": ([LETTER], "has letter L come once more"),
    "skew": ([R, MINUTES], "sets the clock of R M minutes ahead"),
    "fate": ([R, FATE], "says what becomes of the next call of R"),
    "arrive": ([LATE], "has late call C arrive at the scheduler"),
    "settle": ([AT], "ends all faults and does all that is to be done at that instant"),
    "walk": ([AT], "settles, and goes on minute by minute up to that instant"),
    "break": ([R, PASS, IMAGE], "has the disk of R stop within a write"),
    "free": ([AT, TURNS], "has each replica run by itself for T turns"),
}
# Other words for what a command does.
OTHERS = {
    "again": ["resend", "replay", "redeliver"],
    "arrive": ["deliver", "land"],
    "break": ["power", "outage", "poweroff", "disk", "torn"],
    "campaign": ["elect", "election", "lead", "leader", "candidate", "takeover"],
    "cut": ["partition", "disconnect", "isolate", "block", "split"],
    "drop": ["lose", "loss", "discard"],
    "fate": ["call", "scheduler", "fail"],
    "heal": ["connect", "reconnect", "join", "mend", "repair", "unblock"],
    "repeat": ["duplicate", "double", "twice"],
    "restart": ["start", "up", "boot", "recover", "resume", "revive"],
    "reverse": ["reorder", "shuffle"],
    "round": ["tick", "sleep", "wait", "rounds", "run", "step", "pause", "advance"],
    "skew": ["clock", "drift", "time"],
    "stop": ["crash", "kill", "down", "halt", "pause", "fault"],
    "walk": ["until", "continue", "goto"],
}


def form_of(word):
    """The form of a command."""
    return " ".join([word, *(operand.name for operand in COMMANDS[word][0])])


def meant_by(word):
    """The command that another word may stand for; none where nothing tells."""
    low = word.lower().rstrip(":;,.")
    if low in COMMANDS:
        return low
    near = get_close_matches(low, COMMANDS, 1, 0.75)
    return near[0] if near else next((name for name, words in OTHERS.items() if low in words), None)


def word_fault(word):
    """What is wrong with the word that a line begins with."""
    if word in COMMANDS:
        return None
    meant = meant_by(word)
    if meant is None:
        return f"there is no command `{word}`; the commands are {', '.join(COMMANDS)}"
    if meant == word.lower():
        return f"a command has small letters: write `{meant}`"
    return f"there is no command `{word}`; `{form_of(meant)}` {COMMANDS[meant][1]}"


def operands_fault(words, frame):
    """What is wrong with a command whose first word is known: the place of the word at fault, and what is wrong. A word that is
    missing has the place behind the last one."""
    operands = COMMANDS[words[0]][0]
    form = form_of(words[0])
    for place, operand in enumerate(operands, 1):
        if place == len(words):
            return place, f"{operand.name} is missing in `{form}`: {operand.what}"
        fault = operand.fault_of(words[place], frame, operand.name)
        if fault:
            return place, fault
    if len(words) > len(operands) + 1:
        more = ", and no comment either" if words[len(operands) + 1].startswith("#") else ""
        return len(operands) + 1, f"nothing stands behind `{form}`{more}"
    return None
