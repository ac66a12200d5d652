"""What is wrong with a field of an entry: the first rule that it breaks, as the program has them."""
import re
from collections import namedtuple

from .faults import caused, shown

Kind = namedtuple("Kind", "name least greatest words")

MONTHS = "jan feb mar apr may jun jul aug sep oct nov dec".split()
WEEK_DAYS = "sun mon tue wed thu fri sat".split()
KINDS = [
    Kind("minute", 0, 59, {}),
    Kind("hour", 0, 23, {}),
    Kind("day of the month", 1, 31, {}),
    Kind("month", 1, 12, {word: number for number, word in enumerate(MONTHS, 1)}),
    Kind("day of the week", 0, 7, {word: number for number, word in enumerate(WEEK_DAYS)}),
]


def field_fault(kind, text):
    """What is wrong with a field; none where nothing is."""
    if "~" in text:
        return caused(8, f"the {kind.name} has a `~`; here `?` picks one value, and cron takes none")
    if text == "?":
        return None
    faults = (item_fault(kind, item) for item in text.split(","))
    return next((fault for fault in faults if fault), None)


def item_fault(kind, item):
    """What is wrong with an item of the list that a field is."""
    base, slash, step = item.partition("/")
    low, dash, high = base.partition("-")
    is_range = base == "*" or bool(dash)
    atoms = [] if base == "*" else [low, high] if dash else [low]
    for atom in atoms:
        fault = atom_fault(kind, atom)
        if fault:
            return fault
    values = [value_of(kind, atom) for atom in atoms]
    for value in values:
        if not kind.least <= value <= kind.greatest:
            return caused(3, f"the {kind.name} is {kind.least} to {kind.greatest}, not {value}")
    if values != sorted(values):
        return caused(5, f"the range `{base}` of the {kind.name} ends below its beginning")
    return step_fault(kind, step, is_range) if slash else None


def atom_fault(kind, atom):
    """What is wrong with a number or a name."""
    if is_number(atom) or (atom.isascii() and atom.lower() in kind.words):
        return None
    if not atom:
        return caused(1, f"a number of the {kind.name} is missing")
    if re.fullmatch("[0-9]+", atom):
        return caused(2, f"a number of the {kind.name} has more than nine digits")
    if re.fullmatch("[A-Za-z]+", atom):
        return caused(4, f"the {kind.name} has no name `{atom}`")
    return caused(9, f"the {kind.name} has `{shown(atom)}`, which is neither a number nor a name")


def step_fault(kind, step, is_range):
    """What is wrong with the step behind a `/`."""
    if not is_range:
        return caused(7, f"a step of the {kind.name} follows a single number")
    if not step:
        return caused(1, f"a step of the {kind.name} is missing")
    if not is_number(step):
        return caused(2, f"a step of the {kind.name} is no number of up to nine digits")
    return caused(6, f"a step of the {kind.name} is 0") if int(step) == 0 else None


def is_number(text):
    """Whether a text is a number in one to nine digits."""
    return bool(re.fullmatch("[0-9]{1,9}", text))


def value_of(kind, atom):
    """The number that a number or a name stands for."""
    return int(atom) if is_number(atom) else kind.words[atom.lower()]
