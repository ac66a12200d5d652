"""The faults of a table's lines, worked out without the program: of each faulty line its number in the run file, the cause and
the place of the byte, as docs/TABLES.md and docs/RUN_FILE.md tell them."""
import re

# A line's fault: the number of its cause, and how many bytes of the line stand before it.
MONTHS = "jan feb mar apr may jun jul aug sep oct nov dec".split()
WEEK_DAYS = "sun mon tue wed thu fri sat".split()
# Of each of the five fields the numbers that it takes, and its names with the number of the first.
RANGES = [(0, 59), (0, 23), (1, 31), (1, 12), (0, 7)]
NAMES = [[], [], [], MONTHS, WEEK_DAYS]
NICKNAMES = {"@yearly", "@annually", "@monthly", "@weekly", "@daily", "@midnight", "@hourly", "@reboot"}
PERIODS = {"@daily", "@weekly", "@monthly", "@yearly", "@annually"}
MOST_COMMAND = 1000


def size(text):
    """How many bytes a text has."""
    return len(text.encode())


def atom_of(kind, text):
    """The number of an atom, or None and the cause for which it is none."""
    if re.fullmatch(r"[0-9]{1,9}", text):
        return int(text), None
    if text.lower() in NAMES[kind]:
        return RANGES[kind][0] + NAMES[kind].index(text.lower()), None
    if not text:
        return None, 1
    if re.fullmatch(r"[0-9]+", text):
        return None, 2
    return None, 4 if re.fullmatch(r"[A-Za-z]+", text) else 9


def base_fault(kind, base):
    """What is wrong with an item before its step."""
    if base == "*":
        return None
    atoms = [atom_of(kind, atom) for atom in base.split("-", 1)]
    places = [0, size(base.partition("-")[0]) + 1]
    for (_, cause), place in zip(atoms, places):
        if cause:
            return cause, place
    low, high = RANGES[kind]
    for (number, _), place in zip(atoms, places):
        if not low <= number <= high:
            return 3, place
    return (5, 0) if len(atoms) == 2 and atoms[1][0] < atoms[0][0] else None


def item_fault(kind, item):
    """What is wrong with an item of a field."""
    base, slash, step = item.partition("/")
    fault = base_fault(kind, base)
    if fault or not slash:
        return fault
    place = size(base) + 1
    if base != "*" and "-" not in base:
        return 7, place
    if not step:
        return 1, place
    if not re.fullmatch(r"[0-9]{1,9}", step):
        return 2, place
    return (6, place) if int(step) == 0 else None


def field_fault(kind, text):
    """What is wrong with a field."""
    if "~" in text:
        return 8, size(text.partition("~")[0])
    place = 0
    for item in [] if text == "?" else text.split(","):
        fault = item_fault(kind, item)
        if fault:
            return fault[0], place + fault[1]
        place += size(item) + 1
    return None


class Words:
    """The words of a line, taken from its front."""

    def __init__(self, line):
        self.line = line
        self.rest = line.lstrip(" \t")

    def place(self):
        return size(self.line) - size(self.rest)

    def take(self):
        """The next word and its place. The blanks behind it are passed over."""
        place = self.place()
        word = re.match(r"[^ \t]*", self.rest)[0]
        self.rest = self.rest[len(word) :].lstrip(" \t")
        return word, place

    def command_fault(self):
        if not self.rest:
            return 11, self.place()
        return (14, self.place()) if size(self.rest) > MOST_COMMAND else None


def is_assignment(text):
    return re.match(r"[A-Za-z_][A-Za-z0-9_]*[ \t]*=", text)


def crontab_fault(line, kind):
    """What is wrong with a line of a crontab."""
    words = Words(line)
    if not words.rest or words.rest[0] == "#" or is_assignment(words.rest):
        return None
    if words.rest[0] == "@":
        word, place = words.take()
        if word not in NICKNAMES:
            return 13, place
    else:
        for field in range(5):
            word, place = words.take()
            if not word:
                return 10, place
            fault = field_fault(field, word)
            if fault:
                return fault[0], place + fault[1]
    if kind == "system":
        word, place = words.take()
        if not re.fullmatch(r"[A-Za-z_][A-Za-z0-9_.-]{0,31}", word):
            return 12, place
    return words.command_fault()


def number(text, low, high):
    """Whether a text is a number of that range, without sign or leading zeros."""
    return bool(re.fullmatch(r"0|[1-9][0-9]{0,3}", text)) and low <= int(text) <= high


def setting_fault(line):
    """What is wrong with the value of a variable of an anacrontab."""
    name, value = re.fullmatch(r"[ \t]*([A-Za-z_][A-Za-z0-9_]*)[ \t]*=[ \t]*(.*)", line, re.S).groups()
    place = size(line) - size(value)
    value = value.rstrip(" \t")
    if len(value) > 1 and value[0] in "\"'" and value[-1] == value[0]:
        value, place = value[1:-1], place + 1
    if name == "RANDOM_DELAY" and not number(value, 0, 9999):
        return 20, place
    if name == "START_HOURS_RANGE":
        hours = value.split("-")
        if len(hours) != 2 or not all(number(hour, 0, 24) for hour in hours) or int(hours[0]) >= int(hours[1]):
            return 19, place
    return None


def anacrontab_fault(line):
    """What is wrong with a logical line of an anacrontab, whose joints are blanks."""
    words = Words(line)
    if not words.rest or words.rest[0] == "#":
        return None
    if is_assignment(words.rest):
        return setting_fault(line)
    rules = [
        (16, lambda word: word in PERIODS or number(word, 1, 9999)),
        (17, lambda word: number(word, 0, 9999)),
        (18, lambda word: size(word) <= 64 and "/" not in word),
    ]
    for cause, keeps in rules:
        word, place = words.take()
        if not word:
            return 10, place
        if not keeps(word):
            return cause, place
    return words.command_fault()


def logical_lines(lines):
    """The logical lines of an anacrontab, each with the index of its first line."""
    at = 0
    while at < len(lines):
        first, text = at, lines[at]
        while text.endswith("\\") and at + 1 < len(lines):
            at += 1
            text = f"{text[:-1]}  {lines[at]}"
        yield first, text[:-1] + " " if text.endswith("\\") else text
        at += 1


def faults_of(kind, first, lines):
    """The faults of a table's lines, the first of which has that number in the run file."""
    if kind == "anacrontab":
        judged = [(first + index, anacrontab_fault(line)) for index, line in logical_lines(lines)]
    else:
        judged = [(first + index, crontab_fault(line, kind)) for index, line in enumerate(lines)]
    return [(line, *fault) for line, fault in judged if fault]
