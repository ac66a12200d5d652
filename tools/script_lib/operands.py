"""What is wrong with a word behind a command: a number, a stamp or a fate. None where nothing is."""
import re
from collections import namedtuple
from datetime import datetime, timedelta

# What a script may name: how many replicas there are, and the first minute of the window and the one behind it. Each is none where
# it isn't known, and then nothing is wrong with what stands there.
Frame = namedtuple("Frame", "members first end")
STAMP = re.compile(r"(\d{4})-(\d\d)-(\d\d)T(\d\d):(\d\d)Z")
NUMBER = re.compile("0|[1-9][0-9]*")
DIGITS = re.compile("[0-9]+")
FORM = "%Y-%m-%dT%H:%MZ"
FATES = ("done", "lost-before", "lost-after", "late")
MOST_ROUNDS, MOST_TURNS, MOST_MINUTES, MOST_NUMBER, MOST_DIGITS = 10_000, 20_000, 10_000, 2**32 - 1, 10


def number_fault(word, least, most, name):
    """What is wrong with a number, of which a form says the name. It may have a sign where it may be below 0."""
    span = f"{name} is {least:,} to {most:,}" if least < most else f"{name} is {least}"
    sign = "-" if least < 0 and word.startswith("-") else ""
    digits = word[len(sign) :]
    if digits.startswith("+") and NUMBER.fullmatch(digits[1:]):
        return f"a number has no `+`: write {digits[1:]}"
    if not DIGITS.fullmatch(digits):
        return f"`{word}` is no number; {span}"
    if not NUMBER.fullmatch(digits):
        rest = digits.lstrip("0")
        return f"a number has no leading zeros: write {sign + rest if rest else 0}"
    if sign and digits == "0":
        return "0 has no sign: write 0"
    return None if len(digits) <= MOST_DIGITS and least <= int(word) <= most else span


def member_fault(word, frame, name):
    fault = number_fault(word, 0, 6 if frame.members is None else frame.members - 1, name)
    return fault.replace(f"{name} is", f"replicas are numbered from 0 on, and {name} is") if fault else None


def rounds_fault(word, frame, name):
    return number_fault(word, 1, MOST_ROUNDS, name)


def turns_fault(word, frame, name):
    return number_fault(word, 1, MOST_TURNS, name)


def place_fault(word, frame, name):
    return number_fault(word, 0, MOST_NUMBER, name)


def minutes_fault(word, frame, name):
    return number_fault(word, -MOST_MINUTES, MOST_MINUTES, name)


def fate_fault(word, frame, name):
    return None if word in FATES else f"`{word}` is no fate; write `done`, `lost-before`, `lost-after` or `late`"


def stamp_fault(word, frame, name):
    """What is wrong with a stamp."""
    found = STAMP.fullmatch(word)
    if not found:
        ends = ", with a `Z` at its end, since it is in UTC" if STAMP.fullmatch(f"{word}Z") else ""
        return f"`{word}` is no stamp; write it as 2024-03-31T01:00Z{ends}"
    try:
        minute = datetime(*map(int, found.groups()))
    except ValueError:
        return f"there is no minute {word}"
    if frame.first is None or frame.first <= minute < frame.end:
        return None
    last = f"{frame.end - timedelta(minutes=1):{FORM}}"
    return f"the stamp isn't in the window, whose minutes are {frame.first:{FORM}} to {last}"
