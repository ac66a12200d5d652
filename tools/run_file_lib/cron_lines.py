"""How the crons of machines read a line of a crontab: which lines they refuse, and in which words of their logs.

The rules are those of their sources: of Debian's cron 3.0pl1-162 (env.c:148 load_env, entry.c:71 load_entry, entry.c:375 get_list,
entry.c:422 get_range) and of cronie 1.7.2 (env.c:182 load_env, entry.c:93 load_entry, entry.c:551 get_range).
"""
import re
from collections import namedtuple

# What a table is for its cron: whether its entries have a user, whether a name is a user's (none where that can't be told), and
# whether the table is root's.
Owner = namedtuple("Owner", "is_system is_user is_root", defaults=[False])
Field = namedtuple("Field", "word least greatest names")

MONTHS = {name: number for number, name in enumerate(b"jan feb mar apr may jun jul aug sep oct nov dec".split(), 1)}
WEEK_DAYS = {name: number for number, name in enumerate(b"sun mon tue wed thu fri sat".split())}
FIELDS = [
    Field("bad minute", 0, 59, {}),
    Field("bad hour", 0, 23, {}),
    Field("bad day-of-month", 1, 31, {}),
    Field("bad month", 1, 12, MONTHS),
    Field("bad day-of-week", 0, 7, WEEK_DAYS),
]
NICKNAMES = set(b"@reboot @yearly @annually @monthly @weekly @daily @midnight @hourly".split())
# A line that sets a variable: a name, which may stand in quotes, and a value, which may too.
NAME = rb"""(?:'[^'=]*'|"[^"=]*"|(?!['"])[^=\s]*)"""
VALUE = rb"""(?:'[^']*'\s*|"[^"]*"\s*|(?!['"])\S.*)"""
DEBIAN_SETTING = re.compile(NAME + rb"\s*=\s*" + VALUE, re.DOTALL)
# cronie takes a variable without a value, too (env.c:262).
CRONIE_SETTING = re.compile(NAME + rb"\s*=\s*" + VALUE + b"?", re.DOTALL)
# How many bytes of a line load_env looks at, and at how many a command is one too long (cron.h:82 and 83; entry.c:331).
DEBIAN_BYTES_OF_A_SETTING, DEBIAN_BYTES_OF_A_COMMAND = 998, 999
ITEM = re.compile(rb"(?:(\*)|([0-9A-Za-z]+)(-([0-9A-Za-z]*))?)(/([0-9A-Za-z]*))?")
# An item of cronie, which is a whole one; at random between two numbers, or a range.
RANDOM_ITEM = re.compile(b"([0-9A-Za-z]*)~([0-9A-Za-z]*)")


class Refused(Exception):
    """A line that a cron refuses, in the words of its log."""


def is_said(line):
    """Whether a line is neither empty nor a comment. (Debian's misc.c:395 and cronie's alike.)"""
    text = line.lstrip(b" \t")
    return bool(text) and not text.startswith(b"#")


def word_of(text):
    """The first word of a text, and what stands behind the blanks behind it."""
    word = re.match(b"[^ \t]*", text)[0]
    return word, text[len(word) :].lstrip(b" \t")


def number_of(word, names):
    """The number of a word, as an int of C; none where it is none."""
    if word.lower() in names:
        return names[word.lower()]
    if not re.fullmatch(b"[0-9]+", word):
        return None
    number = min(int(word[:1000]), 2**63 - 1) & 0xFFFFFFFF
    return number - 2**32 if number >= 2**31 else number


def debian_takes(field, word):
    """Whether Debian's cron takes a field. What stands behind an item but a comma is skipped (entry.c:410)."""
    while True:
        found = ITEM.match(word)
        if not found or not debian_takes_item(field, found):
            return False
        word = word[found.end() :]
        if not word.startswith(b","):
            return True
        word = word[1:]


def debian_takes_item(field, found):
    """Whether Debian's cron takes an item: a range may end below its beginning, and both ends are judged."""
    star, first, dash, last, slash, step = found.groups()
    if not star and not dash:
        number = number_of(first, field.names)
        return not slash and number is not None and field.least <= number <= field.greatest
    ends = [] if star else [number_of(first, field.names), number_of(last, field.names)]
    if None in ends or (slash and (number_of(step, {}) or 0) <= 0):
        return False
    return all(field.least <= end <= field.greatest for end in ends)


def cronie_takes(field, word):
    """Whether cronie takes a field."""
    return all(cronie_takes_item(field, item) for item in word.split(b","))


def cronie_takes_item(field, item):
    """Whether cronie takes an item: of a range those values are judged that it has."""
    found = RANDOM_ITEM.fullmatch(item)
    if found:
        low, high = (number_of(part, field.names) if part else end for part, end in zip(found.groups(), field[1:3]))
        return low is not None and high is not None and field.least <= low <= high <= field.greatest
    found = ITEM.fullmatch(item)
    if not found:
        return False
    star, first, dash, last, slash, step = found.groups()
    if slash and not star and not dash:
        return False
    low = field.least if star else number_of(first, field.names)
    high = field.greatest if star else number_of(last, field.names) if dash else low
    stride = number_of(step, {}) if slash else 1
    if low is None or high is None or stride is None or stride <= 0:
        return False
    return low > high or field.least <= low and high - (high - low) % stride <= field.greatest


def behind_fields(text, takes):
    """What stands behind the nickname or the five fields of an entry, without the blanks before it."""
    if text.startswith(b"@"):
        word, rest = word_of(text)
        if word not in NICKNAMES:
            raise Refused("bad time specifier")
        return rest
    for field in FIELDS:
        word, text = word_of(text)
        if not takes(field, word):
            raise Refused(field.word)
    return text


def debian_fault(line, owner):
    """The words with which Debian's cron refuses a line, and with it its table; none where it takes the line."""
    text = line.lstrip(b" \t")
    if not is_said(line) or DEBIAN_SETTING.fullmatch(text[:DEBIAN_BYTES_OF_A_SETTING]):
        return None
    try:
        command = behind_fields(text, debian_takes)
        if owner.is_system:
            # A line's end doesn't end the name: where no blank stands behind it, no user has it (entry.c:246).
            user, blank, command = partitioned(command)
            if not blank or owner.is_user(user) is False:
                raise Refused("bad username")
        elif command.startswith(b"*"):
            raise Refused("bad command")
        if len(command) >= DEBIAN_BYTES_OF_A_COMMAND:
            raise Refused("command too long")
    except Refused as refused:
        return str(refused)
    return None


def partitioned(text):
    """The word that a text begins with, the one blank behind it, and the rest."""
    word = re.match(b"[^ \t]*", text)[0]
    return word, text[len(word) : len(word) + 1], text[len(word) + 1 :]


def cronie_fault(line, owner):
    """The words with which cronie refuses a line, and no other line of the table; none where it takes the line."""
    text = line.lstrip(b" \t")
    if not is_said(line) or CRONIE_SETTING.fullmatch(text):
        return None
    try:
        command = behind_fields(cronie_entry(text, owner), cronie_takes)
        if not command or command.startswith(b"*"):
            raise Refused("bad command")
        if owner.is_system:
            user, command = word_of(command)
            if not command:
                raise Refused("bad command")
            # The entry is kept, and found out when it is due (job.c:74).
            if owner.is_user(user) is False:
                raise Refused("getpwnam() failed - user unknown")
        judge_options(command)
    except Refused as refused:
        return str(refused)
    return None


def cronie_entry(text, owner):
    """An entry without the `-` before it, which root may write alone (entry.c:133)."""
    if not text.startswith(b"-"):
        return text
    if not owner.is_system and not owner.is_root:
        raise Refused("bad option")
    return text[1:]


def judge_options(command):
    """Judges the options of cronie before a command: `-n`, once (entry.c:419)."""
    count = 0
    while command.startswith(b"-"):
        option, command = word_of(command)
        count += 1
        if option != b"-n" or count > 1:
            raise Refused("bad option")
        if not command:
            raise Refused("bad command")
