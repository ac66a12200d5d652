"""What a run's report and journal come to be once they are damaged, in ways that are drawn from a seed: a line is gone, or stands
there twice, or has another word, or has changed places with another one; the text breaks off; or another run's stands there."""
import re
from typing import NamedTuple

from .instants import minute_of, stamp_of

HEAD, END = "cron journal 1", "end"
STAMP = re.compile("[0-9]{4}-[0-9]{2}-[0-9]{2}T[0-9]{2}:[0-9]{2}Z")
# Numbers of many digits, and of more than some machine's word has.
LONG = ("4294967296", "18446744073709551616", "7" * 5000)
NO_STAMPS = ("2024-02-30T00:00Z", "2024-13-01T00:00Z", "2024-03-31T24:00Z", "0000-02-29T00:00Z", "9999-12-31T23:59Z", "2024-3-31T00:00Z")
FATES, KINDS, ENDS = ("done", "lost-before", "lost-after", "late"), ("launch", "void"), ("kept", "lost")
STEPS = ("campaign", "tick", "hear", "answer", "stop", "restart", "arrive", "command")
# A byte that stands in no UTF-8, as texts are written here.
NO_TEXT = "\udcff"


class Told(NamedTuple):
    """A run file, and the lines of the report and of the journal that were written for it."""

    run: str
    report: list
    journal: list

    def content(self):
        """The bytes that are audited. The lines of a run and what is told of it end with a newline."""
        return (self.run + "".join(f"{line}\n" for line in self.report + self.journal)).encode(errors="surrogateescape")


def told_of(run, output):
    """What was written for a run."""
    lines = output.split("\n")[:-1]
    behind = lines.index(END) + 1
    return Told(run, lines[:behind], lines[behind:])


def other_number(chance, word):
    near = [str(int(word) + 1), str(max(0, int(word) - 1)), str(chance.randrange(8))]
    return chance.choice([*near, f"0{word}", "-", *LONG])


def other_stamp(chance, word):
    minutes = chance.choice([1, -1, 60, -1440, chance.randrange(100_000)])
    return chance.choice([stamp_of(minute_of(word) + minutes), chance.choice(NO_STAMPS)])


def other_word(chance, word):
    """Another word in the place of one, as a rule of the same sort."""
    if word.isdigit():
        return other_number(chance, word)
    if STAMP.fullmatch(word):
        return other_stamp(chance, word)
    like = next((words for words in (FATES, KINDS, ENDS, STEPS) if word in words), STEPS)
    return chance.choice([chance.choice(like), chance.choice(like), chance.choice(STEPS), f"{word}0", word.upper(), NO_TEXT, ""])


def with_words(chance, lines, place):
    """Lines of which one has another word, one time for each word; and with a word more, and with one less."""
    words = lines[place].split(" ")
    for number, word in enumerate(words):
        yield replaced(lines, place, [" ".join([*words[:number], other_word(chance, word), *words[number + 1 :]])])
    yield replaced(lines, place, [" ".join([*words, chance.choice([*FATES, "", "0"])])])
    yield replaced(lines, place, [" ".join(words[:-1])])


def replaced(lines, place, others):
    return [*lines[:place], *others, *lines[place + 1 :]]


def exchanged(lines, place, other):
    """Lines of which two have changed places."""
    changed = list(lines)
    changed[place], changed[other] = lines[other], lines[place]
    return changed


def changed_lines(chance, lines, place):
    """Lines that are damaged in each way at one of them."""
    yield replaced(lines, place, [])
    yield replaced(lines, place, [lines[place]] * 2)
    yield exchanged(lines, place, min(place + 1, len(lines) - 1))
    yield exchanged(lines, place, chance.randrange(len(lines)))
    yield from with_words(chance, lines, place)


def drawn_place(chance, lines):
    """A line of a journal: often one of a turn of the script, one of a call, or one of a disk that stops."""
    script = range(1, max(2, lines.index("command end")))
    rare = [place for place, line in enumerate(lines) if line.endswith(KINDS) or re.search(" stop (?:kept|lost) ", line) or " - " in line]
    return chance.choice([chance.choice(script), chance.choice(rare or script), chance.randrange(len(lines))])


def damaged(chance, told, another):
    """What a run's report and journal come to be, each time as bytes. Another run's are given too. The first line of the report stays
    where it is, since all that stands before it is the run."""
    text, lines = told.content(), told.journal
    begin = len(text) - len("".join(f"{line}\n" for line in lines))
    changes = [told._replace(journal=journal) for journal in changed_lines(chance, lines, drawn_place(chance, lines))]
    changes += [told._replace(journal=another.journal), told._replace(report=another.report)]
    changes.append(told._replace(journal=lines[: chance.randrange(len(lines))]))
    reports = list(changed_lines(chance, told.report[1:], chance.randrange(len(told.report) - 1)))
    changes.append(told._replace(report=[told.report[0], *chance.choice(reports)]))
    found = [change.content() for change in changes]
    found.append(text[: chance.randrange(begin, len(text))])
    return [content for content in dict.fromkeys(found) if content != text]
