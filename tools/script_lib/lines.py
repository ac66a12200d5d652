"""What is wrong with each line of a script."""
import re

from .forms import COMMANDS, operands_fault, word_fault
from .plain import is_kept
from .run_lines import Fault

MOST_COMMANDS, MOST_ROUNDS, MOST_TURNS = 1_000, 100_000, 100_000
REFUSED, NO_TEXT = 30, 15
LEFT_OUT = "`tools/timeline` leaves it out, and so does `tools/explain --plain`"


def columns_of(words):
    """The columns of words that stand one space apart, and the one behind them. A column counts bytes from 1."""
    columns, column = [], 1
    for word in words:
        columns.append(column)
        column += len(word.encode("utf-8", "surrogateescape")) + 1
    return [*columns, column - 1]


def layout_fault(line):
    """The byte of a line at which its words don't stand one space apart, and what is wrong there."""
    for wrong, text in (
        (r"\r$", "the line ends with a carriage return: write the file with plain line ends"),
        (r"^[ \t]+", "nothing stands before a command, no blank either"),
        (r"[ \t]+$", "nothing stands behind the last word, no blank either"),
        (r" *\t[ \t]*|  +", "words stand one space apart"),
    ):
        found = re.search(wrong, line)
        if found:
            return len(line[: found.start()].encode("utf-8", "surrogateescape")) + 1, text
    return None


def text_fault(line):
    """Why a line is no text; none where it is."""
    try:
        line.encode()
    except UnicodeEncodeError:
        return "the line isn't UTF-8"
    return "the line has a zero byte" if "\0" in line else None


def line_fault(line, frame):
    """What is wrong with a line: the column, the text, and the cause; none where nothing is."""
    fault = text_fault(line)
    if fault:
        return 0, fault, NO_TEXT
    if not is_kept(line):
        what = "a comment" if line.strip() else "an empty line"
        return 0, f"{what}: the program takes none in a script; {LEFT_OUT}", REFUSED
    words = line.split(" ")
    layout = layout_fault(line)
    if layout:
        return (*layout, REFUSED)
    if word_fault(words[0]):
        return 1, word_fault(words[0]), REFUSED
    fault = operands_fault(words, frame)
    return (columns_of(words)[fault[0]], fault[1], REFUSED) if fault else None


class Sums:
    """What the lines of a script ask for together."""

    def __init__(self):
        self.commands = 0
        self.rounds = 0
        self.turns = 0

    def fault(self, words):
        """The limit that a line goes beyond, and the place of the word that does; none where it keeps all."""
        self.commands += 1
        self.rounds += int(words[2]) if words[0] == "round" else 0
        self.turns += int(words[2]) if words[0] == "free" else 0
        if self.commands > MOST_COMMANDS:
            return 0, f"the command is one too many: a script has at most {MOST_COMMANDS:,}"
        if self.rounds > MOST_ROUNDS:
            return 2, f"with this line the script has {self.rounds:,} rounds, and may have {MOST_ROUNDS:,}"
        if self.turns > MOST_TURNS:
            return 2, f"with this line each replica has {self.turns:,} free turns, and may have {MOST_TURNS:,}"
        return None


def faults_of(script):
    """What is wrong with the lines of a script, of each line its first fault. Past a limit one line is told."""
    sums, is_beyond = Sums(), False
    for number, line in enumerate(script.lines, script.first):
        fault = line_fault(line, script.frame)
        if fault:
            yield Fault(number, *fault)
            continue
        words = line.split(" ")
        beyond = None if is_beyond or words[0] not in COMMANDS else sums.fault(words)
        if beyond:
            is_beyond = True
            yield Fault(number, columns_of(words)[beyond[0]], beyond[1], REFUSED)
