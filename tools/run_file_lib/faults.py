"""What is told of a fault."""
import re

MOST_RANGES = 20
CAUSE = re.compile(r" \(cause (\d+)\)\Z")


class Stop(Exception):
    """A fault that ends the command: its message is told, and nothing is written to standard output."""

    status = 1


class NoAnswer(Stop):
    """The program can't be run, or fails, or its answer is none."""

    status = 2


def caused(cause, text):
    """What is wrong, with the number of the cause for which the program would refuse it (docs/RUN_FILE.md)."""
    return f"{text} (cause {cause})"


def cause_of(text):
    """The number of the cause that stands at the end of a message; none where it has none."""
    found = CAUSE.search(text)
    return int(found[1]) if found else None


def shown(text):
    """A text for a message: what can't be printed stands as an escape, so that a message stays one line."""
    return "".join(mark if mark.isprintable() else ascii(mark)[1:-1] for mark in text)


def place(file, line, column=0):
    """A file with the line and the column in it, where it has them."""
    return ":".join([shown(file), *(str(number) for number in (line, column) if number)])


def at(file, line, text, column=0):
    """A message with its file, and its line and its column where it has them."""
    return f"{place(file, line, column)}: {text}"


def why(fault):
    """Why a call of the operating system failed."""
    return fault.strerror or str(fault)


def counted(number, word, words=None):
    """A number of things, of which several have other words."""
    return f"{number:,} {word}" if number == 1 else f"{number:,} {words or word + 's'}"


def same_in(lines):
    """What stands behind a message that is of these lines too."""
    return f"; the same in {counted(len(lines), 'more line')}: {lines_told(lines)}" if lines else ""


def lines_told(lines):
    """The numbers of lines, which rise, as a text. Those that follow each other are told in one."""
    ranges = []
    for line in lines:
        if ranges and ranges[-1][1] == line - 1:
            ranges[-1][1] = line
        else:
            ranges.append([line, line])
    texts = [str(first) if first == last else f"{first} to {last}" for first, last in ranges[:MOST_RANGES]]
    return ", ".join(texts + [".."] if len(ranges) > MOST_RANGES else texts)
