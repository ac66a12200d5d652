"""The parts of a manual, which is written in Markdown as the documents of this repository are."""
import os
import re
from collections import namedtuple

ROOT = os.path.dirname(os.path.dirname(os.path.dirname(os.path.realpath(__file__))))
# A part: its kind, and its text, or the lines of a block or the rows of a table.
Part = namedtuple("Part", "kind content")
HEADING, PARAGRAPH, POINT, NUMBER, BLOCK, TABLE = "heading", "paragraph", "point", "number", "block", "table"
POINT_FORM = re.compile(r"- |(\d+\. )")
SHOWN = "    "


def text_of(name):
    with open(os.path.join(ROOT, name), encoding="utf-8") as file:
        return file.read()


def is_fence(line):
    return line.startswith("```")


def numbered(lines):
    """The lines with the level of the heading that each is, and 0 for another line."""
    fenced = False
    for line in lines:
        fenced ^= is_fence(line)
        found = None if fenced else re.match(r"(#+) ", line)
        yield line, len(found[1]) if found else 0


def section(name, heading, deep=True):
    """The lines of a section of a manual without its heading: with the sections below it, or without them."""
    found, level = None, 0
    for line, depth in numbered(text_of(name).split("\n")):
        if found is None and depth and line[depth + 1 :] == heading:
            found, level = [], depth
        elif found is not None and depth and (depth <= level or not deep):
            break
        elif found is not None:
            found.append(line)
    if found is None:
        raise ValueError(f"{name} has no heading `{heading}`")
    return found


def front(name):
    """The lines of a manual between its heading and its first list."""
    lines = text_of(name).split("\n")[1:]
    return lines[: next(place for place, line in enumerate(lines) if line.startswith("- "))]


def cells(row):
    return [cell.strip() for cell in row.strip().strip("|").split(" | ")]


def table_of(lines):
    """The rows of a table, the heads first."""
    return [cells(line) for line in [lines[0], *lines[2:]]]


def taken(lines, start, is_inside):
    """The lines from one on that are inside, and the place behind them."""
    end = start
    while end < len(lines) and is_inside(lines[end]):
        end += 1
    return lines[start:end], end


def block(lines, start):
    """A block between fences, and the place behind it."""
    inside, end = taken(lines, start + 1, lambda line: not is_fence(line))
    return Part(BLOCK, inside), end + 1


def shown_block(lines, start):
    """A block behind four blanks, in which empty lines may stand, and the place behind it."""
    inside, end = taken(lines, start, lambda line: line.startswith(SHOWN) or not line)
    while not inside[-1]:
        inside.pop()
    return Part(BLOCK, [line[len(SHOWN) :] for line in inside]), end


def words(lines, start):
    """A paragraph or a point of a list, and the place behind it."""
    front_of = POINT_FORM.match(lines[start])
    first = lines[start][2:] if front_of and not front_of[1] else lines[start]
    rest, end = taken(lines, start + 1, lambda line: line and not is_fence(line) and not re.match(r"- |\d+\. |\||#+ ", line))
    kind = (NUMBER if front_of[1] else POINT) if front_of else PARAGRAPH
    return Part(kind, " ".join([first, *(line.strip() for line in rest)])), end


def parts_of(lines):
    """The parts of these lines, one after another."""
    place = 0
    while place < len(lines):
        line = lines[place]
        heading = re.match(r"#+ (.*)", line)
        if not line:
            place += 1
            continue
        if heading:
            part, place = Part(HEADING, heading[1]), place + 1
        elif is_fence(line):
            part, place = block(lines, place)
        elif line.startswith(SHOWN):
            part, place = shown_block(lines, place)
        elif line.startswith("|"):
            rows, place = taken(lines, place, lambda it: it.startswith("|"))
            part = Part(TABLE, table_of(rows))
        else:
            part, place = words(lines, place)
        yield part
