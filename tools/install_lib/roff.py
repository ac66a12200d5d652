"""Parts of a manual in the language of man pages, by the macros of man(7) alone."""
import re
import textwrap

from .manual import BLOCK, HEADING, NUMBER, PARAGRAPH, POINT, TABLE

WIDTH = 100
# A word that is longer may be cut behind a `/`, a comma or a `=`.
LONGEST = 24
EXACT = {"\\": "\\e", "-": "\\-", "'": "\\(aq", "`": "\\(ga", "^": "\\(ha", "~": "\\(ti"}
SPAN = re.compile(r"``\s?(.+?)\s?``|`([^`]+)`|\*\*([^*]+)\*\*|!?\[((?:`[^`]*`|[^\]`])*)\]\([^)\s]+\)")


def exact(text):
    """A text whose bytes are shown as they are, such as a command."""
    return "".join(EXACT.get(mark, mark) for mark in text)


def plain(text):
    """A text of sentences."""
    return text.replace("\\", "\\e").replace("~", "\\(ti").replace("^", "\\(ha")


def literal(text):
    """What stands in backquotes, in bold letters. Each of its blanks counts."""
    shown = [re.sub(r"([/,=])(?=.)", "\\1\\:", exact(it)) if len(it) > LONGEST else exact(it) for it in text.split(" ")]
    return f"\\fB{' '.join(shown).replace('  ', chr(92) + ' ' + chr(92) + ' ')}\\fR"


def inline(text):
    """A text with code, links and bold letters in it. Of a link its words are left."""
    made, behind = [], 0
    for span in SPAN.finditer(text):
        made.append(plain(text[behind : span.start()]))
        code, strong, link = span[1] or span[2], span[3], span[4]
        made.append(literal(code) if code else f"\\fB{plain(strong)}\\fR" if strong else inline(link))
        behind = span.end()
    return "".join([*made, plain(text[behind:])])


def guarded(line):
    """A line that is no request, whatever it begins with."""
    return f"\\&{line}" if line.startswith((".", "'")) else line


def filled(text):
    """The lines of a text in which lines are filled."""
    lines = textwrap.wrap(text, WIDTH, break_long_words=False, break_on_hyphens=False)
    return [guarded(line) for line in lines]


def block_lines(lines):
    """A block of which each line is shown as it is."""
    return [".PP", ".in +4n", ".EX", *(guarded(exact(line)) for line in lines), ".EE", ".in"]


def row_lines(heads, row):
    """A row of a table: its first cell as a tag, and the others below it, each with its head where there are several."""
    named = list(zip(heads, row))
    while len(named) > 1 and not named[0][1]:
        named.pop(0)
    rest = [(head, cell) for head, cell in named[1:] if cell]
    told = [filled(f"{inline(head)}: {inline(cell)}" if len(heads) > 2 else inline(cell)) for head, cell in rest]
    lines = [".TP", guarded(inline(named[0][1]))]
    for place, text in enumerate(told or [["\\&"]]):
        lines += [".br", *text] if place else text
    return lines


def table_lines(rows):
    """A table."""
    return [line for row in rows[1:] for line in row_lines(rows[0], row)]


def lines_of(part):
    """A part of a manual."""
    kind, content = part
    if kind == HEADING:
        return [f'.SS "{inline(content)}"'.replace("\\fB", "").replace("\\fR", "")]
    if kind == BLOCK:
        return block_lines(content)
    if kind == TABLE:
        return table_lines(content)
    if kind == PARAGRAPH and content.startswith("!["):
        return []
    if kind == NUMBER:
        number, _, content = content.partition(" ")
        return [f".IP {number} 4", *filled(inline(content))]
    return [".IP \\(bu 2" if kind == POINT else ".PP", *filled(inline(content))]


def synopsis(usage):
    """What a program is called with: words in bold letters, and what stands for others in slanted ones."""
    shown = re.sub(r"[A-Z][A-Z]+|\bN\b", r"\\fI\g<0>\\fR", exact(usage))
    return re.sub(r"(?<![\w-])(?:\\-)+[a-z]+|^\w+", r"\\fB\g<0>\\fR", shown)
