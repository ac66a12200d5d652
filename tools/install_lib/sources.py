"""What the parts of a man page are made from: the sections of the manuals, and what the tools say of their own words."""
import re

from ran_lib import command as ran
from release_lib.version import as_installed
from run_file_lib import options as run_file
from script_lib import command as explain
from timeline_lib import command as timeline

from .manual import BLOCK, TABLE, Part, cells, front, parts_of, section, text_of
from .roff import block_lines, filled, inline, lines_of, literal, synopsis

PARSERS = {"run_file": run_file.parser, "ran": ran.parser, "explain": explain.parser, "timeline": timeline.parser}
README, MACHINE, RUN_FILE, FORMATS = "README.md", "docs/MACHINE.md", "docs/RUN_FILE.md", "docs/FORMATS.md"
SCRIPTS, TABLES, STATUSES = "docs/SCRIPTS.md", "docs/TABLES.md", "docs/TOOLS.md"
# The first heads of tables that a page leaves out, since OPTIONS has the same.
LEFT_OUT = ("Option", "Word")


def rendered(lines):
    """The lines of a manual in the language of man pages."""
    for it in parts_in(lines):
        if it.kind != TABLE or it.content[0][0] not in LEFT_OUT:
            yield from lines_of(it)


def parts_in(lines):
    """The parts of these lines, with the names that tools have where they are installed."""
    shown = as_installed("\n".join(lines)).replace("[TOOLS.md](TOOLS.md#statuses)", "EXIT STATUS")
    return parts_of(shown.split("\n"))


def sections(name, *headings):
    """Sections of a manual with their headings; one whose heading is told as (HEADING,) without those below it."""
    for heading in headings:
        told, deep = (heading, True) if isinstance(heading, str) else (heading[0], False)
        yield f'.SS "{inline(told)}"'
        yield from rendered(section(name, told, deep))


def usage(tool):
    """What a tool is called with."""
    return [synopsis(" ".join(PARSERS[tool]().format_usage().removeprefix("usage: ").split()))]


def program_words():
    """The words of the program, as its note at status 1 has them."""
    return re.search(r"`cron_cluster: usage: ([^`]*)`", text_of(STATUSES))[1]


def program_usage():
    """What the program is called with."""
    return [synopsis(program_words())]


def about(tool):
    """What a tool says of itself: its paragraphs, and its examples."""
    told = [part.split("\n") for part in PARSERS[tool]().description.strip("\n").split("\n\n")]
    shown = [lines for lines in told if lines[0].startswith(" ")]
    return [lines for lines in told if lines not in shown and "is the manual" not in lines[0]], shown


def description(tool):
    """The paragraphs that a tool says of itself."""
    for lines in about(tool)[0]:
        yield from rendered(lines)


def examples(tool):
    """The examples that a tool has of itself."""
    for lines in about(tool)[1]:
        yield from block_lines([as_installed(line.strip()) for line in lines])


def option_lines(tool):
    """Each word of a tool, and what it does."""
    for action in PARSERS[tool]()._actions:
        values = [action.metavar] if isinstance(action.metavar, str) else list(action.metavar or [])
        value = "".join(f" \\fI{it}\\fR" for it in values)
        words = ", ".join(f"{literal(word)}{value}" for word in action.option_strings) or value.strip()
        text, _, example = action.help.partition("\nfor example: ")
        more = f" For example: {literal(example)}" if " " in example else ""
        yield from (".TP", words, *filled(f"{inline(text)}.{more}"))


def statuses(program):
    """The statuses of a program, from the table of all."""
    lines = [line for line in section(STATUSES, "Statuses") if line.startswith("|")]
    rows = [cells(line) for line in (lines[0], *lines[2:])]
    own = [[status, f"{when}. {rows[0][3]}: {output}"] for name, status, when, output in rows if name == f"`{program}`"]
    if not own:
        raise ValueError(f"{STATUSES} has no status of {program}")
    return lines_of(Part(TABLE, [rows[0][1:3], *own]))


def part(name, heading):
    """A section of a manual without its heading."""
    return rendered(section(name, heading))


def intro(name):
    """What a manual begins with."""
    return rendered(front(name))


def sentence(words):
    """A paragraph that no manual has."""
    return [".PP", *filled(inline(words))]


def own_tables():
    """The commands that README has for own tables."""
    for it in parts_in(section(README, "Your own tables")):
        if it.kind == BLOCK:
            yield from lines_of(it)
