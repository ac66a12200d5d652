"""The examples of docs/SCRIPTS.md and docs/FORMATS.md. A block ```run has a run file, and a block ```script commands in place
of those of the manual's first run file. Behind it, with text between, a block ```report has the report's lines of jobs and
launches, and a block ```journal lines that follow one another in the journal, where `..` stands for lines that are left out. A
block ```summary has the summary of a made run."""
import os

ROOT = os.path.dirname(os.path.dirname(os.path.dirname(os.path.abspath(__file__))))
SCRIPTS, FORMATS = "docs/SCRIPTS.md", "docs/FORMATS.md"
KINDS = ("run", "script", "report", "journal", "summary")


class Example:
    """A run file, where it stands, and what is told of its report and its journal."""

    def __init__(self, name, text):
        self.name = name
        self.text = text
        self.told = {"report": [], "journal": []}

    def fault(self, report, journal):
        """What is wrong with what is told; none where nothing is."""
        if not any(self.told.values()):
            return "has nothing told of it"
        found = report.split("\n")[4:-2]
        if any(lines != found for lines in self.told["report"]):
            return f"has another report: {found}"
        missing = [first_missing(lines, journal.split("\n")) for lines in self.told["journal"]]
        return next((f"has no line {line!r} there in its journal" for line in missing if line), None)


def first_missing(told, lines):
    """The first line that doesn't stand where it should; none where all do. The first one may stand anywhere."""
    place, is_next = 0, False
    for line in told:
        if line == "..":
            is_next = False
        elif line not in (lines[place : place + 1] if is_next else lines[place:]):
            return line
        else:
            place, is_next = lines.index(line, place) + 1, True
    return None


def blocks_of(manual):
    """The blocks of a manual: of each its line's number, its kind and its lines."""
    with open(os.path.join(ROOT, manual), encoding="utf-8") as file:
        lines = file.read().split("\n")
    place = 0
    while place < len(lines):
        place += 1
        if lines[place - 1].startswith("```"):
            end = lines.index("```", place)
            yield place, lines[place - 1][3:], lines[place:end]
            place = end + 1


def examples_of(manual):
    """The examples of a manual, in order."""
    found = []
    for line, kind, block in blocks_of(manual):
        name = f"{manual}:{line}"
        if kind not in KINDS:
            raise ValueError(f"{name}: the block isn't known")
        if kind == "run":
            found.append(Example(name, "\n".join([*block, ""])))
        elif kind == "script":
            head = found[0].text.split("script\n")[0]
            found.append(Example(name, "\n".join([f"{head}script", *block, "end", ""])))
        elif kind != "summary":
            found[-1].told[kind].append(block)
    return found


def examples():
    """The examples of both manuals."""
    return examples_of(SCRIPTS) + examples_of(FORMATS)


def summary():
    """The summary that is told."""
    return next("\n".join([*block, ""]) for _, kind, block in blocks_of(FORMATS) if kind == "summary")
