"""What is wrong with the tables, as a check tells it: the program judges the lines, and the script what is beside them."""
import re
from collections import namedtuple

from .causes import OF_LINES, meaning
from .daemons import called
from .faults import NoAnswer, at, cause_of, caused, counted
from .origins import origin_of, place_of
from .program import answer_of, match_of

LINE = re.compile("line ([0-9]+) cause ([0-9]+) at ([0-9]+)")
FAULTS = re.compile("faults ([0-9]+)")
# A fault: where it stands, line 0 for a whole file and column 0 for a whole line, and what is wrong.
Fault = namedtuple("Fault", "line column text")


class Findings:
    """The faults of the tables, one at most of each line, and what the machine's cron ignores."""

    def __init__(self, cron):
        self.cron = called(cron)
        # Of each file, in the order of the tables, its faults by the lines that they are of.
        self.faults = {}
        # Of each file what its cron says of it: for each reason the line, what is ignored, and why.
        self.ignored = {}
        # What the script says of a line that is the program's to judge.
        self.words = {}

    def begin(self, file):
        """Begins with a file: its faults are told behind those of the files before."""
        return self.faults.setdefault(file, {})

    def add_verdict(self, file, verdict):
        """Adds what the machine's cron does with a file."""
        ignored = [(line, "file", text) for line, text in verdict.reasons]
        ignored += [(line, "line", text) for line, text in verdict.lines.items()]
        self.ignored[file] = sorted(ignored, key=lambda reason: reason[0])

    def add(self, file, lines, text):
        """Adds what the script finds of lines, or of a file. What is the program's to find is kept as its words."""
        found = self.begin(file)
        for line in lines:
            self.words[file, line] = text
            if cause_of(text) not in OF_LINES:
                found[line] = Fault(line, 0, text)

    def add_answer(self, program, made):
        """Adds what the program finds in a run file."""
        *lines, end = answer_of(program, "--check", made, "cron check 1") or [""]
        for line in lines:
            number, cause, before = map(int, match_of(LINE, line).groups())
            section, place = origin_of(made.sections, number) or (None, 0)
            if not place:
                raise NoAnswer(f"run_file: the program's answer has line {number}, which is of no table")
            text = self.text_of(section.file, place, cause)
            line, column = place_of(section, place, before)
            self.begin(section.file)[place] = Fault(line, column, text)
        if int(match_of(FAULTS, end)[1]) != len(lines):
            raise NoAnswer(f"run_file: the program's answer has {counted(len(lines), 'fault')}, and tells `{end}`")

    def text_of(self, file, line, cause):
        """What is wrong with a line of a table, by the cause that the program tells."""
        words = self.words.get((file, line))
        if words is None or cause_of(words) not in (None, cause):
            return caused(cause, meaning(cause))
        return words if cause_of(words) else caused(cause, words)

    def lines(self, hints=None):
        """The lines that show the faults, table by table, then the hints where they are asked for, and how many there are."""
        told = [line for file in self.faults for line in self.lines_of(file)]
        if hints is None:
            return [*told, counted(len(told), "fault")]
        hinted = list(hints)
        return [*told, *hinted, f"{counted(len(told), 'fault')}, {counted(len(hinted), 'hint')}"]

    def lines_of(self, file):
        """The lines that show the faults of a file. A line at fault that its cron ignores, or for which it ignores the file, is told
        once."""
        rows = [(fault.line, fault.column, fault.text) for _, fault in sorted(self.faults[file].items())]
        for line, what, text in self.ignored.get(file, []):
            words = f"{self.cron} ignores this {what}: {text}"
            same = next((row for row in rows if row[0] == line and line), None)
            if same:
                rows[rows.index(same)] = (*same[:2], f"{same[2]}; {words}")
            else:
                rows.append((line, 0, words))
        return [at(file, line, text, column) for line, column, text in sorted(rows, key=lambda row: row[0])]

    def are_none(self):
        """Whether nothing is wrong."""
        return not any(self.lines_of(file) for file in self.faults)
