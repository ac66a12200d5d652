"""Where the jobs and the lines of a run file come from."""
from collections import namedtuple
from itertools import takewhile

from .stamps import stamp_of

HEAD_LINES = 4
# A run file: its bytes, its sections in order, its window, its script, where it has one, and its versions in order.
RunFile = namedtuple("RunFile", "data sections window script versions", defaults=[None, None, ()])
# A version of the tables: from which instant on it may be in force, none for the first one, and its sections.
Version = namedtuple("Version", "first sections")
# A script: its file, the line of the run file that is its first one, and the numbers in the file of the lines that the run file has.
Script = namedtuple("Script", "file first numbers")
# A section: its kind, label and zone, the file of its table, the line of the run file that is the table's first one, the lines
# of the table as the run file has them, its jobs, and how many bytes a line lacks at its front, by the line. A table has as many
# lines in the run file as in its own.
Section = namedtuple("Section", "kind label zone file first lines jobs fronts", defaults=[{}])
# A job: what its name has behind the label, `:K` or `/IDENTIFIER`, the line of its table, its command, for one of an anacrontab when
# it is launched, in words, whose it is, where that is known, the zone that a CRON_TZ names, where one does, and its text.
Job = namedtuple("Job", "ending line command when user zone text", defaults=["", None, None, ""])
# What stands in place of a job that is left out.
COMMENT = "#"


def placed(sections, first):
    """The sections, of which the first one begins at a line of the run file."""
    for section in sections:
        yield section._replace(first=first + 1)
        first += 1 + len(section.lines)


def placed_versions(versions, first):
    """The versions with their sections placed, of which the first one begins at a line of the run file, and each other with its own."""
    for version in versions:
        first += version.first is not None
        yield version._replace(sections=list(placed(version.sections, first)))
        first += sum(1 + len(section.lines) for section in version.sections)


def lines_of_versions(versions):
    """The lines of the run file that the versions are."""
    for number, version in enumerate(versions):
        if version.first is not None:
            yield f"version {number} {stamp_of(version.first)}"
        yield from lines_of_sections(version.sections)


def lines_of_sections(sections):
    """The lines of the run file that the sections are."""
    for section in sections:
        yield f"{section.kind} {section.label} {section.zone} {len(section.lines)}"
        yield from section.lines


def jobs_of(sections):
    """Each job's section and the job, by its name in the report."""
    return {section.label + job.ending: (section, job) for section in sections for job in section.jobs}


def alone(made, section, job):
    """A run file of one job alone, which is the first one of its section: comments stand in place of the other jobs."""
    others = {other.line for other in section.jobs} - {job.line}
    lines = [COMMENT if number in others else line for number, line in enumerate(section.lines, 1)]
    ending = job.ending if section.kind == "anacrontab" else ":1"
    return of_sections(made, [section._replace(lines=lines, jobs=[job._replace(ending=ending)])], made.window)


def of_sections(made, sections, window):
    """A run file of these sections alone, over a window, without a script. Its head and its zones are those of another one."""
    lines = made.data.decode().split("\n")
    zones = takewhile(lambda line: line.startswith("zone "), lines[HEAD_LINES:])
    front = [*lines[:HEAD_LINES], *zones]
    [version] = placed_versions([Version(None, sections)], len(front) + 1)
    data = "\n".join([*front, *lines_of_sections(sections), "script", "end", ""]).encode()
    return RunFile(data, version.sections, window, None, [version])


def of_window(made, first, last):
    """The same run file, but for its window. In another one the stamps of a script may have no place, so it has none there."""
    lines = made.data.split(b"\n")
    lines[2] = f"window {first:%Y-%m-%dT%H:%M}Z {last:%Y-%m-%dT%H:%M}Z".encode()
    if not made.script or (first, last) == (made.window.first, made.window.last):
        return made._replace(data=b"\n".join(lines))
    begin = made.script.first - 1
    del lines[begin : begin + len(made.script.numbers)]
    return made._replace(data=b"\n".join(lines), script=None)


def origin_of(sections, line):
    """The section, and the line of its table, from which a line of the run file comes; line 0 for the line that opens the section.
    Each other line that is of no table comes from no section."""
    for section in sections:
        place = line - section.first + 1
        if 0 <= place <= len(section.lines):
            return section, place
    return None


def script_line_of(script, line):
    """The number in its file of the line of a script that is that line of the run file; none where it is no such line."""
    place = line - script.first if script else -1
    return script.numbers[place] if 0 <= place < len(script.numbers) else None


def place_of(section, line, before):
    """Where in a table a byte stands, by how many bytes are before it from the beginning of a line on: its line and its column,
    which counts bytes from 1. In an anacrontab a line may go on in the next one; the newline between them counts as a byte."""
    texts = section.lines[line - 1 :] if section.kind == "anacrontab" else []
    for text in texts:
        size = len(text.encode()) + 1
        if before < size or not text.endswith("\\"):
            break
        before -= size
        line += 1
    return line, before + 1 + section.fronts.get(line, 0)
