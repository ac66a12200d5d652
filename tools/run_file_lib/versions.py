"""The versions of a machine's tables: of each the tables, one of which has other lines than in the version before, and from when on."""
import os
from collections import namedtuple
from datetime import timedelta

from .changes import new_table, split_change, table_of
from .faults import Stop, shown
from .origins import Version, of_sections
from .places import PACKAGED, SPOOLS
from .stamps import Clock, Window, stamp_of

MINUTE = timedelta(minutes=1)
# In which order a cron reads the folders of tables, but for anacrontabs, which come at the end.
FOLDERS = ["/etc", PACKAGED, *SPOOLS]
# A change: the table with its new lines, the file whose lines it had, and from which instant on.
Change = namedtuple("Change", "table file first")


def versions_of(gatherer, tables, window):
    """The versions of tables: these, and behind them one for each change that the options name."""
    changes = changes_of(gatherer, window)
    read = [(table, gatherer.section(table, gatherer.zone)) for table in tables]
    versions = [version_of(None, read)]
    labels = {place_of_table(table): section.label for table, section in read if section}
    for change in changes:
        begins = f"version {len(versions)} begins at {stamp_of(change.first)}"
        gatherer.comment(f"{begins}: {shown(change.file)} has the lines of {shown(change.table.file)}")
        read = with_table(read, change.table, changed_section(gatherer, change, labels))
        versions.append(version_of(change.first, read))
    return versions


def changes_of(gatherer, window):
    """The changes that the options name, each with the instant of its --at by the tables' clock, in order of time."""
    options, changes, before = gatherer.options, [], window.first
    clock = Clock(gatherer.zone, gatherer.zones.local_times[gatherer.zone])
    for text, stamp in zip(options.change, options.at):
        file, new = split_change(text)
        table = table_of(gatherer.root, file)
        first = clock.moment("--at", stamp).instant
        judge_instant(first, before, window)
        changes.append(Change(new_table(table, new), table.file, first))
        before = first
    for text in clock.notes:
        gatherer.comment(text)
    return changes


def judge_instant(first, before, window):
    """Judges the instant of a change, behind that of another one."""
    if not window.first <= first < window.last:
        begin, end = stamp_of(window.first), stamp_of(window.last)
        raise Stop(f"run_file: --at: {stamp_of(first)} isn't within the window, which is from {begin} on and before {end}")
    if first < before:
        raise Stop(f"run_file: --at: {stamp_of(first)} stands behind {stamp_of(before)}; give the changes in order of time")


def changed_section(gatherer, change, labels):
    """The section of a table that is changed; none where cron passes it over or ignores it. It keeps the label of its place, which is in
    the names of its jobs."""
    table = change.table
    reason = gatherer.finder().why_no_table(*os.path.split(table.path))
    if reason:
        gatherer.tell(change.file, f"is passed over: {reason}")
        return None
    # The new table is a copy of its own, also of a file that is read for another table.
    gatherer.files.clear()
    section = gatherer.section(table, gatherer.zone, labels.get(place_of_table(table)))
    if section:
        labels[place_of_table(table)] = section.label
    return section


def version_of(first, read):
    """The version of tables with their sections."""
    return Version(first, [section for _, section in read if section])


def with_table(read, table, section):
    """Tables with their sections, once one of them is another one, or there is one more."""
    place, there = place_of_table(table), [place_of_table(other) for other, _ in read]
    behind = (number for number, (other, _) in enumerate(read) if rank_of(other) > rank_of(table))
    number = there.index(place) if place in there else next(behind, len(read))
    return [*read[:number], (table, section), *(it for it in read[number:] if place_of_table(it[0]) != place)]


def place_of_table(table):
    """By what a table is found among those of another version."""
    return table.kind, table.path


def rank_of(table):
    """Where a table stands among those that a cron reads. One of another place stands before them."""
    folder, name = os.path.split(table.path)
    known = FOLDERS.index(folder) if folder in FOLDERS else -1
    return (len(FOLDERS) if table.kind == "anacrontab" else known), os.fsencode(name)


def changed_parts(made):
    """What tells the changes of a run file: of its first version the run file behind the instant of the first change, and of each other
    one that of the minutes at which it is in force. What is due at the instant of a change is still launched by the version before.
    Each has the tables alone that aren't the same in all versions."""
    each = [[section._replace(first=0) for section in version.sections] for version in made.versions]
    changed = [[section for section in sections if not all(section in others for others in each)] for sections in each]
    firsts = [version.first + MINUTE for version in made.versions[1:]]
    last = made.window.last
    windows = [(firsts[0], last), *zip(firsts, [*firsts[1:], last])]
    return [of_sections(made, sections, Window(*window, [])) for sections, window in zip(changed, windows)]
