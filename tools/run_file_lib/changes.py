"""What a new table changes: which launches there are more, less, and at another time."""
import os
from collections import Counter, defaultdict, namedtuple

from .due_list import LAUNCH, rows_of
from .faults import Stop, counted, shown
from .formats import Text
from .places import OPTION, PLACE, SPOOL, SPOOLS, Table

MORE, LESS, MOVED = "+", "-", "~"
# A row, and the form that shows it.
Told = namedtuple("Told", "row form")


def split_change(text):
    """The table and the file of an option `FILE=NEWFILE`."""
    file, sign, new = text.partition("=")
    if not sign or not file or not new:
        raise Stop(f"run_file: --change: `{shown(text)}` isn't FILE=NEWFILE")
    return file, new


def table_of(root, file):
    """The table of a machine at a path, of the root or of this machine."""
    path = os.path.normpath(file)
    front = os.path.normpath(root.folder).rstrip("/")
    if front and path.startswith(f"{front}/"):
        path = path[len(front) :]
    folder, name = os.path.split(path)
    if path == "/etc/crontab" or folder == "/etc/cron.d":
        return Table("system", path, root.shown(path), PLACE)
    if path == "/etc/anacrontab":
        return Table("anacrontab", path, root.shown(path), PLACE)
    if folder in SPOOLS:
        return Table("crontab", path, root.shown(path), SPOOL, name)
    raise Stop(f"run_file: --change: `{shown(file)}` is no place of a table")


def new_table(table, file):
    """The same table with the lines of another file."""
    return table._replace(file=file, origin=OPTION)


def rows_told(lists):
    """The rows of due lists that follow each other in time. Those without a time are of the last one."""
    for due in lists:
        form = Text(due)
        for part in due.parts():
            yield from (Told(row, form) for minute in part for row in rows_of(minute))
    yield from (Told(row, form) for row in due.rows_without_time())


def differences(old, new):
    """What differs between the rows of due lists and of others: of each row its sign, the row, and the one that it stands in place of."""
    signed = []
    rows = defaultdict(lambda: ([], []))
    for side, lists in enumerate((old, new)):
        for told in rows_told(lists):
            if told.row.origin is not None:
                rows[key_of(told.row)][side].append(told)
    for before, after in rows.values():
        less, more = beside(before, after), beside(after, before)
        moved, less, more = paired(less, more)
        signed += [(MOVED, told, other) for other, told in moved]
        signed += [(LESS, told, None) for told in less] + [(MORE, told, None) for told in more]
    return sorted(signed, key=lambda it: (it[1].row.instant or "9", it[0] != LESS))


def key_of(row):
    """What two rows of one job have both: its kind, its user, and its command."""
    return row.kind, row.origin.job.user, row.origin.job.command


def beside(rows, others):
    """The rows whose times the others don't have, or less often."""
    left = Counter(time_of(other.row) for other in others)
    kept = []
    for told in rows:
        left[time_of(told.row)] -= 1
        if left[time_of(told.row)] < 0:
            kept.append(told)
    return kept


def time_of(row):
    """When a row is: its instant, or what is told of it."""
    return row.instant or row.origin.job.when


def paired(less, more):
    """The launches of one job that are at another time of the same date, in pairs, and those that are left of both."""
    days, moved, new = defaultdict(list), [], []
    for told in less:
        days[day_of(told.row)].append(told)
    for told in more:
        before = days[day_of(told.row)]
        if before:
            moved.append((before.pop(0), told))
        else:
            new.append(told)
    return moved, [told for rows in days.values() for told in rows], new


def day_of(row):
    """The date of a row; of one without a date that it has none."""
    return row.local[:10] if row.kind == LAUNCH else row.kind


def change_lines(signed):
    """The lines that show the differences, and how many there are."""
    for sign, told, other in signed:
        yield f"{sign} {told.form.line(told.row, instead_of(other.row) if other else None)}"
    counts = Counter(sign for sign, _, _ in signed)
    yield f"{counted(counts[MORE], 'launch', 'launches')} more, {counts[LESS]:,} less, {counts[MOVED]:,} at another time"


def instead_of(other):
    """What is told of the launch that one stands in place of."""
    return f"instead of {other.local[11:]}" if other.kind == LAUNCH else f"instead of {other.origin.job.when or 'another line'}"
