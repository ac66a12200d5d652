"""The launch table, which each replica makes of the log, and the scheduler's ledger."""
from typing import NamedTuple, Optional

LAUNCH, VOID = "launch", "void"


class Start(NamedTuple):
    """An entry of the log: a launch of a job starts, as it was decided at a clock reading."""

    job: int
    at: int
    now: int


class End(NamedTuple):
    """An entry of the log: a launch ends, as a launch or as a void."""

    job: int
    at: int
    kind: str


class Table(NamedTuple):
    """An entry of the log: a version of the table is adopted, as it was decided at a clock reading."""

    version: int
    now: int


# An entry of the log that does nothing.
NOOP = None


class Row(NamedTuple):
    """What is known of a job: which launch started last, when that was decided if it is open, which was made last. Behind the rows of
    the jobs stands the table's own: its cursor is the minute since when a version of the table is in force, `launched` is the version.
    The first one, 0, is in force without such a minute."""

    cursor: Optional[int] = None
    open_now: Optional[int] = None
    last: Optional[int] = None
    launched: int = 0
    voided: int = 0


class Call(NamedTuple):
    """A call of the scheduler: create a launch or a void under its name, at a clock reading, by a replica."""

    job: int
    at: int
    kind: str
    now: int
    by: int


def fresh_rows(versions):
    """A launch table at first: a row for each job, and the table's own."""
    return [Row()] * (len(versions[0].jobs) + 1)


def is_table_row(row, versions):
    """Whether a row may be the table's own."""
    is_idle = row.open_now is None and row.last is None and row.voided == 0
    return is_idle and row.launched < len(versions) and (row.cursor is None) == (row.launched == 0)


def rows_stand(rows, versions):
    """Whether rows, which are in order, are those of a table of these versions."""
    return len(rows) == len(versions[0].jobs) + 1 and is_table_row(rows[-1], versions)


def is_open(rows, job, at):
    return rows[job].open_now is not None and rows[job].cursor == at


def jobs_in_force(versions, rows):
    """The jobs as the version has them that is in force."""
    return versions[rows[-1].launched].jobs


def start_of(versions, rows, number, now):
    """The launch of a job that may start at a clock reading, by the version in force; none where none may."""
    row, since = rows[number], rows[-1].cursor
    return jobs_in_force(versions, rows)[number].start_at(row, now, since) if row.open_now is None else None


def is_ended_by(now, job, row):
    """Whether no launch of a job is open, and none was started whose instant is later than a clock reading; dates don't count."""
    return row.open_now is None and (job.by_period or row.cursor is None or row.cursor <= now)


def may_adopt(versions, rows, version, now):
    """Whether a version may be adopted at a clock reading: it is the next one, its first minute has come, it puts no clock back, and no
    launch is open or may start."""
    own = rows[-1]
    if version != own.launched + 1 or version >= len(versions) or now < versions[version].first:
        return False
    is_later = own.cursor is None or own.cursor <= now
    are_ended = all(is_ended_by(now, job, row) for job, row in zip(versions[0].jobs, rows))
    return is_later and are_ended and first_start(versions, rows, now) is None


def takes_effect(versions, rows, entry):
    """Whether an entry changes the launch table: a start of the next launch of a job that is idle, an end of what is open, or an
    adoption of a version that may be adopted."""
    if isinstance(entry, Start):
        return start_of(versions, rows, entry.job, entry.now) == entry.at
    if isinstance(entry, Table):
        return may_adopt(versions, rows, entry.version, entry.now)
    return isinstance(entry, End) and is_open(rows, entry.job, entry.at)


def apply(versions, rows, entry):
    """Changes the launch table by an entry of the log."""
    if not takes_effect(versions, rows, entry):
        return
    if isinstance(entry, Table):
        rows[-1] = rows[-1]._replace(cursor=entry.now, launched=entry.version)
        return
    row = rows[entry.job]
    if isinstance(entry, Start):
        rows[entry.job] = row._replace(cursor=entry.at, open_now=entry.now)
    elif entry.kind == LAUNCH:
        rows[entry.job] = row._replace(open_now=None, last=entry.at, launched=row.launched + 1)
    else:
        rows[entry.job] = row._replace(open_now=None, voided=row.voided + 1)


def first_call(run, rows, now, by):
    """The call of the first launch that is open and has come."""
    for number, (job, row) in enumerate(zip(jobs_in_force(run.versions, rows), rows)):
        if row.open_now is not None and job.has_come(row.cursor, now):
            in_time = job.is_in_time(row.cursor, now, run.grace)
            return Call(number, row.cursor, LAUNCH if in_time else VOID, now, by)
    return None


def first_start(versions, rows, now):
    """The start of the first launch that may start."""
    for number in range(len(rows) - 1):
        at = start_of(versions, rows, number, now)
        if at is not None:
            return Start(number, at, now)
    return None


def next_table(versions, rows, now):
    """The adoption of the next version, where it may be adopted."""
    version = rows[-1].launched + 1
    return Table(version, now) if may_adopt(versions, rows, version, now) else None


def choose(run, rows, now, by):
    """What a leader does next by its launch table: call the first launch that is open and has come, or else start the first one
    that may start, or else adopt the next version if it may, or nothing."""
    return first_call(run, rows, now, by) or first_start(run.versions, rows, now) or next_table(run.versions, rows, now)


class Ledger:
    """The scheduler: under each name it holds the first call that was created there, for good. A call whose fate is late is
    created when it arrives."""

    def __init__(self):
        self.held = {}
        self.late = []
        self.arrived = set()

    def create(self, call):
        """Creates what is called, unless something is held under its name, and gives what is held."""
        return self.held.setdefault((call.job, call.at), call)

    def call(self, call, fate):
        """What a call is answered; nothing where it fails or its answer is lost."""
        held = self.held.get((call.job, call.at))
        if fate == "done":
            return self.create(call)
        if fate == "lost-after":
            self.create(call)
        if fate == "late":
            self.late += [call] if held is None else []
            return held
        return None

    def arrive(self, late):
        self.arrived.add(late)
        self.create(self.late[late])
