"""The command: it reads the words, the tables and the zones, and writes the run file, or what the program answers to it."""
from collections import namedtuple
from datetime import timedelta
from itertools import chain

from release_lib.version import help_text, version_line

from .changes import change_lines, differences, new_table, split_change, table_of
from .due_list import LAUNCH, DueList
from .explain import why_lines
from .faults import Stop, shown
from .faults import place as place_of
from .formats import Csv, Json, Text
from .gather import Gatherer
from .hints import Hints
from .options import number_of, options_of, parser
from .origins import alone
from .stamps import LAST, MOST_MINUTES, Clock, Window
from .streams import Once
from .versions import changed_parts

MOST_LAUNCHES = 10_000
# What a form is made for: the tables' zone, and the jobs by their names.
Shown = namedtuple("Shown", "zone origins")


def run(words, environment, now, streams):
    """Runs the command, and gives its status. `now` is in UTC."""
    try:
        options = options_of(words)
        if options.help:
            streams.output(help_text(parser().format_help()).encode())
            return 0
        if options.version:
            streams.output(f"{version_line('run_file')}\n".encode())
            return 0
        return Command(options, environment, streams).run(now)
    except Stop as stop:
        streams.note(str(stop))
        return stop.status
    except MemoryError:
        streams.note("run_file: out of memory")
    except KeyboardInterrupt:
        streams.note("run_file: interrupted")
    return 1


class Command:
    """One run of the command."""

    def __init__(self, options, environment, streams):
        self.options = options
        self.environment = environment
        self.streams = streams
        self.program = options.program
        self.gatherer = Gatherer(options, environment, streams)

    def run(self, now):
        """Writes what the options ask for, and gives the status."""
        options = self.options
        if options.change and not options.at:
            return self.change(now)
        made = self.gatherer.run_file(now)
        if options.list:
            return self.changes(made) if options.at else self.list(made)
        if options.check:
            return self.check(made)
        if options.why:
            return self.why(made)
        if options.next:
            return self.next(made, now)
        self.streams.output(made.data)
        return 0

    def due_list(self, gatherer, made):
        """The due list of a run file."""
        return DueList(self.program, made, gatherer.zone, gatherer.zones.local_times)

    def list(self, made):
        """Writes the due list, part by part, and gives the status. Where nobody reads on, nothing is at fault."""
        due = self.due_list(self.gatherer, made)
        form = self.form()(due)
        head = list(form.head)
        try:
            for part in due.parts():
                self.output_lines(chain(head, chain.from_iterable(map(form.lines, part))))
                head = []
            self.output_lines(map(form.line, due.rows_without_time()))
        except Stop as stop:
            if not isinstance(stop.__cause__, BrokenPipeError):
                raise
        return 0

    def form(self):
        """The form of rows that the options ask for."""
        return Json if self.options.json else Csv if self.options.csv else Text

    def check(self, made):
        """Writes what is wrong with the tables, and gives the status."""
        gatherer = self.gatherer
        findings = gatherer.findings
        findings.add_answer(self.program, made)
        hints = Hints(made, gatherer.zones.local_times, gatherer.users, gatherer.root).lines() if self.options.hints else None
        # A table that stands in several versions has its hints once.
        self.output_lines(findings.lines(hints and dict.fromkeys(hints)))
        return 0 if findings.are_none() else 1

    def why(self, made):
        """Writes why an entry is due at a minute, or isn't."""
        place, stamp = self.options.why
        due = self.due_list(self.gatherer, made)
        origin = origin_at(due, place)
        clock = Clock(self.gatherer.zone, due.zones[self.gatherer.zone])
        instant = clock.moment("--why", stamp).instant
        if instant == LAST:
            raise Stop(f"run_file: --why: {LAST.year} isn't within the years 1971 to 2199")
        self.output_lines([*clock.notes, *why_lines(self.program, made, due, origin, instant)])
        return 0

    def next(self, made, now):
        """Writes the next launches of an entry."""
        number, place = self.options.next
        number = number_of("--next", number, 1, MOST_LAUNCHES)
        origin = origin_at(self.due_list(self.gatherer, made), place)
        first = made.window.first if self.options.first else now.replace(second=0, microsecond=0)
        form = self.form()(Shown(self.gatherer.zone, {origin.name: origin}))
        rows = []
        while first < LAST and len(rows) < number and origin.times and not origin.times.is_never_due():
            last = min(first + timedelta(minutes=MOST_MINUTES), LAST)
            one = alone(made, origin.section, origin.job)._replace(window=Window(first, last, []))
            for part in self.due_list(self.gatherer, one).rows():
                rows += [form.line(row._replace(origin=origin)) for row in part if row.kind == LAUNCH]
                if len(rows) >= number:
                    break
            first = last
        if not rows:
            self.gatherer.comment("it is never due at a minute")
        self.output_lines([*form.head, *rows[:number]])
        return 0

    def change(self, now):
        """Writes what a new table changes."""
        file, new = split_change(self.options.change[-1])
        due, streams = [], Once(self.streams)
        for name in (None, new):
            gatherer = Gatherer(self.options, self.environment, streams)
            table = table_of(gatherer.root, file)
            there = [table] if gatherer.root.has(table.path) else []
            made = gatherer.run_file_of([new_table(table, name)] if name else there, now)
            due.append(self.due_list(gatherer, made))
        self.output_lines(change_lines(differences(due[:1], due[1:])))
        return 0

    def changes(self, made):
        """Writes what the versions of a run file change, each from its instant on."""
        old, *new = [self.due_list(self.gatherer, part) for part in changed_parts(made)]
        self.output_lines(change_lines(differences([old], new)))
        return 0

    def output_lines(self, lines):
        """Writes lines to standard output, in one piece."""
        text = "\n".join([*lines, ""])
        self.streams.output(text.encode("utf-8", "backslashreplace"))


def origin_at(due, place):
    """The job of a place: of a file with a line, or a job's name."""
    for origin in due.origins.values():
        if place in (origin.name, place_of(origin.section.file, origin.job.line)):
            return origin
    raise Stop(f"run_file: no entry that is taken stands at `{shown(place)}`; --list shows the places")
