"""The command: its words, what it reads and what it writes."""
import gzip
import sys
from datetime import datetime, timedelta
from itertools import chain

from release_lib.version import help_text, version_line
from run_file_lib.faults import Stop, counted, shown, why
from run_file_lib.options import LISTS, OPTIONS, Parser, layout, number_of

from .lines import log_of
from .rows import json_lines, summary, text_lines
from .tables import Tables
from .verdicts import LATE, MISSING, NO_TABLE, NOT_DUE, TWICE, counts_of, findings_of

ABOUT = """\
Judges a log by the tables of a machine: which launches are missing in it, late, twice there or not due, each with the line of
its table. The log is that of syslog (RFC 3164 or 5424), or what `journalctl -o short`, `short-iso` or `json` writes, or has lines
`STAMP NAME` with the names of jobs. When entries are due the program tells.

  tools/ran /var/log/syslog
  journalctl -o json -t CRON --since yesterday --until today | tools/ran --day yesterday -

docs/MACHINE.md is the manual.
"""
END = """\
The status is 0 where each launch was made in its minute and no other one was, 1 where a line tells another thing, and 2 where a
word, a table, the log or the program is at fault: then standard error has a message, and nothing was judged.
"""
# What is handed on to the reader of tables, which tools/run_file has too.
HANDED = ("--root", "--zone", "--zoneinfo", "--user", "--system", "--anacron", "--cron", "--skip", "--program")
FOUND, FAULT = 1, 2
MOST_LATE = 525_600
# The other options: each with what stands behind it, what it is by default, and what it does.
OWN = [
    ("--from", "STAMP", None, "the first minute that is judged, by the tables' clock or in UTC; by default the log's first whole one"),
    ("--until", "STAMP", None, "the minute behind the last one; by default the log's last one"),
    ("--day", "DATE", None, "in place of these: a whole day by the tables' clock, as 2024-03-31, or today, or yesterday"),
    ("--grace", "MINUTES", "0", "how late a launch may be without being told; 0 by default"),
    ("--late", "MINUTES", "5", "how late a launch may be taken to be where its entry was due again since; 5 by default"),
    ("--year", "YEAR", None, "the year of the first line, where stamps have none; by default the last one that may be"),
]


def parser():
    """The parser of the words."""
    made = Parser(prog="ran", description=ABOUT, epilog=END, formatter_class=layout, add_help=False, allow_abbrev=False)
    logs = "the log, from its oldest file on, also packed (.gz); - for standard input"
    made.add_argument("logs", metavar="LOG", nargs="*", help=logs)
    group = made.add_argument_group("options")
    for word, value, default, text in OWN:
        group.add_argument(word, dest="first" if word == "--from" else word[2:], metavar=value, default=default, help=text)
    group.add_argument("--json", action="store_true", help="write an object of JSON for each line")
    for word, value, text, _ in OPTIONS:
        if word in HANDED and value is None:
            group.add_argument(word, action="store_true", help=text)
        elif word in LISTS and word in HANDED:
            group.add_argument(word, action="append", default=[], metavar=value, help=text)
        elif word in HANDED:
            group.add_argument(word, metavar=value, help=text)
    group.add_argument("--help", action="store_true", help="print this text")
    group.add_argument("--version", action="store_true", help="print the version of Hevtsora")
    return made


def handed(options):
    """The words that are handed on."""
    words = []
    for word in HANDED:
        value = getattr(options, word[2:], None)
        if value is True:
            words.append(word)
        for one in value if isinstance(value, list) else [value] if isinstance(value, str) else []:
            words += [f"{word}={one}"]
    return words


def opened(name):
    """A log, as bytes."""
    if name == "-":
        return sys.stdin.buffer
    return gzip.open(name, "rb") if name.endswith(".gz") else open(name, "rb")


def lines_in(names):
    """The lines of logs, one behind another."""
    for name in names:
        try:
            with opened(name) as log:
                for line in log:
                    yield line.decode("utf-8", "surrogateescape")
        except (OSError, EOFError) as fault:
            raise Stop(f"ran: {shown(name)}: it can't be read: {why(fault) if isinstance(fault, OSError) else fault}") from fault


def day_of(text, clock, now):
    """The minutes of a day: from one on and before another."""
    today = clock.shown(now).date()
    known = {"today": today, "yesterday": today - timedelta(days=1)}
    try:
        day = known[text] if text in known else datetime.strptime(text, "%Y-%m-%d").date()
    except ValueError as fault:
        raise Stop(f"ran: --day: `{shown(text)}` is no date; write it as 2024-03-31, or `today` or `yesterday`") from fault
    return tuple(clock.begin_of(it) // 60 for it in (day, day + timedelta(days=1)))


def window_of(options, log, tables, now):
    """The minutes that are judged: from one on and before another."""
    if log.first is None and (options.day or (options.first and options.until)) is None:
        raise Stop("ran: the log has no line with a stamp")
    if options.day is not None:
        if options.first is not None or options.until is not None:
            raise Stop("ran: --day says both ends; take it, or --from and --until")
        return day_of(options.day, tables.clock, now)
    first, end = (0, 0) if log.first is None else (-(-log.first // 60), log.last // 60 + (0 if log.has_seconds else 1))
    if options.first is not None:
        first = tables.minute_of("--from", options.first)
    if options.until is not None:
        end = tables.minute_of("--until", options.until)
    if first >= end:
        raise Stop("ran: no whole minute is judged; --from and --until say which are")
    return first, end


def judged(options, tables, now):
    """What is found: the lines that tell it, and whether something is wrong."""
    year = None if options.year is None else number_of("--year", options.year, 1971, 2199)
    grace, near = (number_of(f"--{word}", getattr(options, word), 0, MOST_LATE) for word in ("grace", "late"))
    log = log_of(lines_in(options.logs), tables.clock, year, now)
    first, end = window_of(options, log, tables, now)
    entries, dates = tables.entries(first - near, end)
    tables.streams.note(f"# {counted(log.lines, 'line')} of the log with {len(log.events):,} launches")
    if dates:
        tables.streams.note(f"# {counted(dates, 'job')} of anacrontabs: they aren't judged, since no list has their dates")
    findings = findings_of(entries, log, first, end, near)
    counts = counts_of(findings)
    are_all = tables.are_all()
    told = [it for it in findings if is_told(it, grace, are_all)]
    if options.json:
        return json_lines(told, counts, first, end, len(entries)), bool(told)
    return chain(text_lines(told, tables.clock), [summary(counts, first, end, len(entries))]), bool(told)


def is_told(finding, grace, are_all):
    """Whether a finding is wrong. A launch of no table is none where some tables alone are judged."""
    if finding.kind == LATE:
        return finding.second // 60 - finding.due > grace
    return finding.kind in (MISSING, TWICE, NOT_DUE) or (finding.kind == NO_TABLE and are_all)


def run(words, environment, now, streams):
    """Runs the command, and gives its status. `now` is in seconds since 1970."""
    try:
        options = parser().parse_args(words)
        if options.help:
            streams.output(help_text(parser().format_help()).encode())
            return 0
        if options.version:
            streams.output(f"{version_line('ran')}\n".encode())
            return 0
        if not options.logs:
            raise Stop("ran: which log? --help lists the options")
        lines, is_wrong = judged(options, Tables(handed(options), environment, streams), now)
        streams.output("".join(f"{line}\n" for line in lines).encode("utf-8", "backslashreplace"))
        return FOUND if is_wrong else 0
    except Stop as stop:
        streams.note(str(stop).replace("run_file: ", "ran: ", 1) if str(stop).startswith("run_file: ") else str(stop))
    except MemoryError:
        streams.note("ran: out of memory")
    except KeyboardInterrupt:
        streams.note("ran: interrupted")
    return FAULT
