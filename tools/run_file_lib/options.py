"""The words of the command line, and the limits of the first lines of a run file."""
import argparse
import re
from datetime import timedelta

from .daemons import CRONS
from .faults import Stop, shown
from .stamps import MOST_DAYS, MOST_MINUTES, stamp_of

MOST_REPLICAS = 7
MOST_GRACE = 525_600
MOST_CHANGES = 7
NUMBER = re.compile("0|[1-9][0-9]{0,8}")

ABOUT = """\
Writes a run file, which cron_cluster reads, from the tables of a machine: /etc/crontab, /etc/cron.d, the crontabs of users
where they can be read, and /etc/anacrontab. Standard error says which file became which label, and what is wrong in which line.

  tools/run_file --from 2024-03-30T00:00Z --days 3 > machine.run
  crates/cron_cluster/out/cron_cluster < machine.run

With --list or --check it hands the run file to the program, and shows the answer with the lines of the tables.

  tools/run_file --list --days 7
  tools/run_file --check --user alice=my.crontab

With --change and --at the run file has a version of the tables for each change.

docs/MACHINE.md is the manual.
"""
END = """\
The status is 0 where the run file or the list was written whole, or the check found no fault. It is 1 where a word, a table, a
zone or an output is at fault: then standard error has a message, or the check has told the fault, and nothing else was written,
unless the output failed in the midst. It is 2 where the program can't be run or fails.
"""
# Each option: its word, what stands behind it, what it does, and an example.
OPTIONS = [
    ("--root", "DIR", "the file system whose tables are read; the machine's own, /, by default", "--root /mnt/copy"),
    ("--from", "STAMP", "the first minute, by the tables' clock or in UTC; by default that of today", "--from 2027-03-28"),
    ("--days", "N", f"how many days from there on, 1 to {MOST_DAYS}, and more with --list and --change; 1 by default", "--days 3"),
    ("--until", "STAMP", "in place of --days: the minute behind the last one", "--until '2027-03-29 12:00'"),
    ("--grace", "MINUTES", f"how late a launch may be, 0 to {MOST_GRACE} minutes; 0 by default", "--grace 60"),
    ("--replicas", "N", f"how many replicas there are, 1 to {MOST_REPLICAS}; 1 by default", "--replicas 3"),
    ("--script", "FILE", "the lines between `script` and `end`, without comments; none by default", "--script duel.script"),
    ("--zone", "NAME", "the zone of all tables; that of etc/localtime below the root by default", "--zone Europe/Paris"),
    ("--zoneinfo", "DIR", "the folder of zones; usr/share/zoneinfo below the root by default", "--zoneinfo ~/zones"),
    (
        "--user",
        "FILE",
        "a user's crontab, and no table of the root; NAME=FILE: that of the user NAME; may be repeated",
        "--user alice=my.crontab",
    ),
    ("--system", "FILE", "the same of a system table, whose entries have a user", "--system /etc/cron.d/php"),
    ("--anacron", "FILE", "the same of an anacrontab", "--anacron /etc/anacrontab"),
    ("--cron", "NAME", "whose rules the machine has: debian, cronie or hevtsora; told from the root by default", "--cron debian"),
    ("--modes", None, "look at the owner, the mode and the names of files below --root, too, as for /", "--modes"),
    ("--skip", None, "leave out each line that can't be taken, and tell it, and each job's line", "--skip"),
    ("--list", None, "in place of the run file: when each entry is due, with its line and its command", "--list --days 7"),
    (
        "--why",
        "PLACE STAMP",
        "why the entry of a place, as --list shows it, is due then or isn't",
        "--why /etc/crontab:17 '2027-03-28 03:00'",
    ),
    ("--next", "N PLACE", "the next N launches of the entry of a place, from --from or now on", "--next 5 /etc/crontab:17"),
    (
        "--change",
        "FILE=NEWFILE",
        "what is launched more, less and at another time once FILE has the lines of NEWFILE; with --at may be repeated",
        "--change /etc/crontab=new",
    ),
    (
        "--at",
        "STAMP",
        "with --change: a run file whose tables change then; with --list, what that changes",
        "--change /etc/crontab=new --at 2027-03-28",
    ),
    ("--hints", None, "with --check: what a table says and hardly means, too, which is no fault", "--check --hints"),
    ("--json", None, "with --list or --next: each row as an object of JSON, one a line", "--list --json"),
    ("--csv", None, "with --list or --next: the rows as comma-separated values, with their names first", "--list --csv"),
    ("--check", None, "in place of the run file: each line at fault, as the program finds it", "--check"),
    ("--program", "PATH", "the program of --list and --check; the built one by default", "--program ~/bin/cron_cluster"),
    ("--help", None, "print this text", "--help"),
    ("--version", None, "print the version of Hevtsora", "--version"),
]
# The options that ask for something in place of the run file.
ANSWERS = ("list", "check", "why", "next", "change")
LISTS = ("--user", "--system", "--anacron")
# Each --change has its --at, if there is one.
REPEATED = (*LISTS, "--change", "--at")
DEFAULTS = {"--root": "/", "--grace": "0", "--replicas": "1"}


class Parser(argparse.ArgumentParser):
    """A parser whose faults are told as all others are."""

    def error(self, message):
        raise Stop(f"run_file: {shown(message)}; --help lists the options")


def layout(prog):
    """The layout of the help, whatever the width of the terminal is."""
    return argparse.RawTextHelpFormatter(prog, max_help_position=26, width=120)


def parser():
    """The parser of the words."""
    made = Parser(
        prog="run_file", description=ABOUT, epilog=END, formatter_class=layout, add_help=False, allow_abbrev=False
    )
    group = made.add_argument_group("options")
    for word, value, text, example in OPTIONS:
        text = f"{text}\nfor example: {example}"
        if value is None:
            group.add_argument(word, action="store_true", help=text)
        elif " " in value:
            group.add_argument(word, nargs=2, metavar=tuple(value.split()), help=text)
        elif word in REPEATED:
            group.add_argument(word, action="append", default=[], metavar=value, help=text)
        else:
            # `from` is a word of Python.
            name = "first" if word == "--from" else word[2:]
            group.add_argument(word, dest=name, default=DEFAULTS.get(word), metavar=value, help=text)
    return made


def options_of(words):
    """The options that words are."""
    options = parser().parse_args(words)
    if options.cron not in (None, *CRONS):
        raise Stop(f"run_file: --cron: `{shown(options.cron)}` is none of {', '.join(CRONS)}")
    judge_changes(options)
    asked = [f"--{name}" for name in ANSWERS if getattr(options, name)]
    # A run file with versions is no answer, and may be listed and checked.
    if len(asked) > 1 and not (options.at and asked[0] in ("--list", "--check") and asked[1:] == ["--change"]):
        raise Stop(f"run_file: {asked[0]} and {asked[1]} are two answers; take one of them")
    if options.hints and not options.check:
        raise Stop("run_file: --hints are a part of --check")
    if options.check and options.skip:
        raise Stop("run_file: --check tells each line at fault, and --skip leaves it out; take one of them")
    if options.json and options.csv:
        raise Stop("run_file: --json and --csv are two forms; take one of them")
    if (options.json or options.csv) and not options.list and not options.next:
        raise Stop("run_file: --json and --csv are forms of --list and of --next")
    if (options.json or options.csv) and options.change:
        raise Stop("run_file: --json and --csv are no forms of what changes")
    return options


def judge_changes(options):
    """Judges how many options there are of changes, and of when each is."""
    if options.at and not options.change:
        raise Stop("run_file: --at is a part of --change")
    if options.at and len(options.at) != len(options.change):
        raise Stop(f"run_file: {len(options.change)} --change and {len(options.at)} --at are given; each --change has its --at")
    if len(options.at) > MOST_CHANGES:
        raise Stop(f"run_file: --at: {len(options.at)} changes are more than a run file has, which are {MOST_CHANGES} at most")


def number_of(word, text, least, most):
    """The number behind a word."""
    if not NUMBER.fullmatch(text) or not least <= int(text) <= most:
        raise Stop(f"run_file: {word}: `{shown(text)}` is no number from {least} to {most}")
    return int(text)


def head_of(options, window):
    """The first four lines of the run file. The program is given no more than the longest window that it takes."""
    replicas = number_of("--replicas", options.replicas, 1, MOST_REPLICAS)
    grace = number_of("--grace", options.grace, 0, MOST_GRACE)
    last = min(window.last, window.first + timedelta(minutes=MOST_MINUTES))
    return ["cronrun 1", f"replicas {replicas}", f"window {stamp_of(window.first)} {stamp_of(last)}", f"grace {grace}"]
