"""The command: its words, what it reads and what it writes."""
import argparse
import errno
import os
import subprocess
import sys

from release_lib.version import PROGRAM, help_text, version_line
from script_lib.run_lines import plain_run
from small_world.replay import BadJournal, Recorded, followed, is_free, journal_in
from small_world.run_file import RunFile
from small_world.texts import made_run

from .audited import audited
from .launches import Launches
from .page import page_of
from .picture import Picture

ABOUT = """\
Draws what replicas did in a run: a track for each replica, from turn to turn, with its terms, its votes, what it learned and
its letters, and one for the scheduler. It has the program play a run file, or reads its journal, and writes one picture (SVG)
to standard output, or a page (HTML). What a journal doesn't say, such as what a letter says, is worked out.

docs/FORMATS.md is the manual.

  tools/timeline examples/takeover > takeover.svg
  tools/timeline --make 7 --launch make:1@20240305T0138Z > launch.svg
  tools/timeline --audit told > told.svg
"""
# The status with which it refuses a run file.
REFUSED = 2
# So many turns are drawn around a launch, and so many at most.
AROUND = 5
MOST_SEED = 2**32 - 1
MOST_DRAWN = {"picture": 1_000, "page": 20_000}


def parser():
    layout = argparse.RawDescriptionHelpFormatter
    made = argparse.ArgumentParser(prog="timeline", description=help_text(ABOUT), formatter_class=layout)
    made.add_argument("run", metavar="RUN", nargs="?", help="the run file")
    journal = "its journal, in place of what the program writes; what stands before it, as a report, is passed over"
    made.add_argument("journal", metavar="JOURNAL", nargs="?", help=journal)
    made.add_argument("--make", type=int, metavar="SEED", help="in place of RUN: the run file that is made from this number")
    made.add_argument("--audit", metavar="TEXT", help="in place of RUN: what --audit of the program reads; the line at fault is marked")
    made.add_argument("--program", metavar="PATH", default=PROGRAM, help="the program; the built one by default")
    made.add_argument("--alone", action="store_true", help="work the journal out, without the program")
    made.add_argument("--seed", type=int, default=0, metavar="N", help="the order of free turns that --alone draws; 0 by default")
    made.add_argument("--from", dest="first", type=int, metavar="TURN", help="the first turn that is drawn")
    made.add_argument("--until", type=int, metavar="TURN", help="the turn behind the last one that is drawn")
    made.add_argument("--jobs", action="append", metavar="NAME", help="draw what is about this job alone, or these")
    made.add_argument("--launch", metavar="NAME", help="draw the turns of this launch and some around, as alice:1@20240331T0100Z")
    made.add_argument("--text", action="store_true", help="write what became of each launch, or of this one, as sentences")
    made.add_argument("--page", action="store_true", help="write a page, to be scrolled and asked")
    made.add_argument("--version", action="version", version=version_line("timeline"), help="print the version of Hevtsora and exit")
    return made


def read(path):
    with open(path, encoding="utf-8") as file:
        return file.read()


def content_of(path):
    with open(path, "rb") as file:
        return file.read()


def written(program, name, text):
    """What the program writes of a run file, with its journal."""
    done = subprocess.run([program, "--journal"], input=text.encode(), stdout=subprocess.PIPE, stderr=subprocess.PIPE, check=False)
    if done.returncode != 0:
        note = done.stderr.decode(errors="replace").strip()
        more = f"; `tools/explain {name}` tells what is wrong with a script" if done.returncode == REFUSED else ""
        raise BadJournal(f"the program ends with status {done.returncode}: {note}{more}")
    return done.stdout.decode()


def played(options, run, text):
    """The run as it was played, and where its journal differs from what is worked out."""
    if options.alone:
        if is_free(run):
            note("in which order free turns come nothing settles: this is one of many, and --seed draws another")
        return Recorded(run, options.seed).play(), None
    lines, first = journal_in(read(options.journal) if options.journal else written(options.program, name_of(options), text))
    world, difference = followed(run, lines, first)
    if difference:
        note(difference)
    return world, difference


def note(text):
    print(f"timeline: {text}", file=sys.stderr)


def jobs_of(options, run):
    """The numbers of the jobs that are asked for; none where all are drawn."""
    names = [job.name for job in run.jobs]
    for name in options.jobs or []:
        if name not in names:
            raise BadJournal(f"the run has no job {name}")
    return {names.index(name) for name in options.jobs} if options.jobs else None


def launch_of(options, launches):
    """The number of the launch that is asked for; none where none is."""
    if options.launch is None:
        return None
    if options.launch not in launches.titles():
        raise BadJournal(f"no turn is about a launch {options.launch}")
    return launches.titles().index(options.launch)


def turns_of(options, launches, launch, fault):
    """The turns that are drawn: from one on and before another. Of a launch they are its own and some around. Where a line is at fault
    there may be none before it."""
    count, first, until = len(launches.world.turns), options.first, options.until
    if launch is not None:
        own = [turn for turn, _ in launches.events[launch]]
        first = max(0, own[0] - AROUND) if first is None else first
        until = own[-1] + AROUND + 1 if until is None else until
    first = first or 0
    most = count if options.text else first + MOST_DRAWN["page" if options.page else "picture"]
    until = min(most, count if until is None else until, count)
    if not 0 <= first < until and not (fault and first == count):
        raise BadJournal(f"the journal has turns 0 to {count - 1}")
    return first, until


def ways(launches, launch, first, until, jobs):
    """The ways of launches, as sentences."""
    numbers = range(len(launches.numbers)) if launch is None else [launch]
    for number, (name, title) in enumerate(zip(launches.numbers, launches.titles())):
        events = [(turn, text) for turn, text in launches.events[number] if first <= turn < until]
        if number in numbers and events and (jobs is None or name[0] in jobs):
            yield title
            yield from (f"  turn {turn}: {text}" for turn, text in events)


def name_of(options):
    """What the run is called."""
    return f"the run of seed {options.make}" if options.make is not None else options.audit or options.run


def judged(options):
    """The run of a text as far as an audit finds it good, what is wrong with it, and the line at fault."""
    found = audited(None if options.alone else options.program, content_of(options.audit))
    if found.fault:
        note(found.fault.text)
    return found.world, found.fault and found.fault.text, found.fault


def shown(options):
    """The run that is drawn, where its journal differs from what is worked out or can't be, and the line at fault of an audit."""
    if options.audit:
        return judged(options)
    text = plain_run(read(options.run)) if options.make is None else made_run(options.make)
    return *played(options, RunFile(text), text), None


def drawn(options):
    """The text that the words ask for, and where the journal differs from what is worked out or can't be."""
    world, difference, fault = shown(options)
    jobs = jobs_of(options, world.run)
    launches = Launches(world)
    launch = launch_of(options, launches)
    turns = turns_of(options, launches, launch, fault)
    if options.text:
        return "".join(f"{line}\n" for line in ways(launches, launch, *turns, jobs)), difference
    picture = Picture(launches, *turns, os.path.basename(name_of(options)), fault)
    return page_of(picture, jobs, launch, difference) if options.page else picture.text(jobs, difference), difference


def write_out(text):
    """Writes to standard output."""
    if sys.stdout is None:
        raise OSError(errno.EBADF, os.strerror(errno.EBADF))
    try:
        sys.stdout.write(text)
        sys.stdout.flush()
    except OSError:
        # Python tries the rest again as it ends, and would end with a status of its own.
        os.dup2(os.open(os.devnull, os.O_WRONLY), sys.stdout.fileno())
        raise


def run(words):
    """Writes the picture, and gives the status: 1 where a word or a file is at fault, or a journal isn't what is worked out."""
    options = parser().parse_args(words)
    if [options.run, options.make, options.audit].count(None) != 2:
        parser().error("either RUN or --make or --audit")
    if options.make is not None and not 0 <= options.make <= MOST_SEED:
        parser().error(f"--make takes a number from 0 to {MOST_SEED:,}")
    if options.alone and options.journal:
        parser().error("either a journal or --alone")
    if options.audit and options.seed:
        parser().error("either --audit or --seed")
    if options.page and options.text:
        parser().error("either --page or --text")
    try:
        output, difference = drawn(options)
        write_out(output)
    except (BadJournal, OSError, UnicodeDecodeError) as fault:
        note(fault)
        return 1
    except (IndexError, KeyError, ValueError):
        more = f"; `tools/explain {name_of(options)}` tells what is wrong with a script"
        note(f"{name_of(options)} is no run file that the program takes{more}")
        return 1
    return 1 if difference else 0
