"""The command of tools/explain."""
import argparse
import sys

from release_lib.version import help_text, version_line
from run_file_lib.streams import OUTPUT, write_all

from .lines import faults_of
from .operands import Frame
from .plain import is_kept, plain_lines
from .run_lines import Fault, Script, head_faults, lines_of, plain_run, script_of

ABOUT = """\
Tells of a run file each line of its script that the program doesn't take, with the column, and what would be right. It reads
the lines before the script only as far as the script goes by them; `tools/run_file --check` judges the tables. A file that
doesn't begin with `cronrun` is taken for a script alone, as `tools/run_file --script` reads it: that may have comments.

docs/SCRIPTS.md is the manual.

  tools/explain my.run
  tools/explain --plain my.run | crates/cron_cluster/out/cron_cluster
"""
END = """\
The status is 0 where no line is at fault, 1 where one is, and 2 where a word or the file is: it can't be read or written.
"""


def parser():
    layout = argparse.RawDescriptionHelpFormatter
    made = argparse.ArgumentParser(prog="explain", description=help_text(ABOUT), epilog=END, formatter_class=layout)
    made.add_argument("run", metavar="RUN", help="the run file, or a script; - for standard input")
    plain = "write the file without the comments and the empty lines of its script, and judge nothing"
    made.add_argument("--plain", action="store_true", help=plain)
    made.add_argument("--version", action="version", version=version_line("explain"), help="print the version of Hevtsora and exit")
    return made


def read(name):
    """The text of a file. Bytes that aren't UTF-8 are kept."""
    if name == "-":
        return sys.stdin.buffer.read().decode("utf-8", "surrogateescape")
    with open(name, encoding="utf-8", errors="surrogateescape", newline="") as file:
        return file.read()


def is_run_file(text):
    return text.lstrip("\ufeff").startswith("cronrun")


def run_faults(lines):
    """What is wrong with the script of a run file, line by line."""
    if lines[0].startswith("\ufeff"):
        return [Fault(1, 1, "the file begins with a byte order mark: write it without one", 25)]
    if lines[0].endswith("\r"):
        return [Fault(1, 0, "the lines end with carriage returns: write the file with plain line ends, as `tr -d '\\r'` does", 25)]
    script, around = script_of(lines)
    return [*head_faults(lines), *(faults_of(script) if script else []), *around]


def script_faults(lines):
    """The same of a script alone, whose replicas and window aren't known, and in which comments and empty lines are passed over."""
    told = "`tools/run_file` writes the line `end`"
    ends = [Fault(number, 0, told, 30) for number, line in enumerate(lines, 1) if line == "end"]
    script = Script(Frame(None, None, None), 1, lines, None)
    said = (fault for fault in faults_of(script) if is_kept(lines[fault.line - 1]))
    return sorted([*ends, *(fault for fault in said if lines[fault.line - 1] != "end")])


def told(name, fault):
    """The line that tells a fault."""
    place = ":".join(str(part) for part in (name, fault.line, fault.column) if part)
    return f"{place}: {fault.text} (cause {fault.cause})"


def explained(name, text):
    """The lines that tell each fault, and then how many there are."""
    faults = (run_faults if is_run_file(text) else script_faults)(lines_of(text))
    counted = "1 line isn't taken" if len(faults) == 1 else f"{len(faults):,} lines aren't taken"
    return [*(told(name, fault) for fault in faults), counted if faults else "each line of the script is taken"], bool(faults)


def plain_text(text):
    return plain_run(text) if is_run_file(text) else "".join(f"{line}\n" for line in plain_lines(lines_of(text)))


def shown(text):
    """A text in which what can't be printed stands as an escape."""
    return "".join(mark if mark.isprintable() else ascii(mark)[1:-1] for mark in text)


def run(words):
    """Tells what is wrong, and gives the status."""
    options = parser().parse_args(words)
    try:
        text = read(options.run)
        if options.plain:
            output, status = plain_text(text), 0
        else:
            lines, status = explained(options.run, text)
            output = "".join(f"{shown(line)}\n" for line in lines)
        write_all(OUTPUT, output.encode("utf-8", "surrogateescape"))
    except OSError as fault:
        print(f"explain: {options.run}: {fault.strerror or fault}", file=sys.stderr)
        return 2
    return int(status)
