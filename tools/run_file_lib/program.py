"""The built program: what it answers to a run file."""
import os
import re
import subprocess

from release_lib.version import PROGRAM

from .causes import meaning
from .faults import NoAnswer, Stop, at, caused, shown, why
from .origins import origin_of, place_of, script_line_of

FOLDER = os.path.join("crates", "cron_cluster")
REFUSED = 2
REFUSAL = re.compile("cron_cluster: line ([0-9]+): cause ([0-9]+) at ([0-9]+)\n")


def answer_of(program, word, made, first):
    """What the program answers to a word and a run file: its lines between the first one, which is given, and `end`."""
    done = ran(program, word, made.data)
    note = done.stderr.decode("utf-8", "surrogateescape")
    refusal = REFUSAL.fullmatch(note) if done.returncode == REFUSED else None
    if refusal:
        raise Stop(refusal_text(made, *map(int, refusal.groups())))
    if done.returncode != 0:
        raise NoAnswer(f"run_file: the program ends with status {done.returncode}: {shown(note.strip())}")
    lines = done.stdout.decode("utf-8", "surrogateescape").split("\n")
    if lines[0] != first or lines[-2:] != ["end", ""]:
        raise NoAnswer(f"run_file: the program's answer isn't one from `{first}` to `end`")
    return lines[1:-2]


def ran(program, word, data):
    """A run of the program, once it has ended."""
    file = os.path.abspath(program or PROGRAM)
    try:
        return subprocess.run([file, word], input=data, stdout=subprocess.PIPE, stderr=subprocess.PIPE, check=False)
    except FileNotFoundError as fault:
        how = f"`rt run` in {FOLDER} builds it, as README.md says, and --program names another"
        raise NoAnswer(f"run_file: there is no program {shown(file)}; {how}") from fault
    except OSError as fault:
        raise NoAnswer(f"run_file: the program {shown(file)} can't be run: {why(fault)}") from fault


def match_of(form, line):
    """The match of a line of an answer, which has to have that form."""
    found = form.fullmatch(line)
    if not found:
        raise NoAnswer(f"run_file: the program's answer has a line `{shown(line)}`")
    return found


def refusal_text(made, line, cause, before):
    """What is told of a refusal: with the table and the line that are to blame, where a table's line is."""
    text = f"the program refuses the run file: {caused(cause, meaning(cause))}"
    origin = origin_of(made.sections, line)
    if origin is not None:
        section, place = origin
        number, column = place_of(section, place, before) if place else (0, 0)
        return at(section.file, number, text, column)
    number = script_line_of(made.script, line)
    if number is not None:
        return at(made.script.file, number, text)
    if line == 0:
        return f"run_file: {text}"
    words = made.data.decode().split("\n")[line - 1].split(" ")[:2]
    return f"run_file: {text}; line {line} is `{shown(' '.join(words))} ..`"
