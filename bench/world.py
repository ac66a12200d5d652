#!/usr/bin/env python3
"""Measures a world: the built program over three run files, each with its turns a second and its bytes a turn, and beside it a
program in plain Rust that does the same work without a proof.

Usage: bench/world.py [PROGRAM]

PROGRAM is the built binary, crates/cron_cluster/out/cron_cluster by default. The run files are the one that is made from seed 7,
with three replicas, 200 jobs and a script in which one replica after another stops; seven replicas over 1,000 jobs of 20 launches
each; and one replica that walks through 20,000 launches of one job. A line has the turns and the launches, the best rate of some
runs, in turns a second of the processor, and the most bytes that a run was resident in, as GNU time tells them, by the turn; then
the same of bench/plain_world, which rustc builds, and which has to write the same report in as many turns. How many turns a run
has was worked out by small_world (tools/small_world), which the gate compares with the program.

Then come runs in which replicas run by themselves, in threads of their own, each beside a run of about as many turns in rounds:
turns a second of the clock, the seconds of the processor by those of the clock, and bytes a turn. A thread that waits for its
ticket looks again and again, and gives up its processor in between: what free turns take of the processor beyond as many turns in
rounds is told as waiting, in which what threads cost besides is contained.

Then comes a run of seven replicas in which disks stop within a save, three of them in each part, with rounds and restarts after them,
beside the same script with stops in place of the breaks.

Last comes the first run once more, as the program makes it with the word --make, and a run of some 1,000,000 turns: the seconds
of the processor that it takes without and with its journal, and those in which `cat` copies what was written.
"""
import os
import re
import subprocess
import sys
import tempfile
import time
from itertools import product
from typing import NamedTuple

ROOT = os.path.dirname(os.path.dirname(os.path.abspath(__file__)))
sys.dont_write_bytecode = True  # tools/ is to have no files but its own
sys.path.insert(0, os.path.join(ROOT, "tools"))
from small_world.texts import made_run

PROGRAM = os.path.join(ROOT, "crates", "cron_cluster", "out", "cron_cluster")
TURN = re.compile(r"(?m)^\d+ ")
PLAIN = os.path.join(ROOT, "bench", "plain_world", "main.rs")
BUILD = ["rustc", "-C", "opt-level=3", "--edition", "2024", "-o"]
SEED = 7
TRIES = 3
# So many jobs make some 1,000,000 turns.
JOURNAL_JOBS = 680
# How many parts of free turns a run has, with how many turns of each replica: as many as a script may have.
FREE_PARTS = ((5, 20_000), (100, 1_000))
# In so many parts three disks stop each, with so many rounds after that.
BREAK_PARTS, BREAK_ROUNDS = 134, 300


def run_file(members, window, entries):
    """The text of a run file without a script. The grace covers the window, so that all are launches."""
    head = ["cronrun 1", f"replicas {members}", f"window {window}", "grace 525600", f"crontab bench UTC {len(entries)}"]
    return "\n".join([*head, *entries, "script", "end", ""])


def seven_replicas(jobs):
    """A run of seven replicas, with so many jobs of 20 launches each."""
    twice_a_day = [f"{k % 60} {k % 12},{k % 12 + 12} * * * job {k}" for k in range(jobs)]
    return run_file(7, "2024-01-01T00:00Z 2024-01-11T00:00Z", twice_a_day)


def runs():
    """The run files, each with its name and how many turns and launches it has."""
    yield f"three replicas, 200 jobs, the run of seed {SEED}", made_run(SEED), 317_725, 11_200
    yield "seven replicas, 1,000 jobs", seven_replicas(1000), 1_475_004, 20_000
    one = run_file(1, "2024-01-01T00:00Z 2024-01-14T21:20Z", ["* * * * * job"])
    yield "one replica, a job of each minute", one, 80_001, 20_000


def measured(words, source, sink, notes, status=0):
    """The seconds of the processor of a run, which has to end with a status, and the most bytes that it was resident in. GNU time
    tells these, in units of 1,024: of a child of this script Linux counts what the script had when it started it, too."""
    peak = f"{notes}.peak"
    with open(source, "rb") as stdin, open(sink, "wb") as stdout, open(notes, "wb") as stderr:
        process = subprocess.Popen(["time", "-f", "%M", "-o", peak, *words], stdin=stdin, stdout=stdout, stderr=stderr)
        _, ended, usage = os.wait4(process.pid, 0)
    process.returncode = os.WEXITSTATUS(ended) if os.WIFEXITED(ended) else -os.WTERMSIG(ended)
    if process.returncode != status:
        sys.exit(f"{' '.join(words)} ended with status {process.returncode}")
    return usage.ru_utime + usage.ru_stime, 1024 * int(text_of(peak).split()[-1])


def text_of(path):
    with open(path, encoding="utf-8") as file:
        return file.read()


def tried(words, folder, source="run", sink="report", status=0):
    """The least seconds of a command, and its most bytes."""
    tries = [measured(words, *(os.path.join(folder, name) for name in (source, sink, "notes")), status) for _ in range(TRIES)]
    return min(tries)[0], max(size for _, size in tries)


def best_of(program, folder, turns):
    """The report of a program, what it notes, its best rate, and its most bytes a turn."""
    seconds, size = tried([program], folder)
    return text_of(os.path.join(folder, "report")), text_of(os.path.join(folder, "notes")), turns / seconds, size / turns


def scripted(members, script):
    """A run of so many replicas over a day, with a job of each minute and a script."""
    text = run_file(members, "2024-01-01T00:00Z 2024-01-02T00:00Z", ["* * * * * job"])
    return text.replace("script\nend\n", "\n".join(["script", "campaign 0", *script, "end", ""]))


class Clocked(NamedTuple):
    """What a run took: its turns, the seconds of the clock, those of the processor, and its most bytes."""

    turns: int
    clock: float
    processor: float
    size: int

    def told(self):
        rate, many = self.turns / self.clock, self.processor / self.clock
        return f"{self.turns:,} turns, {rate:,.0f} a second of the clock, {many:.1f} processors, {self.size / self.turns:.0f} bytes a turn"


def clocked(program, folder, text):
    """The quickest of some runs of a run file, by the clock."""
    write_run(folder, text)
    with open(os.path.join(folder, "run"), "rb") as stdin:
        told = subprocess.run([program, "--journal"], stdin=stdin, stdout=subprocess.PIPE, check=True).stdout
    tries = []
    for _ in range(TRIES):
        begun = time.monotonic()
        processor, size = measured([program], *(os.path.join(folder, name) for name in ("run", "report", "notes")))
        tries.append((time.monotonic() - begun, processor, size))
    return Clocked(len(TURN.findall(told.decode())), *min(tries))


def parted(command, parts, count):
    """A script of such commands, one a minute, each of so many turns or rounds."""
    return [f"{command} 2024-01-01T{part // 60:02}:{part % 60:02}Z {count}" for part in range(parts)]


def measure_free(program, folder, members, parts, each):
    """A run of free turns, one of rounds that has about as many, and which share of the free one's processor time isn't that of turns."""
    free = clocked(program, folder, scripted(members, parted("free", parts, each)))
    rounds = clocked(program, folder, scripted(members, parted("round", parts, each // 2)))
    waited = 1 - rounds.processor / rounds.turns * free.turns / free.processor
    print(f"{members} replicas, {parts} times {each:,} free turns: {free.told()}")
    print(f"    in rounds {rounds.told()}")
    print(f"    {free.turns / free.clock / (rounds.turns / rounds.clock):.2f} of their turns a second, {waited:.0%} of the processor waits")


def broken(command):
    """A script in which three replicas stop in each part, by a command on one of them, and start again after rounds."""
    for part in range(BREAK_PARTS):
        who = [(part + place) % 6 + 1 for place in range(3)]
        yield from (command(member, part) for member in who)
        yield f"round 2024-01-01T{part // 60:02}:{part % 60:02}Z {BREAK_ROUNDS}"
        yield from (f"restart {member}" for member in who)


def measure_breaks(program, folder):
    """A run in which disks stop within a save, and the same with stops in place of the breaks."""
    breaks = clocked(program, folder, scripted(7, broken(lambda member, part: f"break {member} {part % 4} {part}")))
    stops = clocked(program, folder, scripted(7, broken(lambda member, part: f"stop {member}")))
    print(f"seven replicas, {3 * BREAK_PARTS} breaks and restarts: {breaks.told()}")
    print(f"    with stops {stops.told()}, {breaks.processor / stops.processor:.2f} times their time")


def write_run(folder, text):
    with open(os.path.join(folder, "run"), "w", encoding="utf-8") as file:
        file.write(text)


def measure_made(program, folder):
    """The first run, as the program makes it."""
    _, _, turns, launches = next(runs())
    seconds, size = tried([program, "--make", str(SEED)], folder)
    if f"\nlaunched {launches}\n" not in text_of(os.path.join(folder, "report")):
        sys.exit(f"--make {SEED}: another summary")
    print(f"--make {SEED}: {turns:,} turns, {turns / seconds:,.0f} turns a second, {size / turns:.0f} bytes a turn")


def measure_journal(program, folder):
    """A run without and with its journal, and a copy of what is written then."""
    write_run(folder, seven_replicas(JOURNAL_JOBS))
    alone, _ = tried([program], folder)
    told, _ = tried([program, "--journal"], folder, sink="journal")
    copied, _ = tried(["cat"], folder, source="journal", sink="copy")
    turns = len(TURN.findall(text_of(os.path.join(folder, "journal"))))
    print(f"seven replicas, {JOURNAL_JOBS} jobs: {turns:,} turns, {alone:.2f} seconds, with the journal {told:.2f} seconds")
    print(f"    cat of what is written then {copied:.2f} seconds")


def main():
    program = sys.argv[1] if len(sys.argv) > 1 else PROGRAM
    with tempfile.TemporaryDirectory() as folder:
        plain = os.path.join(folder, "plain")
        subprocess.run([*BUILD, plain, PLAIN], check=True)
        for name, text, turns, launches in runs():
            write_run(folder, text)
            report, _, rate, size = best_of(program, folder, turns)
            if report.count("\nlaunch ") != launches:
                sys.exit(f"{name}: {report.count(chr(10) + 'launch '):,} launches in place of {launches:,}")
            same, told, plain_rate, plain_size = best_of(plain, folder, turns)
            if (same, told) != (report, f"{turns}\n"):
                sys.exit(f"{name}: bench/plain_world has another report, or {told.strip()} turns in place of {turns:,}")
            print(f"{name}: {turns:,} turns, {launches:,} launches, {rate:,.0f} turns a second, {size:.0f} bytes a turn")
            print(f"    in plain Rust {plain_rate:,.0f} turns a second, {plain_size:.0f} bytes a turn")
        for members, (parts, each) in product((1, 3, 7), FREE_PARTS):
            measure_free(program, folder, members, parts, each)
        measure_breaks(program, folder)
        measure_made(program, folder)
        measure_journal(program, folder)


if __name__ == "__main__":
    main()
