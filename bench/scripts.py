#!/usr/bin/env python3
"""Measures the commands of scripts that touch many letters: what 100 of each take, or 1 of those by which all of them are heard, by
the letters that they touch.

Usage: bench/scripts.py [PROGRAM]

PROGRAM is the built binary, crates/cron_cluster/out/cron_cluster by default. Of two replicas one stands for leader 200 times, and what
waits for the other is repeated until it has so many letters as SIZES says, which it answers in a round: so many letters, no two of them
the same, wait for the first one then. A line has what a command takes so many times of the processor beyond a script without them, the best
of some runs, in nanoseconds by the letters that it looks at: those that wait, or for `settle` and `walk`, before which none waits,
those of the book. The last column has what a letter's time becomes where the letters are doubled: 1.0 is linear.
"""
import os
import resource
import subprocess
import sys
import tempfile

ROOT = os.path.dirname(os.path.dirname(os.path.abspath(__file__)))
PROGRAM = os.path.join(ROOT, "crates", "cron_cluster", "out", "cron_cluster")
SIZES = (10_000, 20_000, 40_000)
TIMES = 100
TRIES = 3
AT = "2024-03-31T00:00Z"
CAMPAIGNS = 200
# The name of a line, the command, one that comes before it, how often it comes, and how many letters these look at, by those that wait
# at first.
LINES = [
    ("repeat", "repeat 1 0", None, TIMES, sum(range(1, TIMES + 1))),
    ("reverse", "reverse 0", None, TIMES, TIMES),
    ("drop", "drop 0 0", None, TIMES, TIMES),
    ("again", "again 0", None, TIMES, TIMES),
    ("cut", "cut 0 1", None, TIMES, TIMES),
    ("heal", "heal", None, TIMES, TIMES),
    ("settle", f"settle {AT}", f"settle {AT}", TIMES, TIMES),
    ("walk", f"walk {AT}", f"settle {AT}", TIMES, TIMES),
    ("round", f"round {AT} 1", None, 1, 1),
    ("armed", f"round {AT} 1", "break 0 4294967295 0", 1, 1),
]


def run_file(letters, first, command, times):
    """A run without jobs, in whose script so many letters come to wait, and then so often the command."""
    script = ["campaign 0"] * CAMPAIGNS + ["repeat 0 1"] * (letters // CAMPAIGNS - 1) + [f"round {AT} 1"]
    script += [first] * (first is not None) + [command] * times
    head = ["cronrun 1", "replicas 2", "window 2024-03-31T00:00Z 2024-04-01T00:00Z", "grace 0", "script"]
    return "\n".join([*head, *script, "end", ""])


def seconds(program, text):
    """What a run takes of the processor, the best of some."""
    best = None
    with tempfile.TemporaryFile() as file:
        file.write(text.encode())
        for _ in range(TRIES):
            file.seek(0)
            before = resource.getrusage(resource.RUSAGE_CHILDREN)
            done = subprocess.run([program], stdin=file, stdout=subprocess.DEVNULL, stderr=subprocess.PIPE)
            after = resource.getrusage(resource.RUSAGE_CHILDREN)
            if done.returncode:
                sys.exit(f"scripts.py: status {done.returncode}: {done.stderr.decode().strip()}")
            took = after.ru_utime + after.ru_stime - before.ru_utime - before.ru_stime
            best = took if best is None else min(best, took)
    return best


def nanoseconds(program, letters, command, first, times, looks):
    """What so many of the commands take by the letter."""
    more = seconds(program, run_file(letters, first, command, times)) - seconds(program, run_file(letters, first, command, 0))
    return more * 1e9 / (letters * looks)


def main():
    program = sys.argv[1] if len(sys.argv) > 1 else PROGRAM
    for name, command, first, times, looks in LINES:
        figures = [nanoseconds(program, letters, command, first, times, looks) for letters in SIZES]
        growth = f"{figures[-1] / figures[-2]:.1f}" if min(figures) > 0.1 else "-"
        print(f"{name:<10}" + "".join(f"{figure:>9.2f}" for figure in figures) + f" nanoseconds a letter; {growth}")


if __name__ == "__main__":
    main()
