#!/usr/bin/env python3
"""Measures a replica's step: runs the built program five times, and prints the best of each rate that it tells.

Usage: bench/replica.py [PROGRAM]

PROGRAM is the built binary, crates/replica_bench/out/replica_bench by default. Each line has what was measured and how many
a second of the processor: the steps of three replicas that hear each other's letters at once, over 10,000 launches of one
job and of 1,000 jobs, and the choices of a launch table in which no job is due any more.
"""
import os
import re
import subprocess
import sys

ROOT = os.path.dirname(os.path.dirname(os.path.abspath(__file__)))
PROGRAM = os.path.join(ROOT, "crates", "replica_bench", "out", "replica_bench")
TRIES = 5
RATE = re.compile(r"(.+): (\d+) (\w+) a second")


def rates(program):
    """What a run tells, by what was measured."""
    ended = subprocess.run([program], stdout=subprocess.DEVNULL, stderr=subprocess.PIPE, text=True, check=False)
    if ended.returncode != 0:
        sys.exit(f"{program} ended with status {ended.returncode}: {ended.stderr}")
    found = [RATE.fullmatch(line) for line in ended.stderr.splitlines()]
    if not found or None in found:
        sys.exit(f"{program} wrote {ended.stderr!r}")
    return {(each[1], each[3]): int(each[2]) for each in found}


def tell(program):
    """Prints the best of each rate."""
    tries = [rates(program) for _ in range(TRIES)]
    for name, what in tries[0]:
        best = max(each[name, what] for each in tries)
        print(f"{name}: {best:,} {what} a second")


def main():
    tell(sys.argv[1] if len(sys.argv) > 1 else PROGRAM)


if __name__ == "__main__":
    main()
