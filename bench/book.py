#!/usr/bin/env python3
"""Measures what a book costs: runs the built program at two numbers of turns, and prints its memory and its speed.

Usage: bench/book.py [PROGRAM]

PROGRAM is the built binary, crates/book_bench/out/book_bench by default. Each turn posts one letter. Of each number of
turns a line has the most bytes that a run was resident in, as GNU time tells them, what that is by the turn, and the best
rate of five runs, in turns a second of the processor. The last line has by how many bytes a turn that grows between the two.
"""
import os
import re
import subprocess
import sys

ROOT = os.path.dirname(os.path.dirname(os.path.abspath(__file__)))
PROGRAM = os.path.join(ROOT, "crates", "book_bench", "out", "book_bench")
SIZES = (100_000, 1_000_000)
TRIES = 5
TOLD = re.compile(r"(\d+) turns a second\npeak (\d+)\n")


def tried(program, turns):
    """How many of so many turns a run takes in a second, and the most bytes that it was resident in. GNU time tells these, in units of
    1,024: of a child of this script Linux counts what the script had when it started it, too."""
    command = ["time", "-f", "peak %M", program, str(turns)]
    ended = subprocess.run(command, stdout=subprocess.DEVNULL, stderr=subprocess.PIPE, text=True, check=False)
    if ended.returncode != 0:
        sys.exit(f"{program} ended with status {ended.returncode}: {ended.stderr}")
    told = TOLD.fullmatch(ended.stderr)
    if told is None:
        sys.exit(f"{program} wrote {ended.stderr!r}")
    return int(told[1]), 1024 * int(told[2])


def tell(program):
    """Prints what the runs took."""
    peaks = []
    for turns in SIZES:
        tries = [tried(program, turns) for _ in range(TRIES)]
        best = max(rate for rate, _ in tries)
        peaks.append(max(peak for _, peak in tries))
        print(f"{turns:,} turns: {peaks[-1]:,} bytes, {peaks[-1] / turns:.0f} a turn; {best:,} turns a second")
    print(f"between the two: {(peaks[1] - peaks[0]) / (SIZES[1] - SIZES[0]):.0f} bytes a turn")


def main():
    tell(sys.argv[1] if len(sys.argv) > 1 else PROGRAM)


if __name__ == "__main__":
    main()
