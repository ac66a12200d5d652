#!/usr/bin/env python3
"""Measures a status board: runs the built program without and with a pause between views, and prints what readers get beside free
turns, and what they cost.

Usage: bench/board.py [PROGRAM]

PROGRAM is the built binary, crates/board_bench/out/board_bench by default. In a run three replicas take free turns beside no
reader, beside one, four and eight. A line has the views of all readers together and the turns in a second of the clock, each the
median of five runs, and the share of the turns without a reader, of the same run: the median, the least and the most.
"""
import os
import re
import statistics
import subprocess
import sys

ROOT = os.path.dirname(os.path.dirname(os.path.abspath(__file__)))
PROGRAM = os.path.join(ROOT, "crates", "board_bench", "out", "board_bench")
TURNS = 100_000
# So many microseconds pass between two views of a reader; where there are none it gives up its processor.
PAUSES = (0, 100, 1_000)
TRIES = 5
LINE = re.compile(r"(\d+) readers: (\d+) views a second, (\d+) of them later ones, and (\d+) turns; prefix (\d+)")


def rates(program, pause):
    """The views and turns in a second of a run, by the number of readers."""
    command = [program, str(TURNS), str(pause)]
    ended = subprocess.run(command, stdout=subprocess.DEVNULL, stderr=subprocess.PIPE, text=True, check=False)
    if ended.returncode != 0:
        sys.exit(f"{program} ended with status {ended.returncode}: {ended.stderr}")
    found = [LINE.fullmatch(line) for line in ended.stderr.splitlines()]
    if not found or None in found:
        sys.exit(f"{program} wrote {ended.stderr!r}")
    return {int(each[1]): tuple(int(number) for number in each.groups()[1:4]) for each in found}


def tell(program, pause):
    """Prints what runs with such a pause tell."""
    tries = [rates(program, pause) for _ in range(TRIES)]
    print(f"{pause:,} microseconds between two views of a reader")
    for readers in tries[0]:
        views, later, turns = (statistics.median(each[readers][place] for each in tries) for place in range(3))
        shares = sorted(each[readers][2] / each[0][2] for each in tries)
        share = f"{statistics.median(shares):.2f} ({shares[0]:.2f} to {shares[-1]:.2f})"
        print(f"    {readers} readers: {views:,} views, {later:,} of them later ones, {turns:,} turns, {share} of those without a reader")


def main():
    for pause in PAUSES:
        tell(sys.argv[1] if len(sys.argv) > 1 else PROGRAM, pause)


if __name__ == "__main__":
    main()
