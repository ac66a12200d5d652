#!/usr/bin/env python3
"""Measures a store: runs the built program five times, and prints the best of each rate that it tells.

Usage: bench/store.py [PROGRAM]

PROGRAM is the built binary, crates/store_bench/out/store_bench by default. Each line has what was measured and how many
votes a second of the processor: those that are saved one after another on a disk in memory, 100,000 in all, and those that
are found when the disk is attached again.
"""
import os
import sys

sys.dont_write_bytecode = True  # bench/ is to have no files but its own
from replica import ROOT, tell

PROGRAM = os.path.join(ROOT, "crates", "store_bench", "out", "store_bench")


def main():
    tell(sys.argv[1] if len(sys.argv) > 1 else PROGRAM)


if __name__ == "__main__":
    main()
