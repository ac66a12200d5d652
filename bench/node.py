#!/usr/bin/env python3
"""Measures a node: runs the built program five times, and prints the best of each rate that it tells.

Usage: bench/node.py [PROGRAM]

PROGRAM is the built binary, crates/node_bench/out/node_bench by default. Each line has how many steps a second of the
processor a leader takes that is alone: without a disk, and on a disk in memory.
"""
import os
import sys

sys.dont_write_bytecode = True  # bench/ is to have no files but its own
from replica import ROOT, tell

PROGRAM = os.path.join(ROOT, "crates", "node_bench", "out", "node_bench")


def main():
    tell(sys.argv[1] if len(sys.argv) > 1 else PROGRAM)


if __name__ == "__main__":
    main()
