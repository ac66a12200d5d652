#!/usr/bin/env python3
"""Measures versions of tables: what reading and assembling eight versions of 1,000 jobs takes beside eight single tables, and what a
turn takes while eight versions are adopted beside one version.

Usage: bench/versions.py [PROGRAM]

PROGRAM is the built binary, crates/cron_cluster/out/cron_cluster by default. The numbers are instructions, counted by valgrind's
callgrind, so they are the same at each call. The first line is of due lists over a window of one minute, of which each has a line for
each job of each version and little else: one list of eight versions of the same 1,000 jobs, and eight lists of each of these as a
table of its own. The second line is of the rounds of three replicas late on a day, behind those in which they give up what was due
and adopt what versions there are: 20 jobs that are each due four times an hour, in one version, and in eight, one each three hours.
"""
import os
import re
import subprocess
import sys
import tempfile

ROOT = os.path.dirname(os.path.dirname(os.path.abspath(__file__)))
PROGRAM = os.path.join(ROOT, "crates", "cron_cluster", "out", "cron_cluster")
COUNTED = re.compile(r"Collected : (\d+)")
VERSIONS = 8
MINUTE = "2024-01-01T00:00Z 2024-01-01T00:01Z"
DAY = "2024-01-01T00:00Z 2024-01-02T00:00Z"
# How many rounds a command has, and how many commands there are, in two runs of which the first one is a front of the second.
ROUNDS = 1_000
COMMANDS = 10, 12


def table(entries):
    """The lines of a crontab."""
    return [f"crontab bench UTC {len(entries)}", *entries]


def run_file(window, tables, stamps, members=1, script=()):
    """The text of a run file with versions, of which the further ones begin at these stamps."""
    lines = ["cronrun 1", f"replicas {members}", f"window {window}", "grace 0", *table(tables[0])]
    for number, (stamp, entries) in enumerate(zip(stamps, tables[1:]), 1):
        lines += [f"version {number} {stamp}", *table(entries)]
    return "\n".join([*lines, "script", *script, "end", ""])


def many_jobs(version):
    """1,000 entries, which are others in each version."""
    return [f"{(k + version) % 60} {k % 24} * 1-6/2,{version + 2} {k % 7} job {k}" for k in range(1000)]


def quarters(version):
    """20 entries, each of which is due four times an hour."""
    return [f"{','.join(str((k + version) % 15 + 15 * part) for part in range(4))} * * * * job {k}" for k in range(20)]


def counted(program, words, text):
    """How many instructions the program takes."""
    with tempfile.TemporaryDirectory() as room:
        command = ["valgrind", "--tool=callgrind", f"--callgrind-out-file={room}/out", program, *words]
        done = subprocess.run(command, input=text.encode(), stdout=subprocess.DEVNULL, stderr=subprocess.PIPE, check=True)
    return int(COUNTED.search(done.stderr.decode())[1])


def turns_of(program, text):
    """How many turns a run has, by its journal."""
    done = subprocess.run([program, "--journal"], input=text.encode(), stdout=subprocess.PIPE, check=True)
    return len(re.findall(r"(?m)^\d+ ", done.stdout.decode()))


def lists(program):
    """What one list of all versions takes, and a list of each of them."""
    tables = [many_jobs(version) for version in range(VERSIONS)]
    one = counted(program, ["--list"], run_file(MINUTE, tables, ["2024-01-01T00:00Z"] * (VERSIONS - 1)))
    return one, sum(counted(program, ["--list"], run_file(MINUTE, [it], [])) for it in tables)


def rounds(program, tables, stamps):
    """What a turn of a round takes, by what more rounds take behind others, and how many turns those others have."""
    found = []
    for times in COMMANDS:
        text = run_file(DAY, tables, stamps, 3, ["campaign 0", *[f"round 2024-01-01T23:00Z {ROUNDS}"] * times])
        found.append((counted(program, [], text), turns_of(program, text)))
    (taken, turns), (more, longer) = found
    return (more - taken) / (longer - turns), turns


def main(program=PROGRAM):
    one, single = lists(program)
    print(f"lists of {VERSIONS} versions of 1,000 jobs: {one:,} instructions, and as single tables {single:,}: {one / single:.2f} times")
    plain, turns = rounds(program, [quarters(0)], [])
    stamps = [f"2024-01-01T{3 * version:02}:00Z" for version in range(1, VERSIONS)]
    changed, more = rounds(program, [quarters(version) for version in range(VERSIONS)], stamps)
    print(f"a turn behind {turns:,} with one version: {plain:,.0f} instructions, and behind {more:,} with {VERSIONS}: {changed:,.0f}")


if __name__ == "__main__":
    main(*sys.argv[1:])
