#!/usr/bin/env python3
"""Measures an audit: the built program with --audit over journals of some 1,000,000 turns, beside the runs that wrote them.

Usage: bench/audit.py [PROGRAM]

PROGRAM is the built binary, crates/cron_cluster/out/cron_cluster by default. The run files are of three replicas that go through
100,000 rounds and 20,000 launches, of seven replicas with 680 jobs of 20 launches each, and of seven replicas that run by themselves.
A line has the turns, the bytes that are audited, the seconds of the processor that the run took with its journal, those that its
audit takes, how many times the one is the other, and the most bytes that the audit was resident in, by the turn. Each time is the best of
some runs.

Last comes an input of 67,108,864 bytes, the most that is read: its journal has no good line, so it is read and split, and little else is
done. Beside it stands the time of `wc -l` over the same file.
"""
import os
import sys
import tempfile

from world import JOURNAL_JOBS, PROGRAM, TURN, parted, run_file, scripted, seven_replicas, text_of, tried, write_run

MOST_BYTES = 67_108_864
REPORT = "cron report 1\nend\n"
# The status that goes with `audit no`.
NO = 6


def three_replicas():
    """A run of three replicas that go through as many rounds as a script may have, and then through 1,000 jobs of 20 launches each."""
    window, entries = "2024-01-01T00:00Z 2024-01-11T00:00Z", [f"{k % 60} {k % 12},{k % 12 + 12} * * * job {k}" for k in range(1000)]
    rounds = ["round 2024-01-01T00:00Z 10000"] * 10
    return run_file(3, window, entries).replace("script\nend\n", "\n".join(["script", "campaign 0", *rounds, "end", ""]))


def runs():
    """The run files, each with its name."""
    yield "three replicas, 100,000 rounds and 20,000 launches", three_replicas()
    yield f"seven replicas, {JOURNAL_JOBS} jobs", seven_replicas(JOURNAL_JOBS)
    yield "seven replicas, 5 times 20,000 free turns", scripted(7, parted("free", 5, 20_000))


def write_input(folder, text):
    """Writes what is audited: a run file and what was written for it."""
    with open(os.path.join(folder, "input"), "w", encoding="utf-8") as file:
        file.write(text + text_of(os.path.join(folder, "told")))


def audited(program, folder, answer, status=0):
    """The least seconds of an audit, and its most bytes. It has to give that answer."""
    taken = tried([program, "--audit"], folder, source="input", sink="answer", status=status)
    found = text_of(os.path.join(folder, "answer"))
    if found != answer:
        sys.exit(f"an audit answers {found!r} in place of {answer!r}")
    return taken


def measure(program, folder, name, text):
    """A run with its journal, and the audit of what it wrote."""
    write_run(folder, text)
    ran, _ = tried([program, "--journal"], folder, sink="told")
    write_input(folder, text)
    seconds, size = audited(program, folder, "audit yes\n")
    turns = sum(1 for _ in TURN.finditer(text_of(os.path.join(folder, "told"))))
    read = os.path.getsize(os.path.join(folder, "input"))
    print(f"{name}: {turns:,} turns, {read:,} bytes, the run {ran:.2f} seconds, its audit {seconds:.2f}, {seconds / ran:.2f} times as long")
    print(f"    {turns / seconds:,.0f} turns a second, {size / turns:.0f} bytes a turn")


def measure_limit(program, folder):
    """An input of as many bytes as are read."""
    head = run_file(3, "2024-01-01T00:00Z 2024-01-02T00:00Z", ["* * * * * job"]) + REPORT
    body = "0 0 campaigns\n" * (MOST_BYTES // 14 + 1)
    with open(os.path.join(folder, "input"), "w", encoding="utf-8") as file:
        file.write((head + body)[: MOST_BYTES - 1] + "\n")
    seconds, size = audited(program, folder, f"audit no {REPORT.count(chr(10)) + 1} 1\n", NO)
    counted, _ = tried(["wc", "-l"], folder, source="input", sink="answer")
    print(f"{MOST_BYTES:,} bytes without a good line: {seconds:.2f} seconds, wc -l {counted:.2f} seconds, {size / MOST_BYTES:.2f} bytes a byte")


def main():
    program = sys.argv[1] if len(sys.argv) > 1 else PROGRAM
    with tempfile.TemporaryDirectory() as folder:
        for name, text in runs():
            measure(program, folder, name, text)
        measure_limit(program, folder)


if __name__ == "__main__":
    main()
