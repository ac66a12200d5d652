#!/usr/bin/env python3
"""Measures the built program: on run files, beside `cat` of the same report, and on a long one that it reads and refuses
at its last line, beside `wc -l` of the same file.

Usage: bench/bench.py [PROGRAM]

PROGRAM is the built binary, crates/cron_cluster/out/cron_cluster by default. Each line has the run, the best time of
five of the program, its report's lines in a second, and how often `cat` of the report fits into that time. The last three
lines have best times of forty: of reading alone, beside the program's time for an empty input, which is the start of its
process, and how often `wc -l` fits into the first, which starts a process too; the parts of a run of 1,000 jobs that are
never due; and what 31 zones more take.
"""
import os
import subprocess
import sys
import tempfile
import time

ROOT = os.path.dirname(os.path.dirname(os.path.abspath(__file__)))
PROGRAM = os.path.join(ROOT, "crates", "cron_cluster", "out", "cron_cluster")
TRIES = 5
READING_TRIES = 40
READING_BYTES = 1_048_000
# 400 days, the longest window.
LONG = ("2024-01-01T00:00Z", "2025-02-04T00:00Z")
TEN_DAYS = ("2024-01-01T00:00Z", "2024-01-11T00:00Z")
# Entries that are never due: 31 February.
NEVER = [f"{k % 60} {k % 24} 31 2 * job {k}" for k in range(1000)]

# TZ rules of POSIX, as the zones of tzdata end.
RULES = [
    "CET-1CEST,M3.5.0,M10.5.0/3",
    "EST5EDT,M3.2.0,M11.1.0",
    "<+1030>-10:30<+11>-11,M10.1.0,M4.1.0",
    "NZST-12NZDT,M9.5.0,M4.1.0/3",
    "<-04>4<-03>,M9.1.6/24,M4.1.6/24",
    "IST-1GMT0,M10.5.0,M3.5.0/1",
    "EET-2EEST,M3.4.4/50,M10.4.4/50",
    "<+1245>-12:45<+1345>,M9.5.0/2:45,M4.1.0/3:45",
]


def run_file(start, end, entries):
    """The text of a run file over one crontab."""
    head = ["cronrun 1", "replicas 1", f"window {start} {end}", "grace 0", f"crontab bench UTC {len(entries)}"]
    return "\n".join(head + entries + ["script", "end", ""])


def zone_file(start, end, zones, entries):
    """The text of a run file with so many zones, and the entries dealt out to them."""
    head = ["cronrun 1", "replicas 1", f"window {start} {end}", "grace 0"]
    head += [f"zone Zone{k} posix {RULES[k % len(RULES)]}" for k in range(zones)]
    tables = []
    for k in range(zones):
        own = entries[k::zones]
        tables += [f"crontab bench{k} Zone{k} {len(own)}", *own]
    return "\n".join(head + tables + ["script", "end", ""])


def runs():
    """The run files, each with its name."""
    busy = ["0,30 * * * * one job of 19,200 launches"]
    # A weekday of four months: 17 or 18 launches.
    many = [f"{k % 60} {k % 24} * 3,4,5,6 {k % 7} job {k}" for k in range(1000)]
    twice_a_day = [f"{k % 60} {k % 12},{k % 12 + 12} * * * job {k}" for k in range(1000)]
    yield "400 days, one job of 19,200 launches", run_file(*LONG, busy)
    yield "400 days, 1,000 jobs of 17 or 18 launches", run_file(*LONG, many)
    yield "10 days, 1,000 jobs of 20 launches", run_file(*TEN_DAYS, twice_a_day)
    yield "10 days, 1,000 jobs that are never due", run_file(*TEN_DAYS, NEVER)
    # A Monday that is 1 or 29 February: both in 2016.
    leap = ("2016-01-01T00:00Z", "2017-02-04T00:00Z")
    yield "400 days, one job of 2 launches", run_file(*leap, ["0 0 */28 2 mon rare"])
    weekly = [f"{k % 60} {k % 24} * * {k % 7} job {k}" for k in range(340)]
    yield "400 days, one zone, no job", zone_file(*LONG, 1, [])
    yield "400 days, 32 zones, no job", zone_file(*LONG, 32, [])
    yield "400 days, 32 zones, 1,000 jobs that are never due", zone_file(*LONG, 32, NEVER)
    yield "400 days, 32 zones, 340 weekly jobs of 57 or 58 launches", zone_file(*LONG, 32, weekly)


def entry(number):
    """An entry with lists, ranges, steps and names."""
    minute = f"{number % 60},{(number + 7) % 60},{number % 30}-{number % 30 + 29}/10"
    hour = f"{number % 12}-{number % 12 + 11}/4"
    day = f"1-15/2,{number % 13 + 16}"
    month = ("jan-jun,sep", "Feb,MAY,dec", "*/3", "1-4,oct-dec/2")[number % 4]
    weekday = ("mon-fri", "sun,wed", "*", "0-7/2,thu")[number % 4]
    return f"{minute} {hour} {day} {month} {weekday} job {number}"


def long_file():
    """A run file of four sections with 1,000 entries in all, 30,000 comments and 30,000 empty lines. It is whole but for a
    line behind its `end`, at which it is refused: so it is read, and nothing else is done."""
    lines = ["cronrun 1", "replicas 1", "window 2024-01-01T00:00Z 2024-01-02T00:00Z", "grace 0"]
    comments = []
    for section in range(4):
        lines.append(f"crontab bench{section} UTC {250 * 61}")
        for number in range(250):
            for _ in range(30):
                comments.append(len(lines))
                lines += ["#", ""]
            lines.append(entry(250 * section + number))
    lines += ["script", "end", "# a line too many"]
    each, more = divmod(READING_BYTES - sum(len(line) + 1 for line in lines), len(comments))
    for place, line in enumerate(comments):
        lines[line] += "." * (each + (place < more))
    return "\n".join([*lines, ""])


def best_time(command, source, sink, tries=TRIES, status=0):
    """The least time of some tries, in seconds. Each has to end with the status."""
    times = []
    for _ in range(tries):
        with open(source, "rb") as stdin, open(sink, "wb") as stdout:
            start = time.perf_counter()
            ended = subprocess.run(command, stdin=stdin, stdout=stdout, stderr=subprocess.DEVNULL, check=False)
            times.append(time.perf_counter() - start)
        if ended.returncode != status:
            sys.exit(f"{command[0]} ended with status {ended.returncode} instead of {status}")
    return min(times)


def check_note(program, source, note):
    """The program has to refuse the run file so."""
    with open(source, "rb") as stdin:
        ended = subprocess.run([program], stdin=stdin, stdout=subprocess.DEVNULL, stderr=subprocess.PIPE, check=False)
    if ended.stderr.decode() != note:
        sys.exit(f"expected {note!r}, got {ended.stderr.decode()!r}")


def measure_reading(program, source, sink):
    """The program's time for a long file that it refuses at its last line, beside that of `wc -l`."""
    text = long_file()
    with open(source, "w", encoding="utf-8") as file:
        file.write(text)
    lines = text.count("\n")
    check_note(program, source, f"cron_cluster: line {lines}: cause 30 at 0\n")
    seconds = best_time([program], source, sink, READING_TRIES, 2)
    empty = best_time([program], os.devnull, sink, READING_TRIES, 2)
    count = best_time(["wc", "-l"], source, sink, READING_TRIES)
    told = f"{len(text):,} bytes, {lines:,} lines"
    print(f"reading alone, {told}: {seconds * 1000:.1f} ms, of nothing {empty * 1000:.1f}, {seconds / count:.1f} times wc -l")


def best_of_text(program, text, source, sink, status):
    """The program's best time for a run file."""
    with open(source, "w", encoding="utf-8") as file:
        file.write(text)
    return best_time([program], source, sink, READING_TRIES, status)


def measure_parts(program, source, sink):
    """What the parts of a run of 1,000 jobs that are never due take: the start of the process, the reading, which is all that
    is done where a line stands behind the `end`, and what comes after it, where the lines are read once more."""
    text = run_file(*TEN_DAYS, NEVER)
    started = best_time([program], os.devnull, sink, READING_TRIES, 2)
    read = best_of_text(program, text + "# a line too many\n", source, sink, 2)
    whole = best_of_text(program, text, source, sink, 0)
    parts = f"start {started * 1000:.2f} ms, reading {(read - started) * 1000:.2f}, the rest {(whole - read) * 1000:.2f}"
    print(f"the parts of 10 days, 1,000 jobs that are never due: {parts}")


def measure_zones(program, source, sink):
    """What 31 zones by a rule more take, over 400 days."""
    one, all_of_them = (best_of_text(program, zone_file(*LONG, zones, []), source, sink, 0) for zones in (1, 32))
    print(f"31 zones more, over 400 days: {(all_of_them - one) * 1000:.2f} ms")


def main():
    program = sys.argv[1] if len(sys.argv) > 1 else PROGRAM
    with tempfile.TemporaryDirectory() as folder:
        source, report, copy = (os.path.join(folder, name) for name in ("run", "report", "copy"))
        for name, text in runs():
            with open(source, "w", encoding="utf-8") as file:
                file.write(text)
            seconds = best_time([program], source, report)
            cat = best_time(["cat"], report, copy)
            with open(report, "rb") as file:
                lines = file.read().count(b"\n")
            print(f"{name}: {seconds * 1000:.1f} ms, {lines / seconds:,.0f} lines a second, {seconds / cat:.1f} times cat")
        measure_reading(program, source, report)
        measure_parts(program, source, report)
        measure_zones(program, source, report)


if __name__ == "__main__":
    main()
