#!/usr/bin/env python3
"""Measures what `--list` takes of six tables over 400 days, beside a plain C program that writes as many lines of the same length,
and what an entry takes of it, beside a program of Go that lists the same by robfig/cron.

Usage: bench/list.py [PROGRAM]

PROGRAM is the built binary, crates/cron_cluster/out/cron_cluster by default. First comes each table with one entry: how many due
instants it lists, the best time of the processor of some tries of the program and of the C program, and how often the second fits
into the first; of the one with most instants also what a listed instant takes beyond what writing its line takes. Then comes each
with as many of these entries as a run may have: what one takes, beyond the start of the process, and beside it what it takes of the
program of Go, if Go is there and that library (in Debian: golang-go and golang-github-robfig-cron-dev).
"""
import os
import resource
import subprocess
import sys
import tempfile

ROOT = os.path.dirname(os.path.dirname(os.path.abspath(__file__)))
PROGRAM = os.path.join(ROOT, "crates", "cron_cluster", "out", "cron_cluster")
ROBFIG = os.path.join(ROOT, "bench", "robfig", "main.go")
# Where Debian keeps the libraries of Go.
GO = {"GO111MODULE": "off", "GOPATH": "/usr/share/gocode"}
TRIES = 40
# 400 days, in which of the days 1 and 29 of February one alone is a Monday: the 29th, in 2016.
WINDOW = "2016-02-02T00:00Z", "2017-03-08T00:00Z"
# The most jobs and due instants of a run.
MOST_JOBS, MOST_DUES = 1_000, 20_000
TABLES = [
    ("each week", "30 7 * * mon"),
    ("each month", "30 7 1 * *"),
    ("29 February, a Monday", "30 7 */28 2 mon"),
    ("29 February", "30 7 29 2 *"),
    ("a date that never comes", "30 7 31 2 *"),
    ("each half hour", "*/30 * * * *"),
]
WRITER = r"""
#include <stdio.h>
#include <stdlib.h>
#include <string.h>

int main(int count, char **words)
{
    long lines = atol(words[1]), width = atol(words[2]);
    char line[256];
    memset(line, 'x', width);
    line[width] = '\n';
    for (long k = 0; k < lines; k++)
        fwrite(line, 1, width + 1, stdout);
    return count == 3 ? 0 : 1;
}
"""


def entries_of(entry, count):
    """So many entries, each with a name of its own."""
    return [f"{entry} job{k}" for k in range(count)]


def run_file(entries):
    """The text of a run file of these entries."""
    head = ["cronrun 1", "replicas 1", f"window {' '.join(WINDOW)}", "grace 0", f"crontab bench UTC {len(entries)}"]
    return "\n".join([*head, *entries, "script", "end", ""])


def processor_time(command, source, sink):
    """The seconds of the processor of one run of a command, which has to end well."""
    before = resource.getrusage(resource.RUSAGE_CHILDREN)
    with open(source, "rb") as stdin, open(sink, "wb") as stdout:
        subprocess.run(command, stdin=stdin, stdout=stdout, check=True)
    after = resource.getrusage(resource.RUSAGE_CHILDREN)
    return after.ru_utime + after.ru_stime - before.ru_utime - before.ru_stime


def best_time(command, source, sink):
    return min(processor_time(command, source, sink) for _ in range(TRIES))


def built_writer(folder):
    """The C program, built."""
    writer = os.path.join(folder, "writer")
    subprocess.run(["cc", "-O2", "-x", "c", "-o", writer, "-"], input=WRITER.encode(), check=True)
    return writer


def built_robfig(folder):
    """The program of Go, built, if Go and the library are there."""
    robfig = os.path.join(folder, "robfig")
    words = ["go", "build", "-o", robfig, ROBFIG]
    try:
        done = subprocess.run(words, env={**os.environ, **GO, "GOCACHE": folder}, stderr=subprocess.DEVNULL, check=False)
    except FileNotFoundError:
        return None
    return None if done.returncode else robfig


class Listing:
    """The two programs in a folder, and the files that they read and write there."""

    def __init__(self, program, folder):
        self.program, self.writer, self.robfig = program, built_writer(folder), built_robfig(folder)
        self.source, self.sink = os.path.join(folder, "source"), os.path.join(folder, "sink")

    def ours(self, entries):
        """The best time of a list of these entries, and its lines."""
        with open(self.source, "w", encoding="utf-8") as file:
            file.write(run_file(entries))
        return best_time([self.program, "--list"], self.source, self.sink), self.written()

    def theirs(self, entries):
        """The same of the program of Go."""
        with open(self.source, "w", encoding="utf-8") as file:
            file.write("".join(f"{entry}\n" for entry in entries))
        window = [stamp.rstrip("Z") for stamp in WINDOW]
        return best_time([self.robfig, *window], self.source, self.sink), self.written()

    def written(self):
        with open(self.sink, encoding="utf-8") as file:
            return file.read().splitlines()

    def tell_one(self, name, entry):
        """The list of one entry, beside as many lines from C. It has that many due instants."""
        listing, lines = self.ours(entries_of(entry, 1))
        width = round(sum(map(len, lines)) / len(lines))
        writing = best_time([self.writer, str(len(lines)), str(width)], os.devnull, self.sink)
        dues = len(lines) - 3
        beyond = f", {(listing - writing) / dues * 1e6:.2f} microseconds an instant" if dues > 1000 else ""
        print(f"{name}, {dues:,} instants: {listing * 1e3:.2f} ms, in C {writing * 1e3:.2f}, {listing / writing:.1f} times{beyond}")
        return dues

    def tell_many(self, name, entry, dues):
        """What one of many entries takes, beside robfig/cron."""
        entries = entries_of(entry, min(MOST_JOBS, MOST_DUES // max(dues, 1)))
        started, _ = self.ours([])
        listing, lines = self.ours(entries)
        each = (listing - started) / len(entries) * 1e6
        print(f"{name}, {len(entries):,} entries: {each:.1f} microseconds each{self.beside(entries, lines, each)}")

    def beside(self, entries, lines, each):
        """What one of the entries takes of the program of Go, if it lists the same, and how often that fits into what it takes of ours."""
        if not self.robfig:
            return ""
        started, _ = self.theirs([])
        theirs, same = self.theirs(entries)
        if lines[1:-1] != same:
            return ", robfig/cron lists others"
        theirs = (theirs - started) / len(entries) * 1e6
        return f", robfig/cron {theirs:.1f}, of which it is {each / theirs:.3f}"


def main():
    program = sys.argv[1] if sys.argv[1:] else PROGRAM
    with tempfile.TemporaryDirectory() as folder:
        listing = Listing(program, folder)
        dues = [listing.tell_one(name, entry) for name, entry in TABLES]
        for (name, entry), count in zip(TABLES, dues):
            listing.tell_many(name, entry, count)


if __name__ == "__main__":
    main()
