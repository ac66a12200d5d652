"""Standard output and standard error."""
import os

from .faults import Stop, why

OUTPUT, NOTES = 1, 2


def write_all(number, data):
    """Writes all bytes to an open file, which is given by its number."""
    rest = memoryview(data)
    while rest:
        rest = rest[os.write(number, rest) :]


class Streams:
    """The two streams of the process. They are written without a buffer, so that a fault is told where it comes."""

    def output(self, data):
        """Writes to standard output."""
        try:
            write_all(OUTPUT, data)
        except OSError as fault:
            raise Stop(f"run_file: standard output can't be written: {why(fault)}") from fault

    def note(self, text):
        """Writes a line to standard error. One that can't be written changes nothing else."""
        try:
            write_all(NOTES, text.encode("utf-8", "backslashreplace") + b"\n")
        except OSError:
            pass


class Once:
    """Streams on which no note is told twice."""

    def __init__(self, streams):
        self.streams = streams
        self.told = set()

    def output(self, data):
        """Writes to standard output."""
        self.streams.output(data)

    def note(self, text):
        """Writes a line to standard error, where it wasn't written before."""
        if text not in self.told:
            self.told.add(text)
            self.streams.note(text)
