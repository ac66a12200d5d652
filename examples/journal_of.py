#!/usr/bin/env python3
"""Writes a journal, which `--audit` reads, from a list of events.

Usage: examples/journal_of.py < EVENTS

A line of the list is an event. Each letter is heard after it was sent; otherwise the order of two replicas' events is free. Words are
separated by blanks, and what stands behind a # is left out:

  command, walk, end        the turns of the script's next command follow, or those of the walk at the end; nothing follows
  R campaign                replica R stood for leader; in the same way `R answer`, `R stop` and `R restart`
  R hear LETTER             it heard a letter
  R tick SECONDS            its clock read so many seconds since 1970, in UTC
  R tick SECONDS FATE       and it called the scheduler, and nothing came back
  R tick SECONDS FATE NAME KIND
  R stop kept CAUSE         its disk stopped within a write, and has what was to be saved; CAUSE is as `hear LETTER`
  R stop lost CAUSE
  - arrive C                late call C arrived at the scheduler

Behind `sends` stand the letters that were sent then, by the numbers of the replicas that they are for, be they lost or not. A letter is
named as the system does, and no two have one name. Turns and letters are numbered here.
"""
import sys
import time

COMMANDS = {"walk": "command end", "end": "end"}


class Journal:
    """The lines of a journal so far, the number of the last command, and the letters and turns so far."""

    def __init__(self):
        self.commands = 0
        self.turns = 0
        self.letters = {}

    def line(self, words):
        """The line of an event that is a command, or a turn."""
        if words == ["command"]:
            self.commands += 1
            return f"command {self.commands}"
        return COMMANDS[words[0]] if words[0] in COMMANDS else self.turn(words)

    def turn(self, words):
        told, _, sent = " ".join(words).partition(" sends ")
        words = [self.word(before, word) for before, word in zip(["", *told.split()], told.split())]
        for letter in sent.split():
            self.letters[letter] = len(self.letters)
        self.turns += 1
        return " ".join([str(self.turns - 1), *words])

    def word(self, before, word):
        """A word of a turn: a clock reading as a stamp, and a letter by its number."""
        if before == "tick":
            return time.strftime("%Y-%m-%dT%H:%MZ", time.gmtime(int(word)))
        return str(self.letters[word]) if before == "hear" else word


def main():
    if sys.argv[1:]:
        sys.exit(__doc__.strip())
    journal = Journal()
    print("cron journal 1")
    for number, line in enumerate(sys.stdin, 1):
        words = line.partition("#")[0].split()
        try:
            if words:
                print(journal.line(words))
        except (KeyError, ValueError) as fault:
            sys.exit(f"journal_of: line {number}: {fault} isn't known")


if __name__ == "__main__":
    main()
