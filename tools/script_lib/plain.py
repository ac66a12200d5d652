"""A script without its comments and empty lines, which the program doesn't take."""


def is_kept(line):
    """Whether a line of a script is no comment and isn't empty."""
    said = line.strip(" \t\r")
    return bool(said) and not said.startswith("#")


def plain_lines(lines):
    """The lines of a script that say something."""
    return [line for line in lines if is_kept(line)]
