"""The users of a machine, and the files in a spool that are no user's table."""
import os
import pwd
import re

from .faults import Stop, shown

PASSWD = "/etc/passwd"
# What an editor and crontab(1) leave in a spool.
COPY = re.compile(r".*~|#.*#", re.DOTALL)
TEMPORARY = re.compile(r"tmp\.[A-Za-z0-9]+")


class Users:
    """The users in the passwd of a root. Of this machine those are known, too, whom it knows by another way."""

    def __init__(self, root):
        self.is_own = root.is_own
        try:
            rows = [line.split(b":") for line in root.read(PASSWD).split(b"\n") if b":" in line]
        except OSError:
            rows = []
            self.are_known = self.is_own
        else:
            self.are_known = True
        self.numbers = {os.fsdecode(row[0]): int(row[2]) if len(row) > 2 and row[2].isdigit() else None for row in rows}

    def knows(self, name):
        """Whether a name is a user's; none where that can't be told."""
        if not self.are_known:
            return None
        return name in self.numbers or self.uid_of(name) is not None

    def uid_of(self, name):
        """The number of a user; none where it isn't known."""
        if name in self.numbers or not self.is_own:
            return self.numbers.get(name)
        try:
            return pwd.getpwnam(name).pw_uid
        except (KeyError, ValueError):
            return None


def why_passed_over(name, is_user):
    """Why a name in a spool isn't that of a user's table; none where it may be."""
    if name.startswith("."):
        return "cron takes no name that begins with a dot"
    if COPY.fullmatch(name):
        return "it is an editor's copy, and no user's table"
    if TEMPORARY.fullmatch(name) and not is_user:
        return "it is a temporary file of crontab(1), and no user's table"
    return None


def orphan_note(root, name):
    """What is told of the table of a user whom the passwd of a root doesn't have."""
    return f"is a table of {shown(name)}, who isn't in {shown(root.shown(PASSWD))}: cron runs no table without its user"


def split_user(text):
    """The user and the file of an option `NAME=FILE`; no user where it is a file alone. A name has no `/`."""
    name, sign, file = text.partition("=")
    return (name, file) if sign and name and "/" not in name else (None, text)


def split_users(texts):
    """The same of several. No user is named twice."""
    pairs = [split_user(text) for text in texts]
    names = [name for name, _ in pairs if name is not None]
    for name in names:
        if names.count(name) > 1:
            raise Stop(f"run_file: --user: `{shown(name)}` is named twice")
    return pairs
