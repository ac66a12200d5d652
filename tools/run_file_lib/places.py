"""Where a machine has its tables, and how the files below a root are read."""
import errno
import os
import stat
from collections import namedtuple

from .daemons import DEBIAN, DEBIAN_SPOOL, HEVTSORA, called, why_no_name
from .faults import Stop, shown, why
from .users import orphan_note, why_passed_over

# A table: its kind, its path in the file system that it is of, the file on this machine, and what it is named by: an option, a
# usual place, or a spool of users' crontabs; and whose it is, where it is a user's. An option's path is the file, or the place in a
# spool that the file is meant for.
Table = namedtuple("Table", "kind path file origin user", defaults=[None])
OPTION, PLACE, SPOOL = "option", "place", "spool"

MOST_BYTES = 1_048_576
MOST_LINKS = 40
# The folders of users' crontabs: of Debian, of SUSE, and of Red Hat, where the two above may stand too.
SPOOLS = ["/var/spool/cron/crontabs", "/var/spool/cron/tabs", "/var/spool/cron"]
PACKAGED = "/etc/cron.d"
NULL = "/dev/null"


def read_file(file):
    """The bytes of a file, a pipe or a device."""
    with open(file, "rb") as opened:
        data = opened.read(MOST_BYTES + 1)
    if len(data) > MOST_BYTES:
        raise OSError(errno.EFBIG, f"it has more than {MOST_BYTES:,} bytes")
    return data


def read_regular(file):
    """The bytes of a regular file. Opening another kind of file may wait forever."""
    if not stat.S_ISREG(os.stat(file).st_mode):
        raise OSError(errno.EINVAL, "it is no regular file")
    return read_file(file)


class Root:
    """A file system below a folder: that of the machine, or a copy of one."""

    def __init__(self, folder):
        self.folder = folder
        if not os.path.isdir(folder):
            raise Stop(f"run_file: --root: `{shown(folder)}` is no folder")
        # Whether it is this machine's own, and no copy.
        self.is_own = os.path.realpath(folder) == "/"

    def shown(self, path):
        """Where a path of the file system is on this machine."""
        return os.path.join(self.folder, path.lstrip("/"))

    def real(self, path):
        """The same, once links are followed as that file system has them: none leads out of the folder."""
        left, done, links = path.split("/"), [], 0
        while left:
            part = left.pop(0)
            here = os.path.join(self.folder, *done, part)
            if part == "..":
                done = done[:-1]
            elif part not in ("", ".") and os.path.islink(here):
                links += 1
                if links > MOST_LINKS:
                    raise OSError(errno.ELOOP, os.strerror(errno.ELOOP))
                target = os.readlink(here)
                done = [] if target.startswith("/") else done
                left = target.split("/") + left
            elif part not in ("", "."):
                done.append(part)
        return os.path.join(self.folder, *done)

    def place(self, path):
        """The same, but for a link at the path's own end."""
        folder, name = os.path.split(path)
        return os.path.join(self.real(folder), name)

    def has(self, path):
        """Whether something stands at a path, be it a link that leads nowhere. Where that can't be told, the answer is yes, and
        reading it tells why."""
        try:
            return os.path.lexists(self.place(path))
        except OSError:
            return True

    def read(self, path):
        """The bytes of a regular file."""
        return read_regular(self.real(path))

    def states(self, path):
        """What is known of the file at a path, and of what stands there itself, be it a link."""
        return os.stat(self.real(path)), os.lstat(self.place(path))

    def names_in(self, path):
        """The names in a folder, in order; none where there is no such folder."""
        try:
            return sorted(os.listdir(self.real(path)), key=os.fsencode)
        except (FileNotFoundError, NotADirectoryError):
            return []

    def is_null(self, path):
        """Whether a path leads to /dev/null."""
        try:
            return self.real(path) == self.real(NULL)
        except OSError:
            return False

    def spool_path(self, user):
        """The path of a user's crontab: where there is one, or in the first spool that there is."""
        paths = [f"{spool}/{user}" for spool in SPOOLS]
        there = [path for path in paths if self.has(path)]
        there += [path for path, spool in zip(paths, SPOOLS) if self.has(spool)]
        return [*there, *paths][0]


class Finder:
    """Looks for the tables of a file system, as a cron does. What it passes over is told."""

    def __init__(self, root, cron, users, tell, tell_unreadable):
        self.root = root
        self.cron = cron
        self.users = users
        self.tell = tell
        self.tell_unreadable = tell_unreadable

    def tables(self):
        """Each table, in order: of the system, of users, and of anacron."""
        yield from self.single("system", "/etc/crontab")
        yield from self.packaged(PACKAGED)
        for spool in SPOOLS:
            yield from self.spooled(spool)
        yield from self.single("anacrontab", "/etc/anacrontab")

    def single(self, kind, path):
        """The table at a path, if it is there."""
        if self.root.has(path) and not self.is_masked(path):
            yield Table(kind, path, self.root.shown(path), PLACE)

    def packaged(self, folder):
        """The system tables in a folder whose names cron takes."""
        for name in self.names_in(folder, PLACE):
            path = f"{folder}/{name}"
            reason = self.why_no_table(folder, name)
            if reason:
                self.pass_over(path, reason)
            elif self.is_file(path) and not self.is_masked(path):
                yield Table("system", path, self.root.shown(path), PLACE)

    def spooled(self, folder):
        """The crontabs of users in a folder, which have the users' names."""
        for name in self.names_in(folder, SPOOL):
            path = f"{folder}/{name}"
            if path in SPOOLS:
                continue
            reason = self.why_no_table(folder, name)
            if reason:
                self.pass_over(path, reason)
            elif self.is_file(path) and not self.is_masked(path):
                if self.cron == HEVTSORA and self.users.knows(name) is False:
                    self.tell(self.root.shown(path), orphan_note(self.root, name))
                yield Table("crontab", path, self.root.shown(path), SPOOL, name)

    def why_no_table(self, folder, name):
        """Why cron takes no table of that name in a folder; none where it takes one."""
        if folder == PACKAGED:
            return why_no_name(self.cron, name)
        if folder not in SPOOLS:
            return None
        if self.cron == DEBIAN and folder != DEBIAN_SPOOL:
            reads = f"{called(DEBIAN)} reads {DEBIAN_SPOOL} alone"
        else:
            reads = None
        return why_passed_over(name, self.users.knows(name)) or reads

    def names_in(self, folder, origin):
        """The names in a folder; none where it can't be read, which is told."""
        try:
            return self.root.names_in(folder)
        except OSError as fault:
            self.tell_unreadable(self.root.shown(folder), why(fault), origin)
            return []

    def is_file(self, path):
        """Whether a path isn't a folder, which is told: a folder is no table."""
        try:
            is_folder = os.path.isdir(self.root.real(path))
        except OSError:
            is_folder = False
        if is_folder:
            self.pass_over(path, "it is a folder")
        return not is_folder

    def is_masked(self, path):
        """Whether a path is a link to /dev/null, which is told: so a table of a package is switched off."""
        is_null = self.root.is_null(path)
        if is_null:
            self.pass_over(path, "it is a link to /dev/null, which has no jobs")
        return is_null

    def pass_over(self, path, reason):
        """Tells why there is no table at a path."""
        self.tell(self.root.shown(path), f"is passed over: {reason}")
