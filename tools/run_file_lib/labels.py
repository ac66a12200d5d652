"""The label of a table, made from its path."""
import hashlib
import os
import re

from .faults import Stop, at

LABEL = re.compile("[a-z_][a-z0-9_-]{0,31}")
MOST_BYTES = 32
DIGITS = 8
SINGLE = {"/etc/crontab": "etc-crontab", "/etc/anacrontab": "etc-anacrontab"}
FOLDERS = {
    "/etc/cron.d": "cron-d",
    "/var/spool/cron/crontabs": "crontabs",
    "/var/spool/cron/tabs": "tabs",
    "/var/spool/cron": "spool",
}


def label_of(path, taken):
    """The label of a path; none that is taken.

    A path of the usual places has a label of its folder and its name. Where the name has other characters than a label, or is
    too long, and for each other path, the label ends with digits of the path's hash. So no label depends on which other tables
    there are, but where two hashes begin with the same digits. It is made from the bytes of the path, so it doesn't depend on
    the locale either.
    """
    name = usual_name(path)
    if name and LABEL.fullmatch(name) and name not in taken:
        return name
    front = spelled(name or other_name(path))[: MOST_BYTES - DIGITS - 1]
    digits = hashlib.sha256(os.fsencode(path)).hexdigest()
    for first in range(0, len(digits), DIGITS):
        label = f"{front}-{digits[first : first + DIGITS]}"
        if label not in taken:
            return label
    raise Stop(at(path, 0, "there is no label left for this table"))


def usual_name(path):
    """The name of a table in one of the usual places; none elsewhere. No two paths have the same."""
    folder, name = os.path.split(path)
    if path in SINGLE:
        return SINGLE[path]
    return f"{FOLDERS[folder]}-{name}" if folder in FOLDERS else None


def other_name(path):
    """The last two parts of a path."""
    return "-".join(path.strip("/").split("/")[-2:])


def spelled(name):
    """A name in the letters of a label: a `-` stands for each other byte."""
    name = re.sub(b"[^a-z0-9_-]", b"-", os.fsencode(name).lower()).lstrip(b"-0123456789")
    return name.decode("ascii") or "table"
