"""The crons of machines: which tables each ignores, whole or a line of them, and what it takes otherwise than the program.

Debian's cron 3.0pl1-162 ignores a table whole for each line at fault (user.c:283), a last line without a newline (user.c:264), too
many lines (user.c:316), and for the file itself (database.c:307 process_crontab). cronie 1.7.2 leaves out a line alone (user.c:143),
and ignores a table for the file itself (database.c:69 check_open) and for too much that says nothing (user.c:120).
"""
import re
import stat
from collections import namedtuple

from .cron_lines import Owner, cronie_fault, debian_fault, is_said
from .faults import counted, shown

DEBIAN, CRONIE, HEVTSORA = "debian", "cronie", "hevtsora"
CRONS = (DEBIAN, CRONIE, HEVTSORA)
CALLED = {DEBIAN: "Debian's cron", CRONIE: "cronie", HEVTSORA: "Hevtsora"}
# The words of the fields ID and ID_LIKE of an os-release, and the cron that such a system has.
SYSTEMS = {
    **dict.fromkeys("debian ubuntu raspbian".split(), DEBIAN),
    **dict.fromkeys("fedora rhel centos suse opensuse sles arch gentoo mageia".split(), CRONIE),
    "hevtsora": HEVTSORA,
}
RELEASES = ("/etc/os-release", "/usr/lib/os-release")
# Where no os-release tells it, a folder of users' crontabs does.
SPOOLS = {"/var/spool/cron/crontabs": DEBIAN, "/var/spool/cron/tabs": CRONIE}
# The only folder of users' crontabs that Debian's cron reads (pathnames.h).
DEBIAN_SPOOL = "/var/spool/cron/crontabs"
DEBIAN_MOST_LINES = 10_000
# A table that crontab(1) has installed begins with so many lines of its own (cron.h:105).
DEBIAN_LINES_OF_CRONTAB = 3
CRONIE_MOST_GARBAGE = 32_768
DEBIAN_NAME = re.compile("[A-Za-z0-9_-]+")
CRONIE_NO_NAME = re.compile(r"[.#].*|.*~|.+\.rpm(save|orig|new)", re.DOTALL)
CRON_TZ = re.compile(b"[ \t]*['\"]?CRON_TZ['\"]?[ \t]*=")
PLAIN = "# CRON_TZ is a plain variable here"

# The cron of a machine, and what says so.
Cron = namedtuple("Cron", "name source")
# What a cron does with a table: why it ignores it, each reason with its line, which is 0 for the file's own; why it ignores single
# lines; and the lines that the program gets in other words, of each the words, and how many bytes are gone at its front.
Verdict = namedtuple("Verdict", "reasons lines changed", defaults=[(), {}, {}])


def called(cron):
    """What a cron is called."""
    return CALLED[cron]


def cron_of(root):
    """The cron of a root: by its os-release, or else by the folders of its users' crontabs."""
    for path in RELEASES:
        for word in words_of_release(root, path):
            if word in SYSTEMS:
                return Cron(of_package(root, SYSTEMS[word]), shown(root.shown(path)))
    for path, name in SPOOLS.items():
        if root.has(path):
            return Cron(name, shown(root.shown(path)))
    return Cron(HEVTSORA, f"default: neither {shown(root.shown(RELEASES[0]))} nor a spool tells another")


def of_package(root, name):
    """The cron of a system: on Debian cronie may be installed in its place, whose daemon is crond."""
    is_cronie = name == DEBIAN and root.has("/usr/sbin/crond") and not root.has("/usr/sbin/cron")
    return CRONIE if is_cronie else name


def words_of_release(root, path):
    """The words of the fields ID and ID_LIKE of an os-release, in this order."""
    try:
        text = root.read(path).decode("utf-8", "replace")
    except OSError:
        return []
    fields = dict(re.findall(r"(?m)^(ID|ID_LIKE)=[\"']?([^\"'\n]*)", text))
    return [*fields.get("ID", "").split(), *fields.get("ID_LIKE", "").split()]


def why_no_name(cron, name):
    """Why a cron takes no file of that name from /etc/cron.d; none where it does."""
    if cron == CRONIE:
        return "cronie takes no name that begins with `.` or `#`, or ends with `~` or as rpm has it" if is_no_name(name) else None
    return None if DEBIAN_NAME.fullmatch(name) else "cron takes names of letters, digits, `_` and `-`"


def is_no_name(name):
    """Whether cronie takes no file of that name (database.c:619)."""
    return bool(CRONIE_NO_NAME.fullmatch(name))


def file_reasons(cron, status, link, uid, is_system):
    """Why a cron ignores a file for what it is. `link` is what stands at its path, the file or a link, and `uid` its user's number."""
    if cron == DEBIAN:
        yield from debian_file_reasons(status, link, uid, is_system)
    if cron == CRONIE:
        # database.c:69 check_open
        if status.st_mode & 0o7533 != 0o400:
            yield f"its mode is {mode_of(status)}, and the owner has to read it, nobody to execute it, and no other to write it"
        if status.st_uid not in ({0} if is_system else {0, uid}):
            yield f"it belongs to the user of number {status.st_uid}"
        if not is_system and status.st_nlink != 1:
            yield f"it has {counted(status.st_nlink, 'name')}"


def debian_file_reasons(status, link, uid, is_system):
    """The same of Debian's cron (database.c:332 to 442)."""
    if stat.S_ISLNK(link.st_mode) and (not is_system or link.st_uid != 0):
        yield "it is a link" if not is_system else "it is a link that doesn't belong to root"
    if status.st_uid not in ({0} if is_system else {0, uid}):
        yield f"it belongs to the user of number {status.st_uid}"
    if is_system and status.st_mode & 0o022:
        yield f"its mode is {mode_of(status)}, and root alone may write it"
    if not is_system and status.st_mode & 0o7777 != 0o600:
        yield f"its mode is {mode_of(status)} in place of 600"
    if status.st_nlink != 1:
        yield f"it has {counted(status.st_nlink, 'name')}"


def mode_of(status):
    """The mode of a file, in octal digits."""
    return f"{stat.S_IMODE(status.st_mode):o}"


def verdict_of(cron, data, owner, is_installed):
    """What a cron does with the bytes of a table. `is_installed` tells whether it stands where the cron reads it."""
    if cron == DEBIAN:
        return debian_verdict(data, owner, is_installed)
    return cronie_verdict(data, owner) if cron == CRONIE else Verdict()


def debian_verdict(data, owner, is_installed):
    """What Debian's cron does with a table."""
    *lines, rest = data.split(b"\n")
    reasons, changed, said = [], {}, 0
    for number, line in enumerate(lines, 1):
        word = debian_fault(line, owner)
        said = number if is_said(line) else said
        if word:
            reasons.append((number, explained(DEBIAN, word, line)))
        elif CRON_TZ.match(line):
            changed[number] = (PLAIN, 0)
    if is_said(rest):
        reasons.append((0, "its last line has no newline"))
    # crontab(1) counts each line (crontab.c:897), and the daemon those before the last one that says something (user.c:312).
    most = DEBIAN_MOST_LINES + DEBIAN_LINES_OF_CRONTAB if is_installed else DEBIAN_MOST_LINES
    if (said if is_installed else len(lines)) > most:
        reasons.append((0, f"it has more than {most:,} lines"))
    return Verdict(reasons, {}, changed)


def cronie_verdict(data, owner):
    """What cronie does with a table."""
    *lines, rest = data.split(b"\n")
    faults, changed, garbage, reasons = {}, {}, 0, []
    for number, line in enumerate(lines, 1):
        garbage += len(line) + 1 if not is_said(line) else len(line) - len(line.lstrip(b" \t")) + 1
        if garbage > CRONIE_MOST_GARBAGE and not owner.is_system and not reasons:
            reasons.append((number, f"more than {CRONIE_MOST_GARBAGE:,} bytes of comments and blanks stand before an entry"))
        if not is_said(line):
            continue
        garbage = 0
        word = cronie_fault(line, owner)
        front = len(line) - len(line.lstrip(b" \t"))
        if word:
            faults[number] = explained(CRONIE, word, line)
        if line[front : front + 1] == b"-" and word != "bad option":
            changed[number] = (line[:front] + line[front + 1 :], 1)
    if is_said(rest):
        faults[len(lines) + 1] = "missing newline before EOF"
    return Verdict(reasons, faults, changed)


def explained(cron, word, line):
    """The words of a cron's log for a line at fault, with what is behind them."""
    text = line.strip(b" \t")
    fields = text.split()[:5]
    if re.fullmatch(rb"\w+\s*=\s*", text):
        more = 'a variable without a value; write `NAME=""`'
    elif re.match(rb"\w+\s*=\s*['\"]", text):
        more = "the quotes don't stand round the whole value"
    elif cron == DEBIAN and word == "bad minute" and text.startswith(b"-"):
        more = "cronie alone takes a `-` before an entry"
    elif word.startswith(("bad m", "bad h", "bad d")) and any(b"?" in field for field in fields):
        more = "no cron takes a `?`"
    elif word == "bad command" and len(fields) == 5 and len(text.split()) > 5 and text.split()[5].startswith(b"*"):
        more = "the command begins with `*`, as where a line has six fields"
    elif word == "command too long":
        more = "it has 999 bytes or more"
    else:
        more = {"bad username": "no user has that name"}.get(word)
    return f"{word}: {more}" if more else word


def owner_of(table, users):
    """What a table is for its cron, of which the users of the machine are known."""
    is_root = table.user is not None and (table.user == "root" or users.uid_of(table.user) == 0)
    return Owner(table.kind == "system", lambda name: users.knows(name.decode("utf-8", "surrogateescape")), is_root)
