"""What is wrong with a line of a crontab or of a system table, by the rules of docs/TABLES.md."""
import re

from .faults import caused, shown
from .fields import KINDS, field_fault
from .origins import Job

BLANKS = re.compile("[ \t]+")
ASSIGNMENT = re.compile("([A-Za-z_][A-Za-z0-9_]*)[ \t]*=(.*)", re.DOTALL)
# A name in quotes, which cronie takes and the program doesn't.
QUOTED = re.compile("([\"'])([A-Za-z_][A-Za-z0-9_]*)\\1[ \t]*=.*", re.DOTALL)
USER = re.compile("[A-Za-z_][A-Za-z0-9_.-]{0,31}")
# The fields that each nickname stands for. An entry of `@reboot` has none, and is never due at a minute.
NICKNAMES = {
    "@yearly": "0 0 1 1 *",
    "@annually": "0 0 1 1 *",
    "@monthly": "0 0 1 * *",
    "@weekly": "0 0 * * 0",
    "@daily": "0 0 * * *",
    "@midnight": "0 0 * * *",
    "@hourly": "0 * * * *",
    "@reboot": "",
}
MOST_BYTES_OF_A_COMMAND = 1000


def assignment_of(text):
    """The name and the value of a line that sets a variable; none where it sets none."""
    found = ASSIGNMENT.fullmatch(text)
    if not found:
        return None
    value = found[2].strip(" \t")
    is_quoted = len(value) > 1 and value[0] == value[-1] and value[0] in "\"'"
    return found[1], value[1:-1] if is_quoted else value


def quoted_name_fault(text, cause):
    """What is wrong with a line that sets a variable whose name stands in quotes; none where it is no such line."""
    found = QUOTED.fullmatch(text)
    if not found:
        return None
    return caused(cause, f"the name {found[2]} of the variable stands in quotes; write it without them")


def split_word(text):
    """The first word of a text, and what stands behind the blanks behind it."""
    word, *rest = BLANKS.split(text, 1)
    return word, "".join(rest)


def command_fault(command):
    """What is wrong with a command."""
    if not command:
        return caused(11, "there is no command")
    if len(command.encode("utf-8", "replace")) > MOST_BYTES_OF_A_COMMAND:
        return caused(14, f"the command has more than {MOST_BYTES_OF_A_COMMAND:,} bytes")
    return None


class CrontabLines:
    """The lines of one crontab, judged from the first one on. In a system table each entry has a user."""

    def __init__(self, is_system, zones, owner=None):
        self.is_system = is_system
        self.zones = zones
        # Whose entries these are, and the zone that a CRON_TZ names; none where it is the table's.
        self.owner = owner
        self.zone = None

    def group(self, lines):
        """The lines that are read together: each by itself."""
        return [[line] for line in lines]

    def joined(self, lines):
        """The text of such lines."""
        return lines[0]

    def is_job(self, text):
        """Whether a line that is no comment is an entry."""
        return assignment_of(text) is None

    def job_of(self, number, text, place):
        """The job of a line, which is the entry of that place. The line is good."""
        rest = text
        for _ in [None] if text.startswith("@") else KINDS:
            _, rest = split_word(rest)
        user, command = split_word(rest) if self.is_system else (self.owner, rest)
        return Job(f":{place}", number, command, "", user, self.zone, text)

    def is_picked_by_label(self, text):
        """Whether an entry has a `?`, whose value the label of the table picks. In a system table the user picks it."""
        if self.is_system or text.startswith("@"):
            return False
        return "?" in BLANKS.split(text, len(KINDS))[: len(KINDS)]

    def setting_of(self, text):
        """The name of the variable that a line sets, where the program heeds it."""
        name, _ = assignment_of(text) or ("", "")
        return "CRON_TZ" if name == "CRON_TZ" else None

    def fault_of(self, text):
        """What is wrong with a line that isn't empty, without the blanks before it, and is no comment."""
        assignment = assignment_of(text)
        if text.startswith("@"):
            return self.nickname_fault(text)
        if assignment is None:
            return self.entry_fault(text)
        name, value = assignment
        if name != "CRON_TZ":
            return None
        self.zone = value
        return self.zones.fault_of(value)

    def nickname_fault(self, text):
        """What is wrong with an entry of a nickname."""
        nickname, rest = split_word(text)
        if nickname not in NICKNAMES:
            return caused(13, f"`{shown(nickname)}` is no nickname")
        return self.tail_fault(rest)

    def entry_fault(self, text):
        """What is wrong with an entry of five fields."""
        has_tilde = "~" in split_word(text)[0]
        if text.startswith("-") and not has_tilde:
            return caused(1, "the entry begins with a `-`, which asks cron for no line in its log; leave the `-` out")
        fault = quoted_name_fault(text, 8 if has_tilde else 9)
        if fault:
            return fault
        rest = text
        for kind in KINDS:
            word, rest = split_word(rest)
            if not word:
                return caused(10, f"there is no {kind.name}: an entry has five fields")
            fault = field_fault(kind, word)
            if fault:
                return fault
        return self.tail_fault(rest)

    def tail_fault(self, text):
        """What is wrong with what stands behind the fields or the nickname."""
        if not self.is_system:
            return command_fault(text)
        user, command = split_word(text)
        if not user:
            return caused(12, "there is no user: each entry of a system table has one")
        if not USER.fullmatch(user):
            return caused(12, f"`{shown(user)}` is no user's name")
        return command_fault(command)
