"""The lines of a log: those of cron that tell of a launch, or lines of a stamp and a job's name."""
import json
import re
from collections import deque, namedtuple

from .stamps import ISO, OLD, Years, first_year, iso_second, old_parts

# A launch that a line tells of: its stamp and then its second, the user and the command as they are written, or the job's name.
Event = namedtuple("Event", "stamp user command name")
# A log: its events in order, and its first and its last second, each with whether it is one of a stamp that has seconds.
Log = namedtuple("Log", "events first last has_seconds lines")
TOLD = re.compile(r"(?:^|[ /])crond?(?:\[\d+\])?: \((.+?)\) CMD \((.*)", re.IGNORECASE | re.DOTALL)
TOLD_IN_FIELDS = re.compile(r"\((.+?)\) CMD \((.*)", re.DOTALL)
CRON = re.compile(r"(?:/\S*/)?crond?", re.IGNORECASE)
# RFC 5424: its stamp, the program, and what stands behind the structured data.
FIELDS = re.compile(r"<\d+>1 (\S+) \S+ (\S+) \S+ \S+ (?:-|(?:\[(?:[^\]\\]|\\.)*\])+)(?: \ufeff?(.*))?", re.DOTALL)
NAMED = re.compile(rf"({ISO.pattern}) (\S+)")
FRONT = re.compile(rf"(?:<\d+>)?(?:({ISO.pattern})|({OLD.pattern})) ")
# A message that isn't text.
IN_BYTES = re.compile(r'"MESSAGE" ?: ?\[')
MICROSECONDS = 1_000_000
LAST_LINES = 100


class Reader:
    """Reads the lines of a log. Stamps of one minute come again and again, and are read once."""

    def __init__(self):
        self.known = {}
        self.first = None
        self.tail = deque(maxlen=LAST_LINES)
        self.events = []
        self.count = 0

    def read(self, lines):
        for line in lines:
            line = line.rstrip("\r\n")
            self.count += 1
            if self.first is None:
                self.first = self.stamp_of(line)
            self.tail.append(line)
            event = self.event_of(line)
            if event:
                self.events.append(event)
        return self

    def last(self):
        """The stamp of the last line that has one."""
        stamps = (self.stamp_of(line) for line in reversed(self.tail))
        found = next((stamp for stamp in stamps if stamp is not None), None)
        return found if found is not None or not self.events else self.events[-1].stamp

    def read_stamp(self, text):
        if text not in self.known:
            second = iso_second(text)
            self.known[text] = old_parts(text) if second is None else second
        return self.known[text]

    def stamp_of(self, line):
        """The stamp of a line, whatever it says; none where it has none."""
        if line.startswith("{"):
            return stamp_of_entry(entry_of(line))
        fields = FIELDS.fullmatch(line)
        if fields:
            return self.read_stamp(fields[1])
        front = FRONT.match(line + " ")
        return self.read_stamp(front[1] or front[12]) if front else None

    def event_of(self, line):
        """The launch that a line tells of; none where it tells of none."""
        if line.startswith("{"):
            return event_of_entry(entry_of(line)) if " CMD (" in line or IN_BYTES.search(line) else None
        if " CMD (" not in line:
            return self.named_event(line)
        fields = FIELDS.fullmatch(line)
        if fields:
            found = TOLD_IN_FIELDS.fullmatch(fields[3] or "") if CRON.fullmatch(fields[2]) else None
            stamp = self.read_stamp(fields[1])
        else:
            found, front = TOLD.search(line), FRONT.match(line)
            stamp = self.read_stamp(front[1] or front[12]) if found and front else None
        return Event(stamp, found[1], found[2], None) if found and stamp is not None else None

    def named_event(self, line):
        found = NAMED.fullmatch(line) if line[:1].isdigit() else None
        stamp = self.read_stamp(found[1]) if found else None
        return Event(stamp, None, None, found[12]) if stamp is not None else None


def entry_of(line):
    """An entry of a journal, as journalctl writes it; none where the line is none."""
    try:
        entry = json.loads(line)
    except ValueError:
        return {}
    return entry if isinstance(entry, dict) else {}


def stamp_of_entry(entry):
    stamp = entry.get("__REALTIME_TIMESTAMP")
    return int(stamp) // MICROSECONDS if isinstance(stamp, str) and stamp.isdigit() else None


def event_of_entry(entry):
    """The launch that an entry of a journal tells of. A message that isn't text is a list of bytes there."""
    message, stamp = entry.get("MESSAGE"), stamp_of_entry(entry)
    if isinstance(message, list):
        message = bytes(message).decode("utf-8", "surrogateescape")
    found = TOLD_IN_FIELDS.fullmatch(message) if isinstance(message, str) else None
    is_of_cron = CRON.fullmatch(str(entry.get("SYSLOG_IDENTIFIER") or entry.get("_COMM") or ""))
    return Event(stamp, found[1], found[2], None) if found and is_of_cron and stamp is not None else None


def log_of(lines, clock, year, now):
    """The log of lines. Stamps that lack a zone have that clock, and those that lack a year have years from one on; where the year
    is none, the last stamp isn't ahead of `now`."""
    reader = Reader().read(lines)
    stamps = [reader.first, *(event.stamp for event in reader.events), reader.last()]
    stamps = [stamp for stamp in stamps if stamp is not None]
    years = Years(clock, first_year(stamps, clock, now) if year is None else year)
    seconds = [years.second(stamp) for stamp in stamps]
    if not stamps or None in seconds:
        return Log([], None, None, True, reader.count)
    events = [event._replace(stamp=second) for event, second in zip(reader.events, seconds[1:])]
    has_seconds = not events or any(event.name is None for event in events) or any(second % 60 for second in seconds)
    return Log([event for event in events if event.stamp is not None], seconds[0], seconds[-1], has_seconds, reader.count)
