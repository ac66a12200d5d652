"""Which launches of a log are missing, late, twice there or not due. A launch is on time in the minute in which it is due."""
from bisect import bisect_right
from collections import Counter, namedtuple

from .commands import forms_of

# What is found: the kind, the minute at which it is due, the second at which it was launched, its entry, and the event.
Finding = namedtuple("Finding", "kind due second entry event")
ON_TIME, LATE, MISSING, TWICE = "on time", "late", "missing", "twice"
NOT_DUE, NO_TABLE, AT_START = "not due", "no table", "at start"
# A message that was cut within a command has at least so many letters of it.
LEAST_CUT = 100


class Group:
    """The entries that a log can't tell apart, as they have one user and one command: their due instants in order, and their
    launches."""

    def __init__(self, entry):
        self.entry = entry
        self.dues = []
        self.events = []
        self.is_at_start = False

    def add(self, entry):
        self.dues += [(due, entry) for due in entry.dues]
        self.is_at_start |= entry.is_at_start

    def findings(self, near):
        """What became of each due instant and of each launch. A launch is one of the last due instant before it that has none,
        unless another one is due later; then it is so by `near` minutes at most."""
        dues = sorted(self.dues, key=lambda due: due[0])
        minutes = [due for due, _ in dues]
        launched, more = [None] * len(dues), []
        free = {}
        for place in reversed(range(len(dues))):
            free.setdefault(minutes[place], []).append(place)
        for event in sorted(self.events, key=lambda event: event.stamp):
            places = free.get(event.stamp // 60)
            if places:
                launched[places.pop()] = event
            else:
                more.append(event)
        for event in more:
            place = last_free(minutes, launched, event.stamp // 60, near)
            if place is None:
                yield self.extra(minutes, dues, event)
            else:
                launched[place] = event
        for (due, entry), event in zip(dues, launched):
            kind = MISSING if event is None else ON_TIME if event.stamp // 60 == due else LATE
            yield Finding(kind, due, event and event.stamp, entry, event)

    def extra(self, minutes, dues, event):
        """A launch that is of no due instant."""
        place = bisect_right(minutes, event.stamp // 60) - 1
        if place >= 0 and minutes[place] == event.stamp // 60:
            return Finding(TWICE, minutes[place], event.stamp, dues[place][1], event)
        return Finding(AT_START if self.is_at_start else NOT_DUE, None, event.stamp, self.entry, event)


def last_free(minutes, launched, minute, near):
    """The place of the due instant that a launch of a minute may be of; none where there is none."""
    last = bisect_right(minutes, minute) - 1
    place = last
    while place >= 0 and (place == last or minutes[place] >= minute - near):
        if launched[place] is None:
            return place
        place -= 1
    return None


class Groups:
    """The entries of tables, by how a log tells of them."""

    def __init__(self, entries):
        self.groups = {}
        self.by_form = {}
        self.by_name = {}
        for entry in entries:
            forms = forms_of(entry.command)
            group = self.groups.setdefault((entry.user, forms[0]), Group(entry))
            group.add(entry)
            for form in forms:
                self.by_form.setdefault((entry.user, form), group)
            self.by_name[entry.name] = entry

    def group_of(self, event):
        """The group of a launch that a log tells of; none where no table has such an entry."""
        is_whole = event.command.endswith(")")
        said = (event.command[:-1] if is_whole else event.command).strip(" ")
        for user in (event.user, None):
            if (user, said) in self.by_form:
                return self.by_form[user, said]
        return None if is_whole or len(said) < LEAST_CUT else self.group_of_front(event.user, said)

    def group_of_front(self, who, said):
        """The group of a launch whose command was cut."""
        for (user, form), group in self.by_form.items():
            if user in (who, None) and form.startswith(said):
                return group
        return None

    def named(self):
        """Groups of one entry each, by their names."""
        found = {}
        for name, entry in self.by_name.items():
            found[name] = Group(entry)
            found[name].add(entry)
        return found


def findings_of(entries, log, first, end, near):
    """What is found of a log from one minute on and before another, by time."""
    groups = Groups(entries)
    named, found = groups.named(), []
    is_named = any(event.name for event in log.events)
    for event in log.events:
        if not first * 60 <= event.stamp < end * 60:
            continue
        group = named.get(event.name.rpartition("@")[0] or event.name) if event.name else groups.group_of(event)
        if group is None:
            found.append(Finding(NO_TABLE, None, event.stamp, None, event))
        else:
            group.events.append(event)
    for group in (named if is_named else groups.groups).values():
        found += [it for it in group.findings(near) if it.kind != MISSING or it.due >= first]
    found = [it for it in found if it.kind != ON_TIME or it.due >= first]
    return sorted(found, key=lambda it: (it.second if it.due is None else 60 * it.due, it.second or 0))


def counts_of(findings):
    return Counter(finding.kind for finding in findings)
