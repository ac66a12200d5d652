"""The zone of a machine: that of /etc/localtime, by which the C library goes, and so cron."""
import os
from collections import namedtuple

from .faults import Stop, at, shown, why
from .places import MOST_LINKS

# A zone's name, and what says so.
MachineZone = namedtuple("MachineZone", "name source")

LOCAL, NAMED = "/etc/localtime", "/etc/timezone"
# The name of a zone that has none.
UNNAMED = "localtime"
UTC_NAMES = ("UTC", "Etc/UTC")
ANOTHER = "name the zone by --zone"


def machine_zone(root, zones):
    """The zone of a machine, as one of the run's zones. Without /etc/localtime it is UTC."""
    if not root.has(LOCAL):
        return MachineZone("UTC", f"default: there is no {shown(root.shown(LOCAL))}")
    file = root.shown(LOCAL)
    name = zone_of_links(root, LOCAL)
    if name is None:
        return unnamed_zone(root, zones)
    fault = zones.fault_of(name)
    if fault:
        raise Stop(at(file, 0, f"{fault}; {ANOTHER}"))
    return MachineZone(name, shown(file))


def zone_of_links(root, path):
    """The zone in whose place in a zoneinfo folder a link leads, also by other links; none where it leads elsewhere."""
    for _ in range(MOST_LINKS):
        try:
            file = root.place(path)
        except OSError:
            return None
        if not os.path.islink(file):
            return None
        target = os.readlink(file)
        if "zoneinfo/" in target:
            return zone_of_path(target)
        path = os.path.normpath(os.path.join(os.path.dirname(path), target))
    return None


def unnamed_zone(root, zones):
    """The zone of a file that leads to no zoneinfo folder. Where /etc/timezone names the same file, that is its name."""
    file = root.shown(LOCAL)
    try:
        data = root.read(LOCAL)
    except OSError as fault:
        raise Stop(at(file, 0, f"it can't be read: {why(fault)}; {ANOTHER}")) from fault
    named = zone_in_file(root)
    if named and zones.bytes_of(named) == data:
        name, source = named, f"{shown(file)}, which is its file"
    else:
        name, source = UNNAMED, f"{shown(file)}, which doesn't tell its name"
    fault = zones.fault_of_file(name, file, data)
    if fault:
        raise Stop(at(file, 0, f"{fault}; {ANOTHER}"))
    return MachineZone(name, source)


def zone_in_file(root):
    """The zone that the first line of /etc/timezone names which isn't empty; none where there is none."""
    try:
        lines = root.read(NAMED).decode("utf-8", "surrogateescape").split("\n")
    except OSError:
        return None
    return next((line.strip() for line in lines if line.strip()), None)


def zone_in_variable(text):
    """The zone that the variable TZ names. Where it is empty, the C library takes UTC."""
    return zone_of_path(text[1:] if text.startswith(":") else text) or "UTC"


def zone_of_path(path):
    """The zone of a path below a zoneinfo folder. Any other path is left as it is."""
    return path.rpartition("zoneinfo/")[2]


def other_zones(root, zones, zone, variable):
    """What names another zone than that of the machine, each as a text. `variable` is that of TZ, where it counts."""
    named = [
        (shown(root.shown(NAMED)), zone_in_file(root), "which cron doesn't read"),
        ("the variable TZ", variable, "but cron goes by its own environment"),
    ]
    for source, text, reason in named:
        name = None if text is None else zone_in_variable(text)
        if name not in (None, LOCAL) and not is_same(zones, zone, name):
            yield f"{source} names {shown(name)}, {reason}; --zone takes another zone"


def is_same(zones, zone, name):
    """Whether a name is that of the machine's zone."""
    return (zone in UTC_NAMES and name in UTC_NAMES) or zones.are_the_same(zone, name)
