"""The zones that are named, and their TZif files."""
import errno
import os
import re

from .clocks import UTC, ZoneFault, read_zone
from .faults import caused, shown, why

NAME = re.compile("[A-Za-z0-9/_+-]{1,64}")
MOST_ZONES = 32
# Why there is no zone of a name: there is no such file, or it is a folder or the like. All else is wrong with the file.
NO_ZONE = (errno.ENOENT, errno.ENOTDIR, errno.EINVAL)


class Zones:
    """The zones of a run. Each is read once it is named."""

    def __init__(self, folder, read):
        self.folder = folder
        self.read = read
        self.files = {}
        self.local_times = {"UTC": UTC}

    def fault_of(self, name):
        """What is wrong with a zone's name; where nothing is, the zone is one of the run."""
        if name in self.local_times:
            return None
        if not is_name(name):
            return caused(21, f"`{shown(name)}` is no zone's name")
        file = os.path.join(self.folder, name)
        try:
            data = self.read(name)
        except OSError as fault:
            if fault.errno in NO_ZONE:
                return caused(21, f"there is no zone {name}: {shown(file)}: {why(fault)}")
            return caused(32, f"the zone {name} can't be taken: {shown(file)}: {why(fault)}")
        return self.fault_of_file(name, file, data)

    def fault_of_file(self, name, file, data):
        """What is wrong with a zone's file; where nothing is, the zone is one of the run. UTC is one without a file."""
        if name in self.local_times:
            return None
        try:
            local_time = read_zone(name, data)
        except ZoneFault as fault:
            return caused(32, f"the zone {name} can't be taken: {shown(file)} {fault}")
        if len(self.files) == MOST_ZONES:
            return caused(34, f"the zone {name} is one too many: a run has at most {MOST_ZONES}")
        self.files[name] = data
        self.local_times[name] = local_time
        return None

    def bytes_of(self, name):
        """The bytes of a zone's file, which needn't be one of the run; none where it can't be read."""
        try:
            return self.read(name) if is_name(name) else None
        except OSError:
            return None

    def are_the_same(self, one, other):
        """Whether two names are those of one zone: they are the same, or their files are."""
        data = self.bytes_of(one)
        return one == other or (data is not None and data == self.bytes_of(other))

    def lines(self):
        """The lines of the zones, by name."""
        return [f"zone {name} tzif {data.hex()}" for name, data in sorted(self.files.items())]


def is_name(text):
    """Whether a text may be a zone's name."""
    return bool(NAME.fullmatch(text)) and "" not in text.split("/")
