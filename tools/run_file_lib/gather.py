"""Gathers the zones, the tables and the script of a run file, and tells what it finds."""
import os
from functools import lru_cache

from script_lib.plain import is_kept

from .daemons import HEVTSORA, Cron, Verdict, called, cron_of, file_reasons, owner_of, verdict_of
from .faults import Stop, at, caused, counted, lines_told, same_in, shown, why
from .findings import Findings
from .labels import label_of
from .machine_zone import MachineZone, machine_zone, other_zones
from .options import head_of, number_of
from .origins import RunFile, Script, Section, lines_of_versions, placed_versions
from .places import MOST_BYTES, OPTION, SPOOL, Finder, Root, Table, read_file, read_regular
from .stamps import MOST_DAYS, Clock, judge_length
from .tables import LEFT_OUT, JobCount, TableReader, end_fault, lines_of, text_fault, told_once
from .users import PASSWD, Users, orphan_note, split_users
from .versions import versions_of
from .zones import Zones

# As many days as there are in the years of the program.
MOST_DAYS_OF_A_LIST = 83_644


class Gatherer:
    """What a run file is made of, for one run of the command."""

    def __init__(self, options, environment, streams):
        self.options = options
        self.environment = environment
        self.streams = streams
        self.root = Root(options.root)
        self.users = Users(self.root)
        self.cron = Cron(options.cron, "--cron") if options.cron else cron_of(self.root)
        self.zones = self.zones_of_the_run()
        self.zone = "UTC"
        self.names = set()
        self.labels = set()
        # What an option names may be a pipe, which can't be read again.
        self.read_once = lru_cache(maxsize=None)(read_file)
        self.files = {}
        self.faults = 0
        self.findings = Findings(self.cron.name) if options.check else None

    def run_file(self, now):
        """The run file, with the origins of its sections."""
        return self.run_file_of(None, now)

    def run_file_of(self, tables, now):
        """The run file of tables, or of those that the options and the root have."""
        self.zone = zone = self.zone_of_the_tables()
        self.comment(f"the cron is {called(self.cron.name)}, by {self.cron.source}")
        window = self.window_of_the_run(zone, now)
        head = head_of(self.options, window)
        versions = versions_of(self, self.tables() if tables is None else tables, window)
        script = self.script()
        if self.faults:
            raise Stop(f"run_file: nothing is written, for {counted(self.faults, 'fault')}; --skip leaves out what is at fault")
        if not self.labels:
            self.comment("there is no table")
        front = [*head, *self.zones.lines()]
        versions = list(placed_versions(versions, len(front) + 1))
        lines = [*front, *lines_of_versions(versions), "script"]
        data = "\n".join([*lines, *script.values(), "end", ""]).encode()
        if len(data) > MOST_BYTES:
            size = f"the run file would have {len(data):,} bytes, and the program takes {MOST_BYTES:,}"
            raise Stop(f"run_file: {caused(33, size)}")
        script = Script(self.options.script, len(lines) + 1, list(script)) if script else None
        return RunFile(data, [section for version in versions for section in version.sections], window, script, versions)

    def comment(self, text):
        """Tells what is no fault."""
        self.streams.note(f"# {text}")

    def tell(self, file, text):
        """Tells of a file what is no fault."""
        self.comment(f"{shown(file)} {text}")

    def trouble(self, file, lines, text):
        """Tells a fault of lines, or of a file: what is at fault is left out by --skip, told by --check at the end, and stops the
        command otherwise."""
        if self.findings:
            self.findings.add(file, lines, text)
            return
        text = text + same_in(lines[1:])
        if self.options.skip:
            self.streams.note(at(file, lines[0], f"left out: {text}"))
        else:
            self.faults += len(lines)
            self.streams.note(at(file, lines[0], text))

    def tell_unreadable(self, file, reason, origin):
        """Tells that a file or a folder can't be read. Of users' crontabs that is no fault."""
        if origin == SPOOL:
            self.tell(file, f"can't be read: {reason}")
        else:
            self.trouble(file, [0], f"it can't be read: {reason}")

    def zones_of_the_run(self):
        """The zones, none of them read yet."""
        folder = self.options.zoneinfo
        if folder is not None:
            return Zones(folder, lambda name: read_regular(os.path.join(folder, name)))
        usual = "/usr/share/zoneinfo"
        return Zones(self.root.shown(usual), lambda name: self.root.read(f"{usual}/{name}"))

    def window_of_the_run(self, zone, now):
        """The window, which may be a long one where the program isn't asked about all of it at once."""
        clock = Clock(zone, self.zones.local_times[zone])
        options = self.options
        is_long = options.list or (options.change and not options.at)
        most = MOST_DAYS_OF_A_LIST if is_long else MOST_DAYS
        window = clock.window(options, now, 1 if options.days is None else number_of("--days", options.days, 1, most))
        if not is_long:
            judge_length(window)
        for text in window.notes:
            self.comment(text)
        return window

    def zone_of_the_tables(self):
        """The name of the zone of all sections."""
        named = self.options.zone
        if named is None:
            zone = machine_zone(self.root, self.zones)
        else:
            zone = MachineZone(named, "--zone")
            fault = self.zones.fault_of(named)
            if fault:
                raise Stop(at("--zone", 0, fault))
        self.comment(f"the zone of the tables is {zone.name}, by {zone.source}")
        if named is None:
            # The variable is that of this machine, and says nothing of a copied file system.
            variable = self.environment.get("TZ") if self.options.root == "/" else None
            for text in other_zones(self.root, self.zones, zone.name, variable):
                self.comment(text)
        return zone.name

    def tables(self):
        """The tables that the options name, or else those of the root."""
        options = self.options
        if not options.system and not options.user and not options.anacron:
            return self.finder().tables()
        system = [Table("system", file, file, OPTION) for file in options.system]
        anacron = [Table("anacrontab", file, file, OPTION) for file in options.anacron]
        users = [self.user_table(name, file) for name, file in split_users(options.user)]
        return [*system, *users, *anacron]

    def finder(self):
        """What looks for the tables of the root."""
        return Finder(self.root, self.cron.name, self.users, self.tell, self.tell_unreadable)

    def user_table(self, name, file):
        """The table of an option for a user, or for none."""
        if name is None:
            return Table("crontab", file, file, OPTION)
        if self.cron.name == HEVTSORA and self.users.knows(name) is False:
            self.tell(file, orphan_note(self.root, name))
        return Table("crontab", self.root.spool_path(name), file, OPTION, name)

    def data_of(self, table):
        """The bytes of a table; none where it can't be read, or was read already, which is told."""
        try:
            if table.origin == OPTION:
                real, data = os.path.realpath(table.file), self.read_once(table.file)
            else:
                real, data = self.root.real(table.path), self.root.read(table.path)
        except OSError as fault:
            self.tell_unreadable(table.file, why(fault), table.origin)
            return None
        if real in self.files:
            self.tell(table.file, f"is passed over: it is {shown(self.files[real])} again")
            return None
        self.files[real] = table.file
        return data

    def verdict(self, table, data):
        """What the machine's cron does with a table. It reads no anacrontab."""
        cron = self.cron.name
        if cron == HEVTSORA or table.kind == "anacrontab":
            return Verdict()
        verdict = verdict_of(cron, data, owner_of(table, self.users), table.origin != OPTION)
        reasons = list(verdict.reasons)
        if table.origin != OPTION and (self.root.is_own or self.options.modes):
            uid = None if table.user is None else self.users.uid_of(table.user)
            reasons += [(0, text) for text in file_reasons(cron, *self.root.states(table.path), uid, table.kind == "system")]
        if table.user is not None and self.users.knows(table.user) is False:
            reasons.append((0, f"{shown(table.user)} isn't in {shown(self.root.shown(PASSWD))}"))
        return verdict._replace(reasons=sorted(reasons))

    def section(self, table, zone, label=None):
        """The section of a table; none where it can't be read, or the machine's cron ignores it. It may have a label already."""
        data = self.data_of(table)
        if data is None:
            return None
        verdict = self.verdict(table, data)
        if self.findings:
            self.findings.begin(table.file)
            self.findings.add_verdict(table.file, verdict)
        elif verdict.reasons:
            self.tell_ignored(table.file, verdict.reasons)
            return None
        label = label or label_of(table.path, self.labels)
        self.labels.add(label)
        lines = self.lines_for_the_program(table.file, lines_of(data), verdict)
        reader = TableReader(table.kind, self.zones, JobCount(self.names, label), table.user, self.options.check)
        reader.read(lines)
        fronts = {number: size for number, (_, size) in verdict.changed.items() if size}
        section = Section(table.kind, label, zone, table.file, 0, reader.kept, reader.jobs, fronts)
        self.tell(table.file, f"is {label}, {counted(len(reader.jobs), 'job')}")
        if reader.picked and (table.origin, table.path) == (OPTION, table.file):
            self.tell_picked(table.file, reader.picked)
        self.tell_troubles(table.file, reader.troubles)
        if self.options.skip:
            for job in reader.jobs:
                self.comment(f"{shown(label + job.ending)} is {shown(table.file)}:{job.line}")
        return section

    def tell_ignored(self, file, reasons):
        """Tells why the machine's cron ignores a table."""
        (line, text), *more = reasons
        end = f"; and for {counted(len(more), 'more fault')}" if more else ""
        self.comment(at(file, line, f"{called(self.cron.name)} ignores this file: {text}{end}"))

    def lines_for_the_program(self, file, lines, verdict):
        """The lines of a table as the program gets them: without those that the machine's cron ignores, or takes otherwise."""
        for number, (text, size) in verdict.changed.items():
            lines[number - 1] = text if isinstance(text, str) else text.decode("utf-8", "surrogateescape")
        self.tell_changed(file, verdict.changed)
        if not self.findings:
            for number, text in verdict.lines.items():
                self.comment(at(file, number, f"{called(self.cron.name)} ignores this line: {text}"))
                lines[number - 1] = LEFT_OUT
        return lines

    def tell_changed(self, file, changed):
        """Tells of the lines that the program gets in other words."""
        plain = [number for number, (_, size) in changed.items() if not size]
        others = [number for number, (_, size) in changed.items() if size]
        if plain:
            self.tell(file, f"has CRON_TZ in {where(plain)}), a plain variable to {called(self.cron.name)}")
        if others:
            self.tell(file, f"has a `-` before the entry in {where(others)}); it is read without it")

    def tell_picked(self, file, lines):
        """Tells of a user's table that an option names without the user where it has a `?`."""
        given = f"--user NAME={shown(file)} gives the label that it has as the crontab of NAME"
        self.tell(file, f"has a `?` in {where(lines)}), whose value is picked by the label: {given}")

    def tell_troubles(self, file, troubles):
        """Tells what is wrong with a table. What only stands on a line that is at fault is told where both are left out."""
        told = [trouble for trouble in troubles if self.options.skip or not trouble.follows]
        for text, lines in told_once(told):
            self.trouble(file, lines, text)

    def script(self):
        """The lines of the script that say something, by their numbers. The program says what is wrong with them, but for what no
        line may have."""
        file = self.options.script
        if file is None:
            return {}
        try:
            lines = lines_of(read_file(file))
        except OSError as fault:
            raise Stop(at(file, 0, f"it can't be read: {why(fault)}")) from fault
        script = {number: line for number, line in enumerate(lines, 1) if is_kept(line)}
        for number, line in script.items():
            fault = text_fault(line) or end_fault(line)
            if fault or line == "end":
                raise Stop(at(file, number, fault or caused(30, "the line `end` is written by run_file")))
        if lines:
            self.comment(f"{shown(file)} is the script")
        return script


def where(lines):
    """How many lines there are, and which, but for the bracket at the end."""
    return f"{counted(len(lines), 'line')} ({lines_told(lines)}"
