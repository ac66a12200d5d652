"""Runs whose outcome is known: of each a name, the run file, and lines that its report and its journal have."""
from .instants import minute_of
from .launches import LAUNCH, End, Start
from .replica import Snap

ONE_HOUR = "window 2024-03-31T00:00Z 2024-03-31T01:00Z"
TWO_HOURS = "window 2024-03-31T00:00Z 2024-03-31T02:00Z"
FOUR_HOURS = "window 2024-03-31T00:00Z 2024-03-31T04:00Z"
AT_ONE = "0 1 * * * x"
ROUNDS = "round 2024-03-31T01:00Z"
DAILY = "alice:1@20240331T0100Z"


def run_file(members, window, grace, entry, script):
    """The text of a run file of one entry."""
    head = ["cronrun 1", f"replicas {members}", window, f"grace {grace}", "crontab alice UTC 1", entry, "script"]
    return "\n".join([*head, *script.split("; "), "end", ""]).replace("\n\n", "\n")


def late_call(script, kind):
    """A launch whose call comes late, by a leader that stops; the next one gives it up unless the call has come by then."""
    counts = "launched 1 void 0" if kind == "launch" else "launched 0 void 1"
    return run_file(3, FOUR_HOURS, 5, AT_ONE, script), [f"job alice:1 {counts}", f"{kind} {DAILY}"]


def of_two_versions(version, table, script, *lines):
    """A run of one hour whose table changes: the first one has a job three times an hour, and below a version's line stands the next."""
    text = run_file(1, ONE_HOUR, 0, "0,20,40 * * * * echo hi", script)
    return text.replace("script\n", f"{version}\n{table}\nscript\n"), list(lines)


CUT = "campaign 0; fate 0 late; round 2024-03-31T01:00Z 4; stop 0; "
TEN_PAST = "campaign 1; round 2024-03-31T01:10Z 5"

# A version from half past on, and its table.
HALF_PAST = "version 1 2024-03-31T00:30Z"
TENS = "crontab alice UTC 1\n10,50 * * * * echo hi"

# Debian's anacrontab, which the package cronie has too.
ANACRON = """\
SHELL=/bin/sh
RANDOM_DELAY=45
START_HOURS_RANGE=3-22
1 5 cron.daily nice run-parts /etc/cron.daily
7 25 cron.weekly nice run-parts /etc/cron.weekly
@monthly 45 cron.monthly nice run-parts /etc/cron.monthly
"""


def anacron(members, script, dates, weeks, months):
    """A run over 40 days of daily, weekly and monthly jobs: how many dates the first has, and the dates of the others."""
    window = "window 2024-03-01T00:00Z 2024-04-10T00:00Z"
    text = f"cronrun 1\nreplicas {members}\n{window}\ngrace 0\nanacrontab anacron UTC 6\n{ANACRON}script\n{script}end\n"
    daily = [f"job anacron/cron.daily launched {dates} void 0"]
    others = {"weekly": weeks, "monthly": months}
    counts = [f"job anacron/cron.{name} launched {len(days)} void 0" for name, days in others.items()]
    return text, daily + counts + [f"launch anacron/cron.{name}@2024-{day}" for name, days in others.items() for day in days]


# From 1 March on, and from the first Monday on.
FRIDAYS = ["03-01", "03-08", "03-15", "03-22", "03-29", "04-05"]
MONDAYS = ["03-04", "03-11", "03-18", "03-25", "04-01", "04-08"]
FIRSTS = ["03-01", "04-01"]

KNOWN = [
    (
        "one replica",
        run_file(1, ONE_HOUR, 0, "0,20,40 * * * * echo hi", ""),
        [
            "job alice:1 launched 3 void 0\nlaunch alice:1@20240331T0000Z",
            "launch alice:1@20240331T0020Z\nlaunch alice:1@20240331T0040Z\nend",
            "command end\n0 0 campaign\n1 0 tick 2024-03-31T00:00Z",
            "2 0 tick 2024-03-31T00:00Z done alice:1@20240331T0000Z launch\n3 0 answer\n4 0 tick 2024-03-31T00:00Z",
        ],
    ),
    ("40 days of dates", *anacron(1, "", 40, FRIDAYS, FIRSTS)),
    ("the same of three replicas", *anacron(3, "", 40, FRIDAYS, FIRSTS)),
    ("nobody leads for three days", *anacron(3, "round 2024-03-04T12:00Z 1\n", 37, MONDAYS, ["03-04", "04-01"])),
    ("a late call that comes behind a void", *late_call(CUT + TEN_PAST + "; arrive 0", "void")),
    ("a late call that comes first", *late_call(CUT + "arrive 0; " + TEN_PAST, "launch")),
    (
        "two candidates, of whom nobody leads",
        run_file(3, FOUR_HOURS, 0, AT_ONE, "campaign 0; campaign 1; cut 0 1; cut 2 1; round 2024-03-31T01:00Z 2"),
        ["job alice:1 launched 1 void 0"],
    ),
    (
        "a snapshot",
        run_file(3, TWO_HOURS, 120, "* * * * * x", "stop 2; campaign 0; round 2024-03-31T01:59Z 600"),
        ["job alice:1 launched 120 void 0"],
    ),
    (
        "letters that are heard again and turned round",
        run_file(3, FOUR_HOURS, 0, AT_ONE, f"campaign 0; {ROUNDS} 2; repeat 0 1; again 0; reverse 1; {ROUNDS} 4"),
        ["job alice:1 launched 1 void 0"],
    ),
    ("just within the grace", run_file(1, FOUR_HOURS, 5, AT_ONE, "round 2024-03-31T01:05Z 1"), ["job alice:1 launched 1 void 0"]),
    ("just behind the grace", run_file(1, FOUR_HOURS, 4, AT_ONE, "round 2024-03-31T01:05Z 1"), ["job alice:1 launched 0 void 1"]),
    (
        "two versions of a table",
        *of_two_versions(
            HALF_PAST,
            TENS,
            "",
            "jobs 1\njob alice:1 launched 3 void 0\nlaunch alice:1@20240331T0000Z",
            "launch alice:1@20240331T0020Z\nlaunch alice:1@20240331T0050Z\nend",
        ),
    ),
    (
        "a version that is adopted late, since nobody leads",
        *of_two_versions(
            HALF_PAST,
            TENS,
            "round 2024-03-31T00:45Z 1",
            "jobs 1\njob alice:1 launched 1 void 3\nvoid alice:1@20240331T0000Z\nvoid alice:1@20240331T0020Z",
            "void alice:1@20240331T0040Z\nlaunch alice:1@20240331T0050Z\nend",
        ),
    ),
    (
        "a version with another job",
        *of_two_versions(
            "version 1 2024-03-31T00:20Z",
            "crontab bob UTC 1\n* * * * * x",
            "",
            "jobs 2\njob alice:1 launched 2 void 0\njob bob:1 launched 39 void 0\nlaunch alice:1@20240331T0000Z",
            "launch alice:1@20240331T0020Z\nlaunch bob:1@20240331T0021Z\nlaunch bob:1@20240331T0022Z",
        ),
    ),
]


def disk_fault(world):
    """What is wrong with the disk of the one replica: it has its ballot, and two votes for each of three launches."""
    replica = world.replicas[0]
    launches = [minute_of(f"2024-03-31T00:{minute}Z") for minute in ("00", "20", "40")]
    entries = [entry for at in launches for entry in (Start(0, at, at), End(0, at, LAUNCH))]
    votes = {slot: (8, entry) for slot, entry in enumerate(entries)}
    is_so = (replica.tried, replica.promised, replica.base, replica.votes) == (1, 8, 0, votes)
    return None if is_so else "leaves another disk"


def snapshot_fault(world):
    """What is wrong where replica 2 has missed more entries than the others keep."""
    sent = [letter.to for letter in world.letters for packet in letter.packets if isinstance(packet, Snap)]
    return None if 2 in sent else "sends replica 2 no snapshot"


# Of some runs more is known.
MORE = {"one replica": disk_fault, "a snapshot": snapshot_fault}
