"""Run files made from seeds: tables with few jobs, and scripts in which replicas stop and start, letters are lost, doubled and
reordered, clocks are off, calls fail or come late, and disks stop within a write."""
import random

from .instants import minute_of, stamp_of

FIRST = minute_of("2024-03-31T00:00Z")
OFTEN = ["* * * * *", "*/2 * * * *", "*/5 * * * *", "*/15 * * * *"]
SELDOM = ["0,20,40 * * * *", "7 * * * *", "30 1-3 * * *", "15 0 * * *", "0 */2 31 3 *"]
PERIODS = ["1 5", "2 30", "7 25", "@monthly 45", "@weekly 0", "@yearly 600"]
FATES = ["done", "done", "lost-before", "lost-after", "late", "late"]
MEMBERS = [1, 2, 3, 3, 3, 4, 5, 5, 6, 7]
FREE_TURNS = [1, 2, 3, 5, 8, 12, 20, 30, 70, 130]
# How many calls of a disk are to succeed: few as a rule, and a record takes four of them. Behind so many a launch table takes the place
# of 64 entries, where a replica leads with nothing amiss; two calls behind the last of them it is shown.
CALLS = [0, 1, 2, 2, 2, 3, 3, 3, 4, 5, 6, 7, 7, 8, 10, 11, 14, 30, 2**32 - 1]
TABLE_CALLS = [256, 259, 260, 261, 262, 263, 263, 263, 264, 264, 264, 268]
# The image with the stopped call done, that without it, and those with a byte in its place.
IMAGES = [0, 1, 1, 1, 2, 5, 5, 8, 767, 770, 2**32 - 1, 2**32 - 2]
# How often a command is made, by the order of the commands in Script.add.
WEIGHTS = [16, 4, 3, 4, 2, 2, 2, 2, 2, 2, 1, 6, 3, 0.3, 0.3, 0, 0]
FREE_WEIGHTS = [4, 3, 3, 5, 2, 2, 2, 2, 2, 2, 1, 12, 4, 0.3, 0.3, 16, 0]
BREAK_WEIGHTS = [16, 7, 1, 10, 1, 1, 1, 1, 1, 1, 1, 5, 2, 0.3, 0.3, 5, 18]


class Script:
    """A script in the making: the clock that its rounds go by mostly rises. The weights tell how often each command is made."""

    def __init__(self, chance, members, minutes, weights=WEIGHTS):
        self.weights = weights
        self.chance = chance
        self.members = members
        self.minutes = minutes
        self.now = 0
        self.leader = 0
        self.lines = []

    def stamp(self):
        """An instant of the window, somewhat later than the one before, and seldom any."""
        self.now = min(self.minutes - 1, self.now + self.chance.choice([0, 1, 2, 5, self.minutes // 10]))
        seldom = self.chance.randrange(self.minutes)
        return stamp_of(FIRST + (seldom if self.chance.random() < 0.05 else self.now))

    def who(self):
        """A replica: often the one that stood for leader last."""
        return self.leader if self.chance.random() < 0.4 else self.chance.randrange(self.members)

    def candidate(self):
        self.leader = self.chance.randrange(self.members)
        return self.leader

    def pair(self):
        return f"{self.who()} {self.who()}"

    def fate(self):
        return f"{self.leader} {self.chance.choice(FATES)}"

    def skew(self):
        return self.chance.choice([-10000, -61, -2, 0, 0, 1, 5, 60, 10000])

    def leave_behind(self, rounds=160):
        """Has a replica miss so many entries that it needs a snapshot, where there are as many."""
        leader, missed = self.candidate(), self.members - 1
        last = stamp_of(FIRST + self.minutes - 1)
        self.lines += [f"campaign {leader}", f"round {last} 5", f"stop {missed}", f"round {last} {rounds}"]
        self.lines += [f"restart {missed}", f"free {last} 40" if self.weights is FREE_WEIGHTS else f"round {last} 6"]

    def stop(self):
        """After how many calls a disk stops, and which image that leaves."""
        return f"{self.chance.choice(CALLS)} {self.chance.choice(IMAGES)}"

    def stop_at_snapshots(self):
        """Has a replica miss so many entries that it needs a snapshot, and its disk stop some times as it comes back."""
        self.leave_behind()
        rounds = self.lines.pop()
        for _ in range(4):
            self.lines += [f"restart {self.members - 1}", f"break {self.members - 1} {self.stop()}", rounds]

    def stop_at_tables(self):
        """Has the disk of a leader stop some times, about where a launch table takes the place of entries."""
        last = stamp_of(FIRST + self.minutes - 1)
        for _ in range(self.chance.choice([1, 2, 4])):
            leader = self.candidate()
            self.lines += [f"restart {leader}", f"break {leader} {self.chance.choice(TABLE_CALLS)} {self.chance.choice(IMAGES)}"]
            self.lines += [f"campaign {leader}", f"round {last} {70 if self.members == 1 else 140}"]

    def add(self):
        """Adds a command, rounds more often than any other."""
        makers = {
            "round": lambda: f"{self.stamp()} {self.chance.choice([1, 1, 2, 3, 5, 5, 8, 12, 25, 60])}",
            "campaign": self.candidate,
            "stop": self.who,
            "restart": self.who,
            "cut": self.pair,
            "heal": lambda: "",
            "drop": self.pair,
            "repeat": self.pair,
            "reverse": self.who,
            "again": lambda: self.chance.randrange(200),
            "skew": lambda: f"{self.who()} {self.skew()}",
            "fate": self.fate,
            "arrive": lambda: self.chance.randrange(3),
            "settle": self.stamp,
            "walk": self.stamp,
            "free": lambda: f"{self.stamp()} {self.chance.choice(FREE_TURNS)}",
            "break": lambda: f"{self.who()} {self.stop()}",
        }
        word = self.chance.choices(list(makers), self.weights)[0]
        self.lines.append(f"{word} {makers[word]()}".rstrip())


def tables_of(chance, with_dates):
    """The lines of a crontab, and of an anacrontab beside it where there are dates."""
    instants = SELDOM if with_dates else OFTEN + SELDOM
    entries = [f"{chance.choice(instants)} job" for _ in range(chance.randint(1, 4))]
    lines = [f"crontab alice UTC {len(entries)}", *entries]
    if with_dates:
        periods = [f"{chance.choice(PERIODS)} job.{number} x" for number in range(chance.randint(1, 3))]
        lines += [f"anacrontab etc UTC {len(periods)}", *periods]
    return lines


def script_run(seed):
    """The run file of a seed, in rounds."""
    chance = random.Random(seed)
    members = chance.choice(MEMBERS)
    with_dates = chance.random() < 0.25
    minutes = chance.choice([1440, 2880, 5000] if with_dates else [15, 20, 30, 60])
    window = f"window {stamp_of(FIRST)} {stamp_of(FIRST + minutes)}"
    script = Script(chance, members, minutes)
    for _ in range(chance.choice([1, 5, 10, 20, 30, 45])):
        script.add()
    if chance.random() < 0.12:
        script.leave_behind()
    head = ["cronrun 1", f"replicas {members}", window, f"grace {chance.choice([0, 1, 5, 60, minutes])}"]
    return "\n".join([*head, *tables_of(chance, with_dates), "script", *script.lines, "end", ""])


def free_run(seed):
    """The run file of a seed, in whose script replicas run by themselves; in a few of them one that needs a snapshot."""
    chance = random.Random(seed)
    is_left_behind = chance.random() < 0.06
    members, minutes = (3, 60) if is_left_behind else (chance.choice(MEMBERS), chance.choice([15, 20, 30]))
    tables = ["crontab alice UTC 1", "* * * * * job"] if is_left_behind else tables_of(chance, chance.random() < 0.2)
    script = Script(chance, members, minutes, FREE_WEIGHTS)
    for _ in range(chance.choice([2, 4, 6, 9, 14])):
        script.add()
    if is_left_behind:
        script.leave_behind(400)
    elif not any(line.startswith("free ") for line in script.lines):
        script.lines.append(f"free {stamp_of(FIRST + minutes - 1)} 40")
    window = f"window {stamp_of(FIRST)} {stamp_of(FIRST + minutes)}"
    head = ["cronrun 1", f"replicas {members}", window, f"grace {chance.choice([0, 1, 5, minutes])}"]
    return "\n".join([*head, *tables, "script", *script.lines, "end", ""])


def break_run(seed):
    """The run file of a seed, in whose script disks stop within a write, in rounds and while replicas run by themselves; in some of them
    where a launch table is kept, or where one is heard."""
    chance = random.Random(seed)
    kind = chance.choices(["few", "tables", "left behind"], [70, 15, 15])[0]
    members = chance.choice({"few": MEMBERS, "tables": [1, 1, 1, 2], "left behind": [3]}[kind])
    minutes = chance.choice([15, 20, 30]) if kind == "few" else 120
    tables = tables_of(chance, chance.random() < 0.15) if kind == "few" else ["crontab alice UTC 1", "* * * * * job"]
    script = Script(chance, members, minutes, BREAK_WEIGHTS)
    for _ in range(chance.choice([5, 10, 20, 30, 40] if kind == "few" else [0, 3])):
        script.add()
    if kind == "tables":
        script.stop_at_tables()
    elif kind == "left behind":
        script.stop_at_snapshots()
    window = f"window {stamp_of(FIRST)} {stamp_of(FIRST + minutes)}"
    head = ["cronrun 1", f"replicas {members}", window, f"grace {chance.choice([0, 1, 5, minutes])}"]
    return "\n".join([*head, *tables, "script", *script.lines, "end", ""])
