"""The texts of a run: the report, what was seen of the board, the journal and the summary; and the run file that is made from a seed."""
from .instants import stamp_of
from .launches import LAUNCH, VOID


def report_of(world):
    """The report of a run."""
    run, held = world.run, sorted(world.ledger.held.values())
    counts = [{LAUNCH: 0, VOID: 0} for _ in run.jobs]
    for call in held:
        counts[call.job][call.kind] += 1
    lines = ["cron report 1", run.window, f"replicas {run.members}", f"jobs {len(run.jobs)}"]
    lines += [f"job {job.name} launched {count[LAUNCH]} void {count[VOID]}" for job, count in zip(run.jobs, counts)]
    lines += [f"{call.kind} {run.jobs[call.job].title(call.at)}" for call in held]
    return "\n".join([*lines, "end", ""])


def watch_of(world):
    """What was seen of the board, a line for each command `free`."""
    return "".join(f"watch {number} {prefix} {jobs_open}\n" for number, prefix, jobs_open in world.looks)


def turn_line(run, number, turn):
    """The line of a turn in the journal."""
    words = [str(number), "-" if turn.who is None else str(turn.who), turn.word]
    words += [turn.end, turn.cause] if turn.cause else []
    if turn.operand is not None:
        words.append(stamp_of(turn.operand) if words[-1] == "tick" else str(turn.operand))
    if turn.call:
        words.append(turn.fate)
    if turn.answer:
        words += [run.jobs[turn.answer.job].title(turn.answer.at), turn.answer.kind]
    return " ".join(words)


def journal_lines(world):
    """The lines of a journal but the first and the last."""
    number = 0
    ends = [*world.parts[1:], len(world.turns)]
    for place, end in enumerate(ends):
        yield f"command {place + 1}" if place + 1 < len(ends) else "command end"
        for turn in world.turns[number:end]:
            yield turn_line(world.run, number, turn)
            number += 1


def journal_of(world):
    """The journal of a run: each turn, below the command that it belongs to."""
    return "\n".join(["cron journal 1", *journal_lines(world), "end", ""])


def summary_of(seed, world):
    """What is told of a run that was made from a seed."""
    kinds = [call.kind for call in world.ledger.held.values()]
    lines = [f"seed {seed}", f"jobs {len(world.run.jobs)}", f"launched {kinds.count(LAUNCH)}", f"void {kinds.count(VOID)}"]
    return "\n".join(["cron make 1", *lines, "end", ""])


class Draws:
    """Numbers drawn from a seed by a linear congruential generator of 64 bits, whose upper half is drawn from."""

    def __init__(self, seed):
        self.state = seed

    def below(self, count):
        self.state = (self.state * 6364136223846793005 + 1442695040888963407) % 2**64
        return self.state // 2**33 % count


def made_run(seed):
    """The run file that is made from a seed: three replicas over ten days, 40 hourly jobs and 160 daily ones, and a script in
    which one replica after another is stopped."""
    draws = Draws(seed)
    lines = ["cronrun 1", "replicas 3", "window 2024-03-01T00:00Z 2024-03-11T00:00Z", "grace 14400", "crontab make UTC 200"]
    lines += [f"{draws.below(60)} * * * * hourly {number}" for number in range(1, 41)]
    lines += [f"{draws.below(60)} {draws.below(24)} * * * daily {number}" for number in range(41, 201)]
    lines += ["script", "campaign 0"]
    for half_day in range(20):
        stamp = f"2024-03-{1 + half_day // 2:02}T{12 * (half_day % 2):02}:00Z"
        lines += [f"round {stamp} 40", f"stop {draws.below(3)}", f"campaign {draws.below(3)}", f"round {stamp} 40"]
        lines += [f"restart {who}" for who in range(3)]
    return "\n".join([*lines, "end", ""])
