"""What is told of findings: a line each, and a summary; as text, or as objects of JSON."""
import json

from run_file_lib.clocks import EPOCH
from run_file_lib.faults import counted, place, shown
from run_file_lib.stamps import stamp_of

from .tables import MINUTE
from .verdicts import AT_START, LATE, MISSING, NOT_DUE, NO_TABLE, ON_TIME, TWICE, counts_of

VERSION = 1
WIDTH = 9


def minute_of(finding):
    """The minute that a finding is told by: when it is due, or when it was launched."""
    return finding.second // 60 if finding.due is None else finding.due


def said(event):
    """The command of a launch, as the log has it."""
    command = event.command
    return command[:-1] if command and command.endswith(")") else command


def late_by(finding):
    return finding.second // 60 - finding.due if finding.kind == LATE else None


def text_lines(findings, clock):
    """A line of each finding: its kind, when by the tables' clock and in UTC, where from, and the command."""
    rows = []
    for finding in findings:
        minute = minute_of(finding)
        local, utc = f"{clock.shown(60 * minute):%Y-%m-%d %H:%M}", stamp_of(EPOCH + minute * MINUTE)
        kind = f"late {late_by(finding)}" if finding.kind == LATE else finding.kind
        entry, event = finding.entry, finding.event
        source = place(entry.file, entry.line) if entry else f"({shown(event.user)})" if event.user else "-"
        told = entry.command if entry else event.name or said(event)
        rows.append((f"{kind:{WIDTH}}  {local}", "-" if utc[:-1].replace("T", " ") == local else utc, source, shown(told)))
    width = max((len(row[2]) for row in rows), default=0)
    return [f"{times}  {utc:17}  {source:{width}}  {told}" for times, utc, source, told in rows]


def summary(counts, first, end, entries):
    """The line that counts the findings."""
    dues = sum(counts[kind] for kind in (ON_TIME, LATE, MISSING))
    window = f"from {stamp_of(EPOCH + first * MINUTE)} until {stamp_of(EPOCH + end * MINUTE)}"
    kept = f"{counts[ON_TIME]:,} launched in their minute, {counts[LATE]:,} late, {counts[MISSING]:,} missing"
    more = f"{counts[TWICE]:,} twice, {counts[NOT_DUE]:,} not due, {counts[NO_TABLE]:,} of no table"
    return f"{window}: {counted(dues, 'due instant')} of {entries:,} {'entry' if entries == 1 else 'entries'}, {kept}; {more}"


def json_lines(findings, counts, first, end, entries):
    """An object of each finding, and one that counts them."""
    for finding in findings:
        entry, event = finding.entry, finding.event
        yield json.dumps({
            "kind": finding.kind.replace(" ", "-"),
            "due": None if finding.due is None else stamp_of(EPOCH + finding.due * MINUTE),
            "launched": None if finding.second is None else f"{EPOCH + finding.second * MINUTE / 60:%Y-%m-%dT%H:%M:%SZ}",
            "late": late_by(finding),
            "file": entry and entry.file,
            "line": entry and entry.line,
            "job": entry.name if entry else event.name,
            "user": entry.user if entry else event.user,
            "command": entry.command if entry else said(event),
        })
    kinds = (ON_TIME, LATE, MISSING, TWICE, NOT_DUE, NO_TABLE, AT_START)
    window = {"from": stamp_of(EPOCH + first * MINUTE), "until": stamp_of(EPOCH + end * MINUTE)}
    counted_kinds = {kind.replace(" ", "-"): counts[kind] for kind in kinds}
    yield json.dumps({"kind": "summary", "version": VERSION, **window, "entries": entries, **counted_kinds})


__all__ = ["counts_of", "json_lines", "late_by", "summary", "text_lines"]
