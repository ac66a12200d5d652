"""The man pages: of which parts each is made."""
import functools
from collections import namedtuple

from release_lib.version import version_line

from .sources import FORMATS, MACHINE, README, RUN_FILE, SCRIPTS, TABLES
from .sources import description, examples, intro, option_lines, own_tables, part, program_usage, sections, sentence, statuses, usage

# A page: its name and its section, what stands behind its name, its heads with the parts below each, and the pages that it names at
# its end. A part is a function with its words.
Page = namedtuple("Page", "name section brief heads beside")
BEHIND = """The manuals, from which this page is made, and the run files of `examples/` are in share/doc/hevtsora; what stands in
`tools/testdata` is in the repository alone."""


def of_a_tool(tool, brief, manual, more, beside):
    """A page of a tool, with these sections of manuals in its description, and with these heads behind its statuses."""
    heads = [
        ("SYNOPSIS", [(usage, tool)]),
        ("DESCRIPTION", [(description, tool), *manual]),
        ("OPTIONS", [(option_lines, tool)]),
        ("EXIT STATUS", [(statuses, tool)]),
        *more,
    ]
    return Page(tool, 1, brief, heads, beside)


def run_file_page():
    first = ["What will run, and when", "Why an entry is due, and when it is next", "What a new table changes", "Each line at fault"]
    last = ["The machine's own cron", "A table before it is installed", "The window", "The zone of the tables", "Labels"]
    more = [
        ("FILES", [(part, MACHINE, "Which tables are read")]),
        ("DIAGNOSTICS", [(sections, MACHINE, "Lines that can't be taken", "Notes", "Messages of faults")]),
        ("EXAMPLES", [(examples, "run_file"), (own_tables,)]),
    ]
    brief = "tell what the cron tables of a machine will do, and write a run file of them"
    beside = ["cron_cluster(1)", "explain(1)", "ran(1)", "hevtsora_tables(5)"]
    return of_a_tool("run_file", brief, [(sections, MACHINE, *first, *last)], more, beside)


def ran_page():
    more = [
        ("FILES", [(sentence, "The tables of the machine, as **run_file**(1) reads them, and the log.")]),
        ("EXAMPLES", [(examples, "ran")]),
    ]
    brief = "judge a log of cron by when the entries of tables were due"
    return of_a_tool("ran", brief, [(sections, MACHINE, "What ran")], more, ["cron_cluster(1)", "run_file(1)", "hevtsora_tables(5)"])


def explain_page():
    manual = [(sections, SCRIPTS, "The commands", "What a run promises", "Limits and refusals")]
    brief = "tell what is wrong with the script of a run file"
    beside = ["cron_cluster(1)", "run_file(1)", "timeline(1)"]
    return of_a_tool("explain", brief, manual, [("EXAMPLES", [(examples, "explain")])], beside)


def timeline_page():
    manual = [(sections, FORMATS, "Pictures")]
    brief = "draw what replicas did in a run"
    return of_a_tool("timeline", brief, manual, [("EXAMPLES", [(examples, "timeline")])], ["cron_cluster(1)", "explain(1)"])


def program_page():
    forms = [(sections, RUN_FILE, "A run file", "Lines", "The report", "The due list", "The check")]
    heads = [
        ("SYNOPSIS", [(program_usage,)]),
        ("DESCRIPTION", [(intro, RUN_FILE), *forms, (sections, FORMATS, "The journal", "What was seen of the board", "The summary")]),
        ("OPTIONS", [(part, RUN_FILE, "Words of the command line")]),
        ("EXIT STATUS", [(statuses, "cron_cluster"), (part, RUN_FILE, "Statuses and notes")]),
        ("FILES", [(sentence, "None is opened: the run file is standard input.")]),
        ("DIAGNOSTICS", [(sections, RUN_FILE, ("Causes",), "The order of the causes")]),
        ("EXAMPLES", [(part, README, "A first run")]),
    ]
    brief = "play a run of cron tables, and tell what is launched when"
    return Page("cron_cluster", 1, brief, heads, ["explain(1)", "run_file(1)", "timeline(1)", "hevtsora_tables(5)"])


def tables_page():
    first = ["What differs from cronie, Debian's cron and anacron", "A table in a run file"]
    lines = ["Lines", "Fields", "The day rule", "Nicknames", "Hashed fields", "Variables", "Commands", "System tables"]
    last = ["Zones and clock changes", "Anacrontabs", "Versions"]
    heads = [
        ("DESCRIPTION", [(intro, TABLES), (sections, TABLES, *first, *lines, *last)]),
        ("FILES", [(part, MACHINE, "Which tables are read")]),
        ("EXAMPLES", [(part, TABLES, "What will run, and when")]),
    ]
    beside = ["cron_cluster(1)", "run_file(1)", "crontab(5)", "anacrontab(5)"]
    return Page("hevtsora_tables", 5, "the tables of jobs that cron_cluster takes", heads, beside)


def named(page):
    """A page that another one names."""
    name, _, number = page.partition("(")
    return f"\\fB{name}\\fR({number}"


def page_text(page):
    """A page in the language of man pages."""
    version = version_line("").split()[-1]
    lines = [f'.TH {page.name.upper()} {page.section} "" "Hevtsora {version}" "Hevtsora"', ".nh", ".ad l"]
    lines += [".SH NAME", f"{page.name} \\- {page.brief}"]
    for head, parts in page.heads:
        lines.append(f'.SH "{head}"')
        for make, *words in parts:
            lines += make(*words)
    lines += ['.SH "SEE ALSO"', ", ".join(map(named, page.beside)), *sentence(BEHIND)]
    return "".join(f"{line}\n" for line in lines)


@functools.lru_cache(maxsize=None)
def man_pages():
    """The name and the text of each page."""
    made = [program_page(), run_file_page(), ran_page(), explain_page(), timeline_page(), tables_page()]
    return {f"{page.name}.{page.section}": page_text(page) for page in made}
