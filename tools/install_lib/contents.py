"""Which files are installed, and where below the prefix."""
import os
from collections import namedtuple
from glob import glob

from .manual import ROOT
from .pages import man_pages

# A file: its path below the prefix, its mode, and its bytes; or a link, with where it leads.
Item = namedtuple("Item", "path mode data link")
TOOLS = ("run_file", "ran", "explain", "timeline")
PARTS = ("release_lib", "run_file_lib", "ran_lib", "script_lib", "small_world", "timeline_lib")
KINDS = (".py", ".css", ".html", ".js")
LIBRARY, DOCUMENTS = "lib/hevtsora", "share/doc/hevtsora"
COMPLETIONS = "share/bash-completion/completions"
MANIFEST = f"{LIBRARY}/INSTALLED"
RUN, READ = 0o755, 0o644
# What belongs to the program, and is left out with the tools alone.
OF_THE_PROGRAM = ("bin/cron_cluster", "share/man/man1/cron_cluster.1", f"{COMPLETIONS}/cron_cluster")


def read(path):
    with open(path, "rb") as file:
        return file.read()


def file_of(path, name, mode=READ):
    """A file with the bytes of one of the repository."""
    return Item(path, mode, read(os.path.join(ROOT, name)), None)


def names(pattern):
    """The files of the repository that have such a name."""
    return sorted(os.path.relpath(it, ROOT) for it in glob(os.path.join(ROOT, pattern)) if os.path.isfile(it))


def libraries():
    """The tools with the modules that they stand on, and their version."""
    yield file_of(f"{LIBRARY}/VERSION", "VERSION")
    for part in PARTS:
        for name in names(f"tools/{part}/*"):
            if name.endswith(KINDS):
                yield file_of(name.replace("tools", LIBRARY, 1), name)
    for tool in TOOLS:
        yield file_of(f"{LIBRARY}/{tool}", f"tools/{tool}", RUN)
        yield Item(f"bin/{tool}", None, None, f"../{LIBRARY}/{tool}")


def documents():
    """The man pages, the documents, the examples, and the completion for bash."""
    for name, text in man_pages().items():
        yield Item(f"share/man/man{name[-1]}/{name}", READ, text.encode(), None)
    for name in ("README.md", "CHANGES.md", *names("docs/*.md"), *names("docs/pictures/*.svg"), *names("examples/*")):
        yield file_of(f"{DOCUMENTS}/{name}", name)
    yield file_of(f"{COMPLETIONS}/hevtsora", "tools/completion/hevtsora.bash")
    for name in (*TOOLS, "cron_cluster"):
        yield Item(f"{COMPLETIONS}/{name}", None, None, "hevtsora")


def contents(program):
    """All that is installed, with this program; with the tools alone where there is none."""
    items = [*libraries(), *documents()]
    if program is None:
        return [item for item in items if item.path not in OF_THE_PROGRAM]
    return [Item("bin/cron_cluster", RUN, read(program), None), *items]
