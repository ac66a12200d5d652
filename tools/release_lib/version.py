"""The version of Hevtsora, and where its program stands. The file VERSION stands at the top of the repository, and beside the tools
where they are installed."""
import os
import re

# The folder that has the tools: `tools` of the repository, or `lib/hevtsora` below a prefix.
HOME = os.path.dirname(os.path.dirname(os.path.realpath(__file__)))
ABOVE = os.path.dirname(HOME)
IS_INSTALLED = os.path.isfile(os.path.join(HOME, "VERSION"))
FILE = os.path.join(HOME if IS_INSTALLED else ABOVE, "VERSION")
BUILT = os.path.join("crates", "cron_cluster", "out", "cron_cluster")
PROGRAM = os.path.join(os.path.dirname(ABOVE), "bin", "cron_cluster") if IS_INSTALLED else os.path.join(ABOVE, BUILT)


def version_line(name):
    """What `--version` of a tool prints. A folder of tools that was copied alone has no file VERSION."""
    if not os.path.isfile(FILE):
        return f"{name} (Hevtsora) of an unknown version"
    with open(FILE, encoding="utf-8") as file:
        return f"{name} (Hevtsora) {file.read().strip()}"


def as_installed(text):
    """A text with the names that tools and manuals have where they are installed."""
    text = re.sub(r"\btools/(run_file|ran|explain|timeline)\b", r"\1", text).replace(BUILT, "cron_cluster")
    return re.sub(r"\bdocs/([A-Z_]+)\.md is the manual", r"share/doc/hevtsora/docs/\1.md is the manual", text)


def help_text(text):
    """A text of `--help`."""
    return as_installed(text) if IS_INSTALLED else text
