"""The command of tools/install."""
import argparse
import os
import sys

from release_lib.version import PROGRAM, version_line

from .contents import OF_THE_PROGRAM, contents
from .prefix import Fault, Prefix

ABOUT = """\
Installs the program cron_cluster, the tools run_file, ran, explain and timeline, their man pages, documents and completion for
bash below PREFIX: in bin, lib/hevtsora and share. Where the variable DESTDIR names a folder, all is put below that one, as for a
package. A file that is there already is replaced as a whole, if it was installed by this tool, and left with a message if it wasn't.

docs/TOOLS.md is the manual.

  tools/install ~/.local
  DESTDIR=package tools/install --program cron_cluster /usr
"""
END = """\
The status is 0 where all is done, 1 where a file is at fault, and 2 where a word is: then standard error has a message.
"""


def parser():
    layout = argparse.RawDescriptionHelpFormatter
    made = argparse.ArgumentParser(prog="install", description=ABOUT, epilog=END, formatter_class=layout, allow_abbrev=False)
    made.add_argument("prefix", metavar="PREFIX", help="the folder below which all is put, such as /usr/local")
    made.add_argument("--program", metavar="PATH", help="the program; the built one by default")
    made.add_argument("--tools-only", action="store_true", help="leave the program out, and leave one that is there as it is")
    made.add_argument("--uninstall", action="store_true", help="remove what was installed")
    made.add_argument("--version", action="version", version=version_line("install"), help="print the version of Hevtsora and exit")
    return made


def folder_of(prefix, environment):
    """The folder that stands for the prefix."""
    prefix = os.path.abspath(prefix)
    destination = environment.get("DESTDIR")
    return os.path.join(os.path.abspath(destination), prefix.lstrip("/")) if destination else prefix


def checked_program(path):
    """The program that is installed, which has to be there."""
    program = PROGRAM if path is None else path
    if not (os.path.isfile(program) and os.access(program, os.X_OK)):
        how = "`rt run` in crates/cron_cluster builds it, --program names another one, and --tools-only leaves it out"
        raise Fault(f"there is no program {program}; {how}")
    return program


def run(words, environment):
    """Installs, or removes what was installed, and gives the status."""
    options = parser().parse_args(words)
    if options.tools_only and options.program is not None:
        parser().error("either --program or --tools-only")
    if options.uninstall and (options.tools_only or options.program is not None):
        parser().error("--uninstall removes all")
    try:
        prefix = Prefix(folder_of(options.prefix, environment))
        if options.uninstall:
            prefix.uninstall()
        else:
            program = None if options.tools_only else checked_program(options.program)
            prefix.install(contents(program), OF_THE_PROGRAM if options.tools_only else ())
    except Fault as fault:
        print(f"install: {fault}", file=sys.stderr)
        return 1
    except OSError as fault:
        print(f"install: {fault.filename}: {fault.strerror}", file=sys.stderr)
        return 1
    return 0
