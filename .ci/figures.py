"""What .ci/docs counts: lines of documents, parameters of definitions, widths of clauses, and names with two homes."""
import functools
import glob
import os
import re

ROOT = os.path.dirname(os.path.dirname(os.path.abspath(__file__)))
MARK = "<!-- .ci/trust -->"
DEFINITION = re.compile(r"(?:abbrev |unfoldable |pub )+(record |data )?([^\s(){}\[\]:,.;λ→]+)(.*)$")
GROUP = re.compile(r"\(([^():]*?) :")
CLAUSE = re.compile(r"\b(?:ensures|requires|invariant) |^ +(?:→|×|⊎|\+\+) |→")


def path_of(name):
    return os.path.join(ROOT, name)


@functools.lru_cache(maxsize=None)
def text_of(name):
    """The text of a file; none if there is no such file."""
    if not os.path.isfile(path_of(name)):
        return ""
    with open(path_of(name), encoding="utf-8") as file:
        return file.read()


def parameters(head):
    """How many explicit parameters a definition has: those that it names, and those before arrows of its type."""
    parts, depth, start = [""], 0, True
    for sign in head:
        depth += (sign in "({[") - (sign in ")}]")
        if depth == 0 and (sign == "→" or (sign == ":" and start)):
            start = start and sign != ":"
            parts.append("")
        else:
            parts[-1] += sign
    count = sum(len(it.split()) for it in GROUP.findall(parts[0]))
    for part in map(str.strip, parts[1:-1]):
        named = re.fullmatch(r"\(([^():]*?) :.*\)", part)
        count += len(named[1].split()) if named else int(bool(part) and not part.startswith("{"))
    return count


@functools.lru_cache(maxsize=None)
def definitions():
    """The definitions of specs/: for each its crate, file, line, name and number of parameters."""
    found = []
    for file in sorted(glob.glob(path_of("crates/*/specs/**/*.antt"), recursive=True)):
        name = os.path.relpath(file, ROOT)
        lines = text_of(name).split("\n")
        for number, line in enumerate(lines):
            form = DEFINITION.match(line)
            if not form or form[2] in ("use", "mod"):
                continue
            head, last = form[3], number
            while last + 1 < len(lines) and lines[last + 1].startswith(" ") and " where" not in head:
                last += 1
                head += " " + lines[last].strip()
            found.append((name.split("/")[1], name, number + 1, form[2], parameters(head.split(" where")[0])))
    return found


def names_twice():
    """The names of definitions that stand in the specs/ of two crates or more, with these crates."""
    homes = {}
    for crate, _, _, name, _ in definitions():
        homes.setdefault(name, set()).add(crate)
    return {name: sorted(crates) for name, crates in homes.items() if len(crates) > 1}


def wide_clauses(widest):
    """The lines of clauses and definitions that are wider than they may be: file, number and columns."""
    for pattern in ("crates/*/src/**/*.rt", "crates/*/specs/**/*.antt"):
        for file in sorted(glob.glob(path_of(pattern), recursive=True)):
            name = os.path.relpath(file, ROOT)
            for number, line in enumerate(text_of(name).split("\n"), 1):
                code = not re.match(r"\s*(?:ghost |pub )*use |\s*(?://|--)", line)
                if len(line) > widest and code and (name.endswith(".antt") or CLAUSE.search(line)):
                    yield name, number, len(line)


def lines_in_docs():
    """How many lines docs/ has, without what .ci/trust prints."""
    texts = [text_of(f"docs/{it}") for it in os.listdir(path_of("docs")) if it.endswith(".md")]
    return sum(it.count("\n") - (it.split(MARK)[1].count("\n") if it.count(MARK) == 2 else 0) for it in texts)


def print_figures(most, widest):
    """Prints what is counted, with the definitions and names that are to become fewer."""
    lines = text_of("README.md").count("\n")
    print(f"README {lines} lines; docs/ {lines_in_docs()} lines without what .ci/trust prints")
    many = [(count, crate, name) for crate, _, _, name, count in definitions()]
    print(f"most parameters: {max(many)[0]}; more than {most}: {sum(it[0] > most for it in many)}")
    for count, crate, name in sorted(many, reverse=True):
        if count > most:
            print(f"  {count} {crate} {name}")
    wide = list(wide_clauses(widest))
    print(f"lines of clauses wider than {widest}: {len(wide)}; widest {max((it[2] for it in wide), default=0)}")
    print(f"names with two homes: {len(names_twice())}")
    for name, homes in sorted(names_twice().items()):
        print(f"  {name}: {', '.join(homes)}")
