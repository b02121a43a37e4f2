"""Which crate stands on which, by crates.txt, and what each costs, by docs/minutes.tsv: for the scripts beside this file."""
import os
import re

COSTS = ("proof", "tests", "edits", "runs")
TABLE = "docs/minutes.tsv"
TEST = re.compile(r"#\s*\[[^]]*\btest\b")


def top_of(folder):
    """The nearest folder at or above this one with a crates.txt, or None."""
    folder = os.path.realpath(folder)
    while not os.path.isfile(f"{folder}/crates.txt"):
        if folder == os.path.dirname(folder):
            return None
        folder = os.path.dirname(folder)
    return folder


def libraries_of(top):
    """The libraries that crates.txt names for each crate, the toolchain's among them."""
    libraries = {}
    with open(f"{top}/crates.txt", encoding="utf-8") as file:
        for line in file:
            crate, colon, named = line.partition("#")[0].partition(":")
            if colon and crate.split():
                libraries[crate.split()[0]] = named.split()
    return libraries


def uses_of(top):
    """The crates of the repository that each of them names in crates.txt."""
    libraries = libraries_of(top)
    return {name: [it for it in named if it in libraries] for name, named in libraries.items()}


def below(uses, name):
    """The crates that this one stands on, each after those that it uses itself."""
    seen, found = set(), []

    def visit(crate):
        for it in uses[crate]:
            if it not in seen:
                seen.add(it)
                visit(it)
                found.append(it)

    visit(name)
    return found


def above(uses, name):
    """The crates that stand on this one, each after those that it uses itself."""
    under = {it: below(uses, it) for it in uses}
    return sorted((it for it in uses if name in under[it]), key=lambda it: len(under[it]))


def sources(top, name):
    """The files of the crate's code, in one order everywhere."""
    walked = os.walk(f"{top}/crates/{name}/src")
    return sorted(os.path.join(folder, file) for folder, _, files in walked for file in files)


def has_tests(top, name):
    """Whether the crate's code has a test function."""
    for path in sources(top, name):
        with open(path, encoding="utf-8", errors="replace") as file:
            if TEST.search(file.read()):
                return True
    return False


def read_minutes(top):
    """The processor minutes of each crate by what they are spent on, or None where there is no table."""
    try:
        with open(f"{top}/{TABLE}", encoding="utf-8") as file:
            _, *rows = (line.rstrip("\n").split("\t") for line in file)
    except OSError:
        return None
    return {name: dict(zip(COSTS, map(float, numbers))) for name, *numbers in rows}


def write_minutes(top, table):
    """Writes such a table into the repository."""
    rows = [("crate", *COSTS), *((name, *(f"{table[name][it]:.2f}" for it in COSTS)) for name in sorted(table))]
    os.makedirs(os.path.dirname(f"{top}/{TABLE}"), exist_ok=True)
    with open(f"{top}/{TABLE}", "w", encoding="utf-8") as file:
        file.writelines("\t".join(row) + "\n" for row in rows)
