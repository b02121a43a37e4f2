#!/usr/bin/env python3
"""Writes the table of crates on docs/ARCHITECTURE.md anew: by layer each crate, the first sentence of its sources' `//!` lines, how many
crates stand on it by crates.txt, and, where docs/minutes.tsv is there, the processor minutes that a change of it proves and runs again.

usage, in or below a checkout:
  scripts/make_crates.py            writes the table
  scripts/make_crates.py --check    changes nothing; ends with 1 where the page has another table

In both a crate that has no layer here, or stands on a crate of a later layer, is told, and the status is 1.
"""
import os
import re
import sys

sys.dont_write_bytecode = True
import crates

PAGE = "docs/ARCHITECTURE.md"
TABLE = re.compile(r"(?s)(?<=<!-- made by scripts/make_crates.py -->\n).*(?=<!-- end -->)")
# The layers, lowest first, each with what its crates' names begin with, or the names of some.
PROGRAM = "run_program aid_office"
TESTS = "io_memory specimen whole_runs office_bench law_refusals"
LAYERS = [
    ("Values", "aid_ sorted_"),
    ("The outside", "io_"),
    ("The law", "law_"),
    ("How things are written", "format_"),
    ("The aid office", "office_ sheet_"),
    ("Any log", "log_"),
    ("Connections", "web_"),
    ("Commands", "run_"),
    ("Other desks, and the auditor", "loans work_ clock_hours desk_sheets audit"),
    ("The program", PROGRAM),
    ("Tests, planted bugs and benches", TESTS),
]
# What stands on a crate of a later layer, and is meant to.
MEANT = {("aid_stamps", "io_traits"), ("io_host", "web_session"), ("office_log", "log_"), ("office_amends", "log_stamps")}


def layer_of(name):
    """The number of a crate's layer, or None."""
    if name.endswith("_tests") or name in TESTS.split():
        return len(LAYERS) - 1
    if name in PROGRAM.split():
        return len(LAYERS) - 2
    return next((at for at, (_, begins) in enumerate(LAYERS[:-2]) if name.startswith(tuple(begins.split()))), None)


def promise_of(top, name):
    """The first sentence that a crate's sources say of it."""
    path = next(it for it in (f"{top}/crates/{name}/src/lib.rt", f"{top}/crates/{name}/src/main.rt") if os.path.isfile(it))
    with open(path, encoding="utf-8") as file:
        told = re.match(r"(?://!.*\n)*", file.read())[0]
    paragraph = " ".join(line[3:].strip() for line in told.splitlines()).split("  ")[0]
    return re.split(r"(?<=[a-z0-9`)])\. ", paragraph.rstrip("."))[0].replace("|", "\\|")


def wrong_places(uses):
    """What no layer has, or what stands on a later one."""
    for name, used in uses.items():
        if layer_of(name) is None:
            yield f"{name} has no layer in scripts/make_crates.py"
            continue
        for other in used:
            if (layer_of(other) or 0) > layer_of(name) and not any(name == one and other.startswith(begin) for one, begin in MEANT):
                yield f"{name} stands on {other}, which is of a later layer"


def rows_of(top, uses):
    """The table's lines."""
    held = crates.read_minutes(top)
    yield "| crate | what it is for | crates above |" + (" minutes |" if held else "")
    yield "|---|---|---|" + ("---|" if held else "")
    for at, (layer, _) in enumerate(LAYERS):
        yield f"| **{layer}** | | |" + (" |" if held else "")
        for name in (it for it in uses if layer_of(it) == at):
            above = crates.above(uses, name)
            minutes = sum(sum(held.get(it, {}).values()) for it in [name, *above]) if held else 0
            yield f"| `{name}` | {promise_of(top, name)} | {len(above)} |" + (f" {minutes:.0f} |" if held else "")


def main(words):
    top = crates.top_of(os.getcwd())
    if top is None or words not in ([], ["--check"]):
        print(__doc__, file=sys.stderr)
        return 2
    uses = crates.uses_of(top)
    wrong = list(wrong_places(uses))
    for sentence in wrong:
        print(f"make_crates: {sentence}")
    with open(f"{top}/{PAGE}", encoding="utf-8") as file:
        old = file.read()
    new = TABLE.sub(lambda _: "".join(f"{row}\n" for row in rows_of(top, uses)), old)
    if words and old != new:
        print(f"make_crates: the table of {PAGE} is another; scripts/make_crates.py writes it")
    if not words:
        with open(f"{top}/{PAGE}", "w", encoding="utf-8") as file:
            file.write(new)
    return 1 if wrong or words and old != new or not TABLE.search(old) else 0


if __name__ == "__main__":
    sys.exit(main(sys.argv[1:]))
