"""Compares a bursar's ledger, a spreadsheet's CSV with headings, with what the office has. Ends with 1 where they differ.

usage: office reconcile LEDGER.csv < OFFICE.csv

OFFICE.csv has either each movement, in a column `amount`, as `office JOURNAL payments SCHOOL YEAR TERM` prints it: then a line of the
ledger is compared by the number of the filing where it has one, else by student, program and amount. Texts of several terms may stand
behind one another. Or it has what is left of each program, in a column `net`, as `office JOURNAL csv awards YEAR` prints it: then the
ledger is summed by student and program. Either way school, year and term are compared where the ledger has these columns.
"""
import csv
import io
import re
import sys
from collections import Counter, defaultdict

from . import sheet
from .amounts import money
from .say import refuse, visible
from .sheet import Bad, heading

NAMES = {
    "number": "number reference filing_number", "student": "student student_id student_number", "program": "program fund",
    "amount": "amount net dollars", "school": "school school_code", "year": "year award_year aid_year", "term": "term",
}
ALSO = {word: name for name, words in NAMES.items() for word in words.split()}
READS = {"student": sheet.whole, "program": sheet.program, "school": sheet.whole, "year": sheet.award_year, "term": sheet.whole, "number": sheet.whole}
PLACE = ["school", "year", "term"]


def cents(text):
    """Cents of an amount, below zero with a minus before or behind it, or in brackets."""
    bare = text.replace(" ", "").replace("$", "", 1)
    below = re.fullmatch(r"\(([^-]*)\)|-([^-]*)|([^-]*)-", bare)
    amount = sheet.amount("".join(part or "" for part in below.groups()) if below else bare)
    return (-1 if below else 1) * int(amount.replace(".", ""))


def ledger_of(path):
    """The lines of the ledger, by the names of its columns."""
    with open(path, "rb") as file:
        names, rows = sheet.read(file.read())
    of = {}
    for name in names:
        known = ALSO.get(heading(name))
        if known in of:
            raise Bad(f"two columns are its {known}: {of[known]} and {name}")
        if known:
            of[known] = name
    for name in ("student", "program", "amount"):
        if name not in of:
            raise Bad(f"it has no column {name}")
    lines = []
    for at, cells in rows:
        try:
            line = {name: READS[name](cells[of[name]]) for name in READS if name in of and (cells[of[name]] or name != "number")}
            lines.append(line | {"amount": cents(cells[of["amount"]])})
        except Bad as bad:
            raise Bad(f"line {at}: a cell {bad}") from None
    return lines


def office_of(data):
    """What the office has, by the names of its columns, and whether it is what is left. `none` is a term in which nothing moved."""
    text = sheet.text_of(data)
    every = [(at, cells) for at, cells in enumerate(csv.reader(io.StringIO(text, newline="")), 1) if cells]
    rows = [(at, cells) for at, cells in every if cells != ["none"]]
    names = rows[0][1] if rows else []
    if not every or rows and not ({"student", "program"} <= set(names) and {"amount", "net"} & set(names)):
        refuse("standard input has no columns student, program and amount or net")
    if not text.endswith("\n"):
        refuse("standard input was cut short: its last line has no end")
    lines, column = [], "net" if "net" in names else "amount"
    for at, cells in rows:
        if cells == names:
            continue
        try:
            if len(cells) != len(names):
                raise Bad("has other columns than the first one")
            line = dict(zip(names, cells))
            lines.append(line | {"amount": cents(line[column])})
        except Bad as bad:
            refuse(f"standard input, line {at}: it {bad}")
    return lines, column == "net"


def summed(lines, names):
    """A line for each student and program, by these columns, with what the lines come to, where that isn't nothing."""
    sums = Counter()
    for line in lines:
        sums[tuple(line.get(name, "") for name in names)] += line["amount"]
    return [dict(zip(names, key)) | {"amount": amount} for key, amount in sums.items() if amount]


def left(lines, others, names):
    """The lines without one that is like them among others, by these columns and the amount. Of some alike the last ones are left."""
    def key(line):
        return *(line.get(name, "") for name in names), line["amount"]

    waiting, found = Counter(map(key, others)), []
    for line in lines:
        if waiting[key(line)]:
            waiting[key(line)] -= 1
        else:
            found.append(line)
    return found


def alone(office, ledger, names):
    """What each has alone, where lines of the ledger with a number are compared by it."""
    numbered, plain = ([line for line in ledger if ("number" in line) == is_so] for is_so in (True, False))
    rest = left(office, numbered, [*names, "number"])
    return left(rest, plain, names), left(numbered, office, [*names, "number"]) + left(plain, rest, names)


def told(line, names):
    """A line in words: where it stands, the number and the kind of a filing, the student, and the program with its amount."""
    where = "".join(f"{name} {line[name]}, " for name in [*names, "number"] if line.get(name))
    kind = f"{line['kind']}, " if line.get("kind") else ""
    return f"{where}{kind}student {line['student']}, {line['program']} {money(line['amount'])}"


def main(path):
    office, is_left = office_of(sys.stdin.buffer.read())
    try:
        ledger = ledger_of(path)
    except (OSError, Bad) as error:
        refuse(f"{path} can't be read: {error.strerror if isinstance(error, OSError) else error}")
    sums = defaultdict(lambda: [0, 0])
    for side, lines in enumerate((office, ledger)):
        for line in lines:
            sums[line["program"]][side] += line["amount"]
    print("program office ledger difference")
    for program in (name for name in sheet.PROGRAMS if name in sums):
        has, wants = sums[program]
        print(f"{program} {money(has)} {money(wants)} {money(wants - has)}")
    place = [name for name in PLACE if any(name in line for line in ledger)]
    names = [*place, "student", "program"]
    if is_left:
        office, ledger = summed(office, names), summed(ledger, names)
    both = alone(office, ledger, names)
    for side, lines in zip(("office", "ledger"), both):
        for line in lines:
            print(f"in the {side} alone: {visible(told(line, place))}")
    return 1 if any(both) else 0


def run(words):
    """Compares the ledger of a path with what the office has, on standard input."""
    if len(words) != 1:
        refuse("reconcile takes a ledger: office reconcile LEDGER.csv < PAYMENTS.csv", 2)
    return main(*words)
