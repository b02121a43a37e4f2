"""Makes a sheet to fill in: the headings of a kind, and below them the range of each column and an example, as lines that no row is made of.

usage: office rows KIND --template > SHEET.csv
"""
import csv
import re
import sys

from . import columns
from .say import refuse, say

NOTE = "#"          # the heading of the column that marks such lines
KEY = [columns.Column("school", "", "a whole number, 0 to 999999"), columns.Column("number", "", "a whole number, 1 to 999999999999")]


def sheet_columns(kind, of_kind):
    """The columns of the sheet; of a calendar the days of a break in place of their count."""
    days = [columns.Column(name, "", "a day, or empty") for name in columns.BREAKS[:2]]
    return KEY + [each for column in of_kind for each in (days if (kind, column.name) == ("calendar", "breaks") else [column])]


def range_of(kind, column):
    """What may stand in a column."""
    if column.name == "year":
        return "an award year, as 2025-26"
    return column.form + ("; empty is 0" if columns.is_nothing_where_empty(kind, column) else "")


def example_of(kind):
    """The cells of the page's first example of a kind, from the school on."""
    with open(columns.PAGE, encoding="utf-8") as page:
        cells = re.search(rf"^\| `({kind},[^`]*)` \|$", page.read(), re.M)[1].split(",")[1:]
    # the count of breaks has no column
    return cells[:7] + cells[8:] if kind == "calendar" else cells


def lines(kind):
    """The lines of the sheet."""
    of_sheet = sheet_columns(kind, columns.read()[kind])
    return [
        [NOTE, *(column.name for column in of_sheet)],
        [f"{NOTE} range", *(range_of(kind, column) for column in of_sheet)],
        [f"{NOTE} example", *example_of(kind)],
    ]


def is_note(cells):
    """Whether a line of a sheet is one of those of which no row is made."""
    return cells.get(NOTE, "").startswith(NOTE)


def run(words):
    """Prints the sheet of a kind."""
    kinds = columns.read()
    if len(words) != 1 or words[0] not in kinds:
        refuse("rows --template takes a kind: " + ", ".join(kinds), 2)
    csv.writer(sys.stdout, lineterminator="\n").writerows(lines(words[0]))
    sys.stdout.flush()
    say(f"fill it in below the line `{NOTE} example`, and make rows of it by office rows {words[0]} < SHEET.csv")
    return 0
