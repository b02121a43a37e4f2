"""The columns of each kind of filing, from the page of filings, and the other headings under which a sheet may have them."""
import csv
import io
import os
import re
from dataclasses import dataclass

from . import TOP
from .sheet import heading, parted

PAGE = os.path.join(TOP, "docs", "FILINGS.md")
# Other headings of a column, and of which kinds they are; without a kind of all that have the column.
OTHER = [
    ("kind", "type", ""), ("school", "desk school_code", ""), ("number", "filing_number", ""),
    ("student", "student_id student_number", ""), ("year", "award_year aid_year", ""), ("cents", "amount dollars", "pay repay adjust sent"),
    ("credits", "hours credit_hours", "enrol"), ("cost", "coa cost_of_attendance", "originate cost"), ("first", "first_day", "calendar"),
    ("last", "last_day", "calendar withdraw"), ("last", "lda last_date_of_attendance", "withdraw"),
    ("determined", "date_of_determination", "withdraw"), ("charges", "institutional_charges", "withdraw"),
    ("day", "date_sent", "sent"),
]
KEY = ["kind", "school", "number"]
# The columns of breaks: `break_1_first`, `break_1_last`, ..
BREAKS = [f"break_{at}_{end}" for at in range(1, 9) for end in ("first", "last")]
LINE = re.compile(r"^\| \d+ \| (\w+) \| (.*) \| ([^|]*) \|$", re.M)


@dataclass
class Column:
    """A column: what it is, and its form and range, as the page says them."""
    name: str
    says: str
    form: str


def read():
    """The columns behind the number, by kind."""
    with open(PAGE, encoding="utf-8") as page:
        parts = page.read().split("## A year book")[0].split("\n## ")[1:]
    return {kind: [Column(*cells) for cells in LINE.findall(table)] for kind, table in (part.split("\n", 1) for part in parts)}


def is_nothing_where_empty(kind, column):
    """Whether an empty cell is 0: of the amounts of an application alone."""
    return kind == "apply" and column.says.endswith(", in dollars")


def names_of(kind, columns):
    """All columns of a kind by name, with the key in front, and the days of breaks behind a calendar's."""
    return [*KEY, *(column.name for column in columns), *(BREAKS if kind == "calendar" else [])]


def others(kind, name):
    """The other headings of a column of a kind."""
    return [word for column, words, kinds in OTHER if column == name and kind in (kinds.split() or [kind]) for word in words.split()]


def fits(kind, columns, told):
    """The column of a kind that a heading is, by its exact name or another one of it; none where there is no such."""
    word = heading(told)
    names = names_of(kind, columns)
    return next((name for name in names if word == name or word in others(kind, name)), None)


def said(kind, name):
    """A column by its name, and another heading of it."""
    other = others(kind, name)
    return f"{name} ({other[0].replace('_', ' ')})" if other else name


def listed(kinds):
    """A line for each column of kinds, with the other headings under which it is taken."""
    for kind, columns in kinds.items():
        for name in names_of(kind, columns):
            other = ", ".join(word.replace("_", " ") for word in others(kind, name))
            yield f"{kind} {name}{': ' if other else ''}{other}"


def headings_in(text):
    """The headings of a spreadsheet, where a text isn't rows but begins with two of them or more."""
    text, mark = parted(text)
    first = next((cells for cells in csv.reader(io.StringIO(text, newline=""), delimiter=mark) if any(cells)), [])
    kinds = read()
    known = [cell for cell in first if any(fits(kind, columns, cell.lstrip("#")) for kind, columns in kinds.items())]
    return [cell.strip() for cell in first if cell.strip()] if len(known) > 1 and first[0].strip() not in kinds else []
