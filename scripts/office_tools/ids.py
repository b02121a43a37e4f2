"""Ids and names of students, in a file beside an office: they are shown, and read in sheets, and never go into the journal.

usage: office JOURNAL ids       checks JOURNAL.ids.csv, a CSV with the headings number, id and name
       office JOURNAL SHEET.. --names, report .. --names, csv .. --names      show ids and names behind the numbers
"""
import contextlib
import csv
import io
import os
import re
from dataclasses import dataclass

from . import copies, program, sheet, tables
from .say import refuse, say, visible

COLUMNS = ("number", "id", "name")
# An id has a sign that no number has, so that a cell can only be one of the two.
ID = re.compile(r"(?=.*[^0-9])[A-Za-z0-9._-]{1,40}")
MOST = 20           # sentences that are told
SHEETS = ("list", "student", "need", "review", "quotes", "payments", "withdrawal", "due", "returns", "upto")
# The column of a report in which the student stands.
REPORTS = {"standing": 0, "awards": 1, "returns": 1, "lifetime": 0}
OF_ONE = ("student", "need", "review", "withdrawal")      # sheets of one student
# Kinds of filings that have no student behind the number.
OTHER_KINDS = ("book", "school", "calendar", "amend")


@dataclass
class Student:
    """The id and the name of a student, and the line of the file."""
    id: str
    name: str
    line: int


class Known:
    """The students of a file, by number and by id, and what is wrong with its lines."""

    def __init__(self, rows=()):
        self.by_number, self.by_id, self.wrong = {}, {}, []
        for line, cells in rows:
            self.take(line, *(cells[name] for name in COLUMNS))

    def take(self, line, number, student_id, name):
        """Takes a line, or says what is wrong with it."""
        if not tables.is_number(number, tables.LAST, 1):
            self.wrong.append(f"line {line}: `{number}` is no number of a student")
        elif not ID.fullmatch(student_id):
            self.wrong.append(f"line {line}: `{student_id}` is no id: 1 to 40 letters, digits, dots, low lines and hyphens, and no digits alone")
        elif any(ord(sign) < 32 for sign in name):
            self.wrong.append(f"line {line}: the name has more than one line")
        elif number in self.by_number:
            self.wrong.append(f"line {line}: number {number} is in line {self.by_number[number].line} already")
        elif student_id.casefold() in self.by_id:
            self.wrong.append(f"line {line}: id {student_id} is in line {self.by_number[self.by_id[student_id.casefold()]].line} already")
        else:
            self.by_number[number] = Student(student_id, name, line)
            self.by_id[student_id.casefold()] = number

    def number_of(self, cell):
        """The number of a student by the number or the id."""
        return self.by_id.get(cell.casefold(), cell)

    def told(self, number):
        """The id and the name of a student, or two empty cells."""
        student = self.by_number.get(str(number))
        return (student.id, student.name) if student else ("", "")

    def in_words(self, number):
        """The same in one text."""
        return visible(" ".join(filter(None, self.told(number))))


def path_of(journal):
    """Where the file is."""
    return f"{journal}.ids.csv"


def read(journal):
    """The students of the file beside a journal, with what is wrong."""
    path = path_of(journal)
    if not os.path.isfile(path):
        refuse(f"there is no file {path}: make one with the headings number, id and name, and a line for each student", 2)
    try:
        names, rows = sheet.read(copies.text_of(path))
    except sheet.Bad as bad:
        refuse(f"{path} can't be read: {bad}")
    headings = [sheet.heading(name) for name in names]
    twice = [name for name in COLUMNS if headings.count(name) > 1]
    if twice:
        refuse(f"{path} has two columns {twice[0]}: its headings are number, id and name")
    of = dict(zip(headings, names))
    missing = [name for name in COLUMNS if name not in of]
    if missing:
        refuse(f"{path} has no column {missing[0]}: its headings are number, id and name")
    return Known((line, {name: cells[of[name]] for name in COLUMNS}) for line, cells in rows)


def needed(journal):
    """The students of the file, in which nothing may be wrong."""
    known = read(journal)
    if known.wrong:
        refuse(f"{path_of(journal)}, {known.wrong[0]}; mend the file: office {journal} ids says all")
    return known


def check(office):
    """Says how many students the file has, and what is wrong: 1 where something is."""
    known = read(office.journal)
    for sentence in known.wrong[:MOST]:
        say(f"{path_of(office.journal)}, {sentence}")
    if len(known.wrong) > MOST:
        say(f"{len(known.wrong) - MOST} more lines are wrong")
    print(f"{len(known.by_number)} students, {len(known.wrong)} lines are wrong")
    return 1 if known.wrong else 0


def csv_named(lines, known):
    """Comma-separated values with the columns id and name behind the others."""
    text, at = io.StringIO(), None
    write = csv.writer(text, lineterminator="\n").writerow
    for cells in csv.reader(lines):
        if at is None:
            at = cells.index("student")
            write([*cells, "id", "name"])
        else:
            write([*cells, *known.told(cells[at])])
    return text.getvalue().splitlines()


def student_in(command, words, line):
    """The number of the student of a line of a list or a report, if it has one."""
    cells = line.split()
    if command == "list":
        row = cells[3].split(",") if len(cells) > 4 else ["book"]
        return row[3] if row[0] not in OTHER_KINDS else None
    at = REPORTS.get(words[1])
    return cells[at] if at is not None and len(cells) > 2 else None


def named(command, words, lines, known):
    """The lines of a text with ids and names."""
    if command in OF_ONE:
        number = words[2] if command == "withdrawal" else words[1]
        return [f"student {number}: {known.in_words(number)}", *lines]
    if command in ("quotes", "payments", "due", "returns", "csv"):
        return csv_named(lines, known) if "student" in lines[0].split(",") else lines
    return [f"{line}  {known.in_words(student_in(command, words, line))}".rstrip() if student_in(command, words, line) else line for line in lines]


def text_of(office, words):
    """The text of a sheet, a report or its comma-separated values."""
    if words[0] == "csv":
        text = io.StringIO()
        with contextlib.redirect_stdout(text):
            tables.csv(office, *words[1:])
        return text.getvalue()
    text = office.needs(words, program.SHEET if words[0] in SHEETS else None)
    if text.split("\n", 1)[0] == "none":
        refuse(f"there is nothing in {office.journal} to tell of these names, or it has fewer filings")
    return text


def show(office, words):
    """Prints a sheet or a report with ids and names."""
    behind = words[2:] if words[0] == "upto" else words
    if behind[:2] == ["report", "export"]:
        refuse("an export has no names: it goes to an auditor as it is", 2)
    if words[:1] == ["csv"] and not 2 <= len(words) <= 3:
        refuse("usage: office JOURNAL csv REPORT [YEAR] --names", 2)
    known = needed(office.journal)
    lines = text_of(office, words).splitlines()
    for line in named(behind[0], behind, lines, known):
        print(line)
    return 0
