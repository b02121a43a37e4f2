"""Who gets what of a round or of rows that are tried: a table that an approver can sign.

usage: office JOURNAL dry fund .. | dry intake .. | work JOURNAL [dry] round ..     [--table | --csv] behind the words
"""
import csv
import re
import sys
from dataclasses import dataclass

from . import copies, filing, ids, listing, tables
from .amounts import cents, money
from .say import say, visible

HEADING = ("student", "school", "year", "term", "program", "amount", "net", "left")
WIDTHS = (12, 6, 4, 4, 10, 12, 12, 12)
# A release that no award of 4,000 dollars at most has room for: it is refused, and its refusal tells what isn't earned of the award.
TOO_MUCH = 9_999
NO_AWARD, PAST_AWARD, USED_NUMBER = b"216", b"219", b"15"


@dataclass
class Line:
    """What somebody gets, in cents: the amount, what the student has of the program with it, and what is left then."""
    student: str
    school: str
    year: str
    term: str
    program: str
    amount: int
    net: int
    left: int | None = None

    def cells(self, known=None):
        """The cells of the table, with the id and the name where they are asked for."""
        left = "-" if self.left is None else money(self.left)
        cells = (self.student, self.school, self.year, self.term, self.program, money(self.amount), money(self.net), left)
        return cells + (known.told(self.student) if known else ())


def accepted(lines):
    """The positions of what reply lines accept."""
    words = (line.split() for line in lines)
    return {int(each[3]) for each in words if each[2:3] == [b"accepted"]}


def payments(entries, positions):
    """The payments at these positions, each with what the cost of attendance at its school leaves then: the cost less the net of all aid there
    in the year, by the filings up to it."""
    costs, nets, found = {}, {}, []
    for entry in entries:
        kind, school, _, *cells = entry.row
        place = (school, *cells[:2])
        if kind in ("originate", "cost"):
            costs[place] = 100 * int(cells[2])
        if kind in ("pay", "adjust", "repay"):
            nets[place] = nets.get(place, 0) + (1 if kind == "pay" else -1) * cents(cells[4])
        if kind == "withdraw":
            nets[place] = nets.get(place, 0) - cents(entry.outcome[2])
        if kind == "pay" and entry.position in positions:
            left = costs[place] - nets[place] if place in costs else None
            found.append(Line(cells[0], school, cells[1], cells[2], cells[3], cents(cells[4]), cents(entry.outcome[1]), left))
    return found


def of_fund(found, lines):
    """What is left of a fund behind each payment: what its last line tells, and what is paid behind."""
    left = next((100 * int(line.split()[1]) for line in reversed(lines) if line.startswith(b"left ")), None)
    for one in reversed(found):
        one.left = left
        left = None if left is None else left + one.amount
    return found


def heading(known):
    """The names of the columns."""
    return (*HEADING, "id", "name") if known else HEADING


def totals(found):
    """The sum of each program, in the order in which they come."""
    sums = {}
    for one in found:
        count, total = sums.get(one.program, (0, 0))
        sums[one.program] = count + 1, total + one.amount
    return sums


def table_lines(found, left_of, notes, known=None):
    """The table in text: a line each, the sum of each program, what else is to be known, and where it is signed."""
    for cells in (heading(known), *(one.cells(known) for one in found)):
        line = " ".join(cell.rjust(width) for cell, width in zip(cells, WIDTHS))
        yield "  ".join([line, *(visible(cell) for cell in cells[len(WIDTHS):] if cell)])
    for program, (count, total) in totals(found).items():
        yield f"total {program}: {money(total)} in {count}"
    yield f"net is of the program in the year, at all schools; left is of {left_of}"
    yield from notes
    yield ""
    yield "Approved by ________________________________  Date ____________"


def show(office, found, left_of, notes=()):
    """Prints the table: behind the lines of the program, alone, or as comma-separated values alone."""
    known = ids.needed(office.journal) if "--names" in office.flags else None
    if "--csv" in office.flags:
        csv.writer(sys.stdout, lineterminator="\n").writerows([heading(known), *(one.cells(known) for one in found)])
        return
    if "--table" not in office.flags:
        print()
    for line in table_lines(found, left_of, notes, known):
        print(line)


def look_at_names(office):
    """Refuses names that can't be told, before anything is done."""
    if "--names" in office.flags:
        ids.needed(office.journal)


def is_alone(flags):
    """Whether the table is asked for without the lines of the program."""
    return "--table" in flags or "--csv" in flags


class Answers(filing.Filed):
    """The reply lines of a run, with what is on file of them."""

    def __init__(self, office):
        super().__init__(office)
        self.lines = []

    def take(self, line):
        """Takes a reply line."""
        super().take(line)
        self.lines.append(line)


def gathered(office, words, copy, given=None):
    """The status and the answers of a run, which are printed too where the table isn't asked for alone."""
    answers = Answers(office)
    if not is_alone(office.flags):
        return office.run(words, copy, given=given, take=answers.take, keeps_on=True), answers
    text = copies.needs_scratch("lines")
    with open(text, "wb") as out:
        status = office.run(words, copy, given=given, out=out)
    for line in copies.text_of(text).splitlines():
        answers.take(line)
    return status, answers


def without_table(flags, status, failed):
    """Says that there is no table: the status is that of the run, or of the table where it was asked for alone."""
    say("the table can't be made, since what is on file can't be listed")
    return status or (failed if is_alone(flags) else 0)


def dry_fund(office, *words):
    """Tries a round of a fund on a copy, and prints who gets what."""
    look_at_names(office)
    copy = copies.try_on_copy(office)
    status, answers = gathered(office, ["fund", *words], copy)
    office.say_status(status)
    if status:
        return status
    try:
        found = payments(listing.of_copy(copy), accepted(answers.lines))
    except listing.NotListed as failed:
        return without_table(office.flags, answers.status(office.lenient), failed.status)
    refused = answers.counts[b"refused"]
    notes = [f"{refused} payments are refused, and count as spent in what is left"] if refused else []
    show(office, of_fund(found, answers.lines), f"the fund of {words[3]} dollars", notes)
    return answers.status(office.lenient)


def show_intake(office, copy, told):
    """Prints who gets what of rows that were tried on a copy, if anybody does, and how many rows aren't on file then. The status."""
    positions = set(told.positions.values())
    try:
        found = payments(listing.of_copy(copy), positions)
    except listing.NotListed as failed:
        return without_table(office.flags, 0, failed.status)
    if not found and not is_alone(office.flags):
        return 0
    words = list(told.words.values())
    counts = [(len(positions) - len(found), "other rows are filed"), (words.count(b"again"), "rows were on file before"),
              (words.count(b"refused") + words.count(b"error"), "rows aren't filed")]
    show(office, found, "the cost of attendance at the school", [f"{count} {what}" for count, what in counts if count])
    return 0


def students_of(path):
    """The index of each student of a round's rows, the first row of a student counting."""
    found = {}
    with open(path, newline="", encoding="utf-8-sig", errors="replace") as file:
        for row in csv.reader(file):
            if len(row) == 4 and tables.is_number(row[0], tables.LAST, 1) and re.fullmatch("-?[0-9]{1,7}", row[1]):
                found.setdefault(row[0], int(row[1]))
    return found


def awards(office, journal, school, year, students):
    """The unearned part of the award of each student who has one, in cents, by refusals on a copy of a journal. Nothing where they don't tell."""
    probe, rows, text = (copies.needs_scratch(name) for name in ("probe", "releases", "told"))
    for number in range(tables.LAST, tables.LAST - 9, -1):
        if not copies.copy_to(journal, probe):
            return None
        with open(rows, "w", encoding="ascii") as file:
            file.writelines(f"release,{school},{number},{student},{year},{TOO_MUCH}\n" for student in students)
        with open(rows, "rb") as given, open(text, "wb") as out:
            status = office.run(["file"], probe, given=given, out=out)
        answers = [line.split()[2:] for line in copies.text_of(text).splitlines()]
        rules = {answer[1] for answer in answers if answer[:1] == [b"refused"]}
        if status or len(answers) != len(students) or not rules <= {NO_AWARD, PAST_AWARD, USED_NUMBER}:
            return None
        # the school used this number
        if USED_NUMBER not in rules:
            return {student: int(answer[3]) for student, answer in zip(students, answers) if answer[1:2] == [PAST_AWARD]}
    return None


def run_round(office, place, copy=None):
    """Awards the rest of a work-study fund, on a copy where one is said, and prints who gets what."""
    copies.needs_scratch("students")
    rows, journal = copies.keep_input("students"), copy or office.journal
    students = students_of(rows)
    before = awards(office, journal, *place[:2], students)
    with open(rows, "rb") as given:
        status, answers = gathered(office, ["round", *place], journal, given)
    office.say_status(status)
    if status:
        return status
    after = None if before is None else awards(office, journal, *place[:2], students)
    if after is None:
        return without_table(office.flags, answers.status(office.lenient), 1)
    new = sorted((students[student], int(student)) for student in after if student not in before)
    found = [Line(str(student), *place[:2], "-", "work-study", after[str(student)], after[str(student)]) for _, student in new]
    show(office, of_fund(found, answers.lines), "the fund")
    return answers.status(office.lenient)


def work_round(office, *place):
    """Awards the rest of a work-study fund."""
    look_at_names(office)
    office.refuse_hurt(office.journal)
    office.stands = "stands, so take further numbers"
    return run_round(office, place)


def dry_round(office, *place):
    """Tries that on a copy."""
    look_at_names(office)
    return run_round(office, place, copies.try_on_copy(office))
