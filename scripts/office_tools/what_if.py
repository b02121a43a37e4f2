"""What an application would change that isn't filed: its worksheet beside that of the one in force, and what has to be adjusted first.

usage: office JOURNAL dry need STUDENT YEAR < APPLY.csv     tried on copies, of which nothing stays
"""
import csv
import difflib
import io
import re
import sys

from . import copies, explain, listing, seals, sheet, tables
from .amounts import cents, money
from .office import Office
from .program import SHEET
from .say import refuse, say

LIMIT = 93          # the rule that a correction would leave a limit exceeded
TRIES = 60
VALUE = re.compile(r"(.*\S)\s{2,}(\S+)")
MARK = " <--"


def row_in(text, student, year):
    """The row of an application of this student and year."""
    rows = [row for row in csv.reader(io.StringIO(text, newline="")) if row]
    if len(rows) != 1 or rows[0][:1] != ["apply"] or rows[0][3:5] != [student, year]:
        refuse(f"dry need takes one row, an application of student {student} and year {year}, as office rows apply makes it")
    return rows[0]


def answers(office, rows, copy=None):
    """What rows are answered on a copy, which is taken anew or is there: a line each."""
    copy = copy or copies.try_on_copy(office)
    path = copies.needs_scratch("tried")
    with open(path, "w", encoding="utf-8", errors="surrogateescape") as file:
        file.writelines(",".join(row) + "\n" for row in rows)
    with open(path, "rb") as given, open(copies.needs_scratch("told"), "wb") as out:
        status = office.run(["file"], copy, given=given, out=out)
    lines = copies.text_of(copies.scratch("told")).decode("ascii", "replace").splitlines()
    if status:
        print("\n".join(lines))
        office.say_status(status)
        raise SystemExit(status)
    return lines


def sheet_of_copy(*words):
    """The lines of a sheet of the copy at hand, but for its seal."""
    text = copies.needs_scratch("sheet")
    with open(text, "wb") as out:
        status = Office(copies.scratch("copy"), list(words), SHEET).run(list(words), out=out)
    if status:
        refuse("the sheet of the copy can't be had", status)
    lines = seals.without(copies.text_of(text).decode("ascii", "replace").splitlines())
    return [] if lines == ["none"] else lines


def refusal(line):
    """The rule, what is kept and the bound of a refusal, or nothing."""
    words = line.split()
    return tuple(map(int, words[3:6])) if words[2:3] == ["refused"] else None


def figures(lines):
    """The labels and figures of a worksheet, but for the line that tells where the application stands."""
    found = (VALUE.fullmatch(line) for line in lines[:1] + lines[2:])
    return [(each[1], each[2]) if each else (line, "") for each, line in zip(found, lines[:1] + lines[2:])]


def beside(old, new):
    """Two worksheets side by side, with a mark at what changes."""
    yield f"{'':<50} {'in force':>10} {'new':>10}"
    matcher = difflib.SequenceMatcher(None, [label for label, _ in old], [label for label, _ in new], False)
    for what, first, last, begin, end in matcher.get_opcodes():
        if what == "equal":
            for (label, before), (_, behind) in zip(old[first:last], new[begin:end]):
                yield f"{label:<50} {before:>10} {behind:>10}{MARK if before != behind else ''}".rstrip()
            continue
        for label, before in old[first:last]:
            yield f"{label:<50} {before:>10} {'':>10}{MARK}"
        for label, behind in new[begin:end]:
            yield f"{label:<50} {'':>10} {behind:>10}{MARK}"


class Terms:
    """What a student has of Pell in the terms of a year, in cents, and what is to be adjusted of it."""

    def __init__(self, application, entries):
        _, school, number, self.student, self.year, *_ = application
        # the application's own number isn't free
        self.next = {school: int(number) + 1 if number.isdecimal() else 1}
        self.nets, self.withdrawn, self.extra, students = {}, set(), set(), set()
        for entry in entries:
            row = entry.row
            self.next[row[1]] = max(self.next.get(row[1], 1), int(row[2]) + 1)
            if row[0] == "calendar" and row[5] == "1":
                self.extra.add((row[1], row[3], row[4]))
            students.add(row[3])
        self.other = next(str(number) for number in range(tables.LAST, 0, -1) if str(number) not in students)
        self.adjust = {}

    def take(self, lines):
        """Takes the lines of the student's sheet: the last net of a term is what stands."""
        for words in map(str.split, lines):
            if words[0] == "rows" or words[5] != self.year:
                continue
            place = (words[3], words[6])
            if words[7] == "withdraw":
                self.withdrawn.add(place)
            if words[8] == "pell" and words[7] != "sent":
                self.nets[place] = cents(words[10])

    def stays(self, place):
        """What stays of a term."""
        return self.nets[place] - self.adjust.get(place, 0)

    def places(self):
        """The terms in which something was paid, by school and number."""
        return sorted((place for place in self.nets if self.nets[place]), key=lambda place: (int(place[0]), int(place[1])))

    def lower(self, places, amount):
        """Takes an amount off the last of these terms from which the student hasn't withdrawn. Whether there is so much."""
        for place in reversed([each for each in places if each not in self.withdrawn]):
            part = min(amount, self.stays(place))
            self.adjust[place] = self.adjust.get(place, 0) + part
            amount -= part
        return not amount

    def settle(self, kept, bound, award):
        """Adjusts what a refusal says is too much: of one term, of the main ones, of the year, or in units of the lifetime. Whether it could."""
        places = self.places()
        one = [place for place in places if self.stays(place) == kept]
        main = [place for place in places if (place[0], self.year, place[1]) not in self.extra]
        if one:
            return self.lower(one[:1], kept - bound)
        for some in (main, places):
            if sum(map(self.stays, some)) == kept:
                return self.lower(some, kept - bound)
        # 100,000 units are one award: the next try shows whether it is enough
        return self.lower(places, max(1, -(-(kept - bound) * award // 1000)))

    def rows(self):
        """The rows that adjust it, under each school's next numbers."""
        used = dict(self.next)
        for place in self.places():
            if self.adjust.get(place):
                yield ["adjust", place[0], str(used[place[0]]), self.student, self.year, place[1], "pell", money(self.adjust[place])]
                used[place[0]] += 1


def award_of(lines):
    """The Scheduled Award of a worksheet, in dollars."""
    return next(int(line.split()[-1]) for line in reversed(lines) if line.lstrip().startswith("Scheduled Award: "))


def say_stuck(terms, kept, bound):
    """Says where adjusting doesn't help."""
    stuck = [place for place in terms.places() if place in terms.withdrawn and terms.stays(place) == kept]
    where = f"school {stuck[0][0]}, term {stuck[0][1]}" if stuck else "the terms from which the student withdrew"
    print(f"at {where} {money(kept)} stands and {money(bound)} may; the student withdrew from it, so nothing can be adjusted there")


def adjusted(office, row, terms, award):
    """Tries the application behind adjustments until it is accepted. Whether it could be."""
    for _ in range(TRIES):
        refused = refusal(answers(office, [*terms.rows(), row])[-1])
        if refused is None:
            return True
        if refused[0] != LIMIT or not terms.settle(*refused[1:], award):
            break
    if refused[0] == LIMIT:
        say_stuck(terms, *refused[1:])
    return False


def show_adjusted(office, row, terms, award):
    """Prints what has to be adjusted first, by term, and the rows that do it."""
    print(f"\nThe new award is {award} dollars. To be adjusted first:")
    could = adjusted(office, row, terms, award)
    print(f"{'school':>6} {'term':>4} {'paid':>12} {'may stay':>12} {'to adjust':>12}")
    for place in terms.places():
        print(f"{place[0]:>6} {place[1]:>4} {money(terms.nets[place]):>12} {money(terms.stays(place)):>12} {money(terms.adjust.get(place, 0)):>12}")
    for each in terms.rows():
        print(",".join(each))
    say("tried on a copy: behind these rows the application is accepted" if could else "no adjustments alone make room for this application")


def dry_need(office, student, year):
    """Shows what an application would change."""
    row = row_in(sheet.text_of(sys.stdin.buffer.read(copies.MOST_INPUT)), student, year)
    terms = Terms(row, listing.of_journal(office.journal))
    copies.try_on_copy(office)
    old = sheet_of_copy("need", student, year)
    terms.take(sheet_of_copy("student", student))
    line = answers(office, [row], copies.scratch("copy"))[-1]
    refused = refusal(line)
    explain.explain([line], [",".join(row)])
    if " error " in line or refused and refused[0] != LIMIT:
        return 1
    named = student
    if refused:
        # a student without payments stands in, for whom no limit is exceeded
        named = terms.other
        answers(office, [[*row[:3], named, *row[4:]]], copies.try_on_copy(office))
    new = [each.replace(f"student {named},", f"student {student},") for each in sheet_of_copy("need", named, year)]
    print()
    for each in beside(figures(old), figures(new)):
        print(each)
    if refused:
        show_adjusted(office, row, terms, award_of(new))
    return 1 if refused else 0
