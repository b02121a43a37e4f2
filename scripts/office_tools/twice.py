"""Names payments and awards that are on file already under another number: a rule over rows alone, for any check that has them.

A row gives twice where another number of the same school gave the same student the same amount of the same program, in the same term
and year, and something of that is left. Of what was given, what a later row of the term takes back isn't left: first of the last gift
of that very amount, else of the last gifts. A gift that was lowered counts by what it was and by what is left. A row in front counts
as one on file. A row whose own number is on file is passed over: it is answered `again`, or refused.
"""
import re
from dataclasses import dataclass

# What gives and what takes back, with the columns behind the number. The last one is the amount.
TERM = ("student", "year", "term", "program", "amount")
YEAR = ("student", "year", "program", "amount")
AWARD = ("student", "year", "amount")
COLUMNS = {"pay": TERM, "adjust": TERM, "lend": YEAR, "cancel": YEAR, "award": AWARD, "release": AWARD}
TAKES = {"adjust": "pay", "cancel": "lend", "release": "award"}
AMOUNT = re.compile(r"\d{1,7}([.]\d\d)?", re.ASCII)
MOST = 20           # rows that are told one by one


@dataclass
class Gift:
    """A payment or an award: its row, its position on file or none, its row number where it is a row in front, and what is left of it."""
    row: tuple
    position: int | None
    number: int | None
    left: int


@dataclass
class Found:
    """A row that gives again, and what it is like."""
    number: int
    row: tuple
    gift: Gift


def moves(row):
    """Whether a row gives, or takes back what was given."""
    return bool(row) and row[0] in COLUMNS and len(row) == 3 + len(COLUMNS[row[0]]) and bool(AMOUNT.fullmatch(row[-1]))


def units(row):
    """The digits of a row's amount."""
    return row[-1].replace(".", "", 1)


def place(row):
    """What is the same of rows that give again: all but the number and the amount."""
    return (TAKES.get(row[0], row[0]), row[1], *row[3:-1])


class OnFile:
    """What was given by place, and which numbers are used, so far as these rows ask for it."""

    def __init__(self, rows):
        asking = [tuple(row) for row in rows if moves(row)]
        self.gifts = {place(row): [] for row in asking}
        self.by_amount = {}     # the gifts of a place that had an amount, as it was given or as it was left
        self.asked = {row[1:3] for row in asking}
        self.used = set()

    def add(self, row, position=None, number=None):
        """Takes a row that is on file, or one in front."""
        if tuple(row[1:3]) in self.asked and position is not None:
            self.used.add(tuple(row[1:3]))
        if not moves(row) or place(row) not in self.gifts:
            return
        gifts, amount = self.gifts[place(row)], int(units(row))
        if row[0] in TAKES:
            changed = take_back(gifts, amount)
        else:
            changed = [Gift(tuple(row), position, number, amount)]
            gifts += changed
        for gift in changed:
            self.by_amount.setdefault((place(row), gift.left), []).append(gift)

    def like(self, row):
        """The first gift that a row gives again, if any."""
        amount = int(units(row))
        for gift in self.by_amount.get((place(row), amount), ()):
            if gift.left and gift.row[2] != row[2] and amount in (int(units(gift.row)), gift.left):
                return gift
        return None


def take_back(gifts, amount):
    """Lowers the last gift of this very amount, or the last ones. Those that are lowered."""
    lowered = []
    for gift in [each for each in gifts if each.left == amount][-1:] or gifts[::-1]:
        taken = min(amount, gift.left)
        gift.left, amount = gift.left - taken, amount - taken
        lowered += [gift] * (taken > 0)
    return lowered


def found(rows, on_file):
    """The rows that give again, each with its number from 1."""
    again = []
    for number, row in enumerate(map(tuple, rows), 1):
        if not moves(row) or row[1:3] in on_file.used:
            continue
        gift = None if row[0] in TAKES else on_file.like(row)
        if gift:
            again.append(Found(number, row, gift))
        on_file.add(row, number=number)
    return again


def of_list(rows, entries):
    """The rows that give again beside the filings of an office's list."""
    on_file = OnFile(rows)
    for entry in entries:
        on_file.add(entry.row, position=entry.position)
    return found(rows, on_file)


def ranges(numbers):
    """Whole numbers in a few words: 1 to 3, 7."""
    words, first = [], None
    numbers = sorted(set(numbers))
    for at, number in enumerate(numbers):
        first = number if first is None else first
        if numbers[at + 1 : at + 2] != [number + 1]:
            words.append(str(first) if first == number else f"{first} to {number}")
            first = None
    return ", ".join(words)


def plainly(number):
    """A row by its number."""
    return f"row {number}"


def where(gift, name):
    """Where a gift stands, and what is left of it if it was lowered."""
    if gift.position is None:
        return f"in {name(gift.number)} already, under number {gift.row[2]}"
    lowered = f", lowered from {gift.row[-1]}" if gift.left != int(units(gift.row)) else ""
    return f"on file already, under number {gift.row[2]} of school {gift.row[1]} (at {gift.position}{lowered})"


def told(one, name=plainly):
    """What a row gives again, and where it did so before, in words."""
    cells = (cell if name in ("program", "amount") else f"{name} {cell}" for name, cell in zip(COLUMNS[one.row[0]], one.row[3:]))
    return f"{', '.join(cells)}: {where(one.gift, name)}"


def is_whole(again, rows):
    """Whether all that these rows give, more than one, is on file: a sheet that was made twice."""
    gives = [row for row in rows if moves(row) and row[0] not in TAKES]
    return len(again) == len(gives) > 1 and all(one.gift.position for one in again)


def told_whole(again):
    """A sheet that was made twice, in words."""
    schools = sorted({one.gift.row[1] for one in again}, key=int)
    numbers = "; ".join(
        f"{ranges(int(one.gift.row[2]) for one in again if one.gift.row[1] == school)} of school {school}" for school in schools)
    return f"the {len(again)} payments and awards of these rows are all on file already, under the numbers {numbers}"


def sentences(again, rows, name=plainly):
    """What is said of rows that give again, each by its name: one sentence where it is all of them."""
    if is_whole(again, rows):
        return [told_whole(again)]
    more = [f"{len(again) - MOST} more rows are on file already"] if len(again) > MOST else []
    return [f"{name(one.number)}: {told(one, name)}" for one in again[:MOST]] + more
