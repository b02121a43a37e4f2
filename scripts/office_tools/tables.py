"""Tables that are made of what the program prints: a report as comma-separated values, the next number, and rows for the office."""
import re
import sys

from . import seals
from .program import SHEET
from .say import refuse

NAMES = {
    "standing": "student formula index way award paid used", "awards": "school student term program net",
    "returns": "school student term percent returned owed post due", "lifetime": "student prior used", "stamps": "position day clerk",
}
LAST = 999_999_999_999


def whole_lines(text):
    """The lines in front of a last one that counts them, each by its words. Nothing where the text was cut short."""
    *lines, last = [line.split() for line in text.splitlines()] or [[]]
    return lines if last == ["rows", str(len(lines))] and text.endswith("\n") else None


def csv(office, which, *year):
    """A report as comma-separated values."""
    lines = whole_lines(office.needs(["report", which, *year]))
    names = NAMES[which].split()
    if lines is not None and which == "stamps":
        lines = [[*line, ""] if len(line) == 2 else line for line in lines]
    if lines is None or any(len(line) != len(names) for line in lines):
        refuse(f"the report of {office.journal} was cut short: run it again")
    for line in [["year"] * len(year) + names, *([*year, *line] for line in lines)]:
        print(",".join(line))
    return 0


def is_number(word, most, least=0):
    """Whether a word is the one spelling of a number in this range."""
    return re.fullmatch(r"0|[1-9][0-9]{0,14}", word) is not None and least <= int(word) <= most


def next_number(office, school):
    """One more than the greatest number of a school's rows."""
    lines = whole_lines("".join(seals.without(office.needs(["list"], SHEET).splitlines(True))))
    if lines is None:
        refuse(f"the list of {office.journal} was cut short: run it again")
    keys = (line[3].split(",")[1:3] for line in lines)
    greatest = max((int(number) for filed, number in keys if filed == school), default=0)
    if greatest == LAST:
        refuse(f"school {school} has used its last number, 999999999999")
    print(greatest + 1)
    return 0


def carry(words):
    """Rows of prior use for the next office, of a report of lifetime use."""
    if len(words) != 1:
        refuse("usage: office carry NUMBER < LIFETIME", 2)
    if not is_number(words[0], LAST, 1):
        refuse("carry takes the number of the first row, 1 to 999999999999", 2)
    lines = whole_lines(sys.stdin.read())
    if lines is None or any(len(line) != 3 or not all(re.fullmatch("[0-9]+", word) for word in line) for line in lines):
        refuse("this is no whole report of lifetime use: office JOURNAL report lifetime prints one")
    used = [(student, units) for student, _, units in lines if int(units) > 0]
    for at, (student, units) in enumerate(used, int(words[0])):
        print(f"prior,0,{at},{student},{units}")
    return 0


def pay_rows(words):
    """Rows that pay the quotes of a term in full, where they are above 0, of a sheet of quotes."""
    if len(words) != 4:
        refuse("usage: office pay-rows SCHOOL YEAR TERM NUMBER < QUOTES", 2)
    school, year, term, first = words
    if not is_number(school, 999_999, 1):
        refuse("pay-rows takes a school, 1 to 999999", 2)
    if not is_number(year, 2099, 2000) or not is_number(term, 8, 1):
        refuse("pay-rows takes an award year and a term behind the school: 2025 1", 2)
    if not is_number(first, LAST, 1):
        refuse("pay-rows takes the number of the first row, 1 to 999999999999", 2)
    text = sys.stdin.read()
    heading, *lines = text.split("\n")[:-1] or [""]
    found = [re.fullmatch(r"([1-9][0-9]*),[0-9]+,[0-9]+,-?[0-9]+[.][0-9][0-9],([0-9]+)", line) for line in lines]
    paid = [(each[1], each[2]) for each in found if each and int(each[2]) > 0]
    is_whole = heading == "student,credits,scheduled,pell,quote" and text.endswith("\n") and all(found)
    if not is_whole or int(first) + len(paid) > LAST + 1:
        refuse("this is no whole sheet of quotes, or its rows pass the last number: office JOURNAL quotes prints one")
    for at, (student, quote) in enumerate(paid, int(first)):
        print(f"pay,{school},{at},{student},{year},{term},pell,{quote}.00")
    return 0
