"""Names rows that are filings and look wrong: of kinds that can't be mended once they stand, and of what no rule holds. The
thresholds are its own. Ends with 1 where a row looks wrong. Of an office it also names what is on file under another number.

usage: office lint < ROWS.csv, or office JOURNAL lint < ROWS.csv
"""
import csv
import datetime
import io
import sys

from . import before, listing, sheet, twice
from .amounts import cents
from .say import refuse, visible

day = datetime.date.fromisoformat
csv.field_size_limit(sys.maxsize)
# Cents of a student's year by the law's annual limits of loans (34 CFR 685.203) and TEACH (34 CFR 686.21), which the office doesn't hold.
MOST = {"sub": 550_000, "unsub": 2_050_000, "teach": 400_000}
# Days behind the last term of a year in which a return of it will have been sent.
LATE = 180


def around(year):
    """The days in which a term of an award year, and a withdrawal from it, will lie."""
    return datetime.date(int(year), 5, 1), datetime.date(int(year) + 1, 9, 15)


def school(_code, _terms, full):
    if not 6 <= int(full) <= 18:
        yield f"full time at {full} credits"


def calendar(year, _term, _extra, first, last, *_breaks):
    begins, ends = around(year)
    if day(first) < begins or day(last) > ends:
        yield f"a term of {year} from {first} to {last}, outside {begins} to {ends}"
    days = (day(last) - day(first)).days + 1
    if not 21 <= days <= 200:
        yield f"a term of {days} days"


def prior(_student, units):
    if 550_000 < int(units) <= 600_000:
        yield f"{int(units) / 1000:.3f} percent of lifetime use, which leaves less than half a year's award"


def apply(_student, year, _transaction, birth, *_rest):
    age = int(year) - int(birth)
    if not 14 <= age <= 90:
        yield f"a student who is {age} in the award year"


def originate(_student, _year, cost):
    if not 2_000 <= int(cost) <= 150_000:
        yield f"a cost of attendance of {cost} dollars"


def cost(student, year, changed):
    yield from originate(student, year, changed)


def sent(_student, year, _term, _program, _amount, when, _reference):
    begins, ends = around(year)
    last = ends + datetime.timedelta(LATE)
    if not begins <= day(when) <= last:
        yield f"a return of {year} that was sent on {when}, outside {begins} to {last}"


def pay(_student, _year, _term, program, amount):
    if cents(amount) > MOST.get(program, 10**12):
        yield f"{program} of {amount}, where the office has no limit but the cost of attendance"


def withdraw(_student, year, _term, last, determined, *_amounts):
    begins, ends = around(year)
    if not begins <= day(last) <= ends:
        yield f"a withdrawal in {year} with the last day {last}, outside {begins} to {ends}"
    days = (day(determined) - day(last)).days
    if days > 60:
        yield f"a withdrawal that was determined {days} days behind the last day"


KINDS = {look.__name__: look for look in (school, calendar, prior, apply, originate, cost, pay, withdraw, sent)}


def looks_wrong(kind, *columns):
    """What looks wrong of a row. Of a row that is no filing nothing is said, since `check rows` says it."""
    try:
        return list(KINDS.get(kind, lambda *_: ())(*columns[2:]))
    except (ValueError, TypeError, OverflowError):
        return []


def paid_again(journal, rows):
    """The rows that give again what is on file, each with its numbers, its kind and a sentence: one for a whole sheet."""
    again = before.paid_again(journal, rows)
    if twice.is_whole(again, rows):
        return [([one.number for one in again], again[0].row[0], twice.told_whole(again))]
    return [([one.number], one.row[0], twice.told(one)) for one in again]


def main(journal=None):
    """Prints what looks wrong, and how many rows do."""
    text = sheet.text_of(sys.stdin.buffer.read())
    rows = [row for row in csv.reader(io.StringIO(text, newline="")) if row]
    found = [([number], row[0], sentence) for number, row in enumerate(rows, 1) for sentence in looks_wrong(*row)]
    found += paid_again(journal, rows) if journal else []
    for numbers, kind, sentence in sorted(found, key=lambda each: each[0][0]):
        print(f"{twice.ranges(numbers)} {kind}: {visible(sentence)}")
    print(f"looked at {len(rows)} rows, {len({number for numbers, *_ in found for number in numbers})} look wrong")
    return 1 if found else 0


def run(words):
    """Looks at the rows on standard input."""
    if words:
        refuse("lint takes no words: office lint < ROWS.csv", 2)
    return main()


def lint_office(office):
    """Looks at them beside what is on file in an office."""
    try:
        return main(office.journal)
    except listing.NotListed as failed:
        office.say_status(failed.status)
        return failed.status
