"""An auditor in plain Python: what the lines of an export say, what is found in a text, by itself or held against a note of a seal, and the
answers to rows of clock-hour programs, written apart from the proved code. The law is that of tests/model.py, the seal is hashlib's."""
import hashlib
import os
import re
import sys
from dataclasses import fields
from datetime import date, timedelta

sys.path.append(os.path.join(os.path.dirname(os.path.dirname(os.path.abspath(__file__))), "scripts"))
from office_tools import year_book
import desk
import model
import records

# How many filings are judged, without the index of an office and by it; and how many bytes of an input are read.
MOST_FILINGS, MOST_OF_WHOLE = 20_000, 1_000_000
MOST_BYTES, MOST_BYTES_OF_WHOLE = 2**24, 2**30
WHOLE = rb"0|-?[1-9][0-9]*"
AMOUNT = rb"(0|[1-9][0-9]*)\.[0-9][0-9]"
FILING = re.compile(rb"filing ((?:[0-9a-f][0-9a-f])*)\n")
STANDING = re.compile(
    rb"standing (%b) (%b) (%b) [ABC] (%b) (maximum|calculated|minimum|nothing) (%b) (%b) (%b)\n"
    % tuple(b"(?:%b)" % form for form in [WHOLE, WHOLE, WHOLE, WHOLE, WHOLE, AMOUNT, WHOLE])
)
END = re.compile(rb"end (?:%b) (?:%b) [0-9a-f]{64}\n" % (WHOLE, WHOLE))
CLERK = re.compile(rb"(?:[A-Za-z0-9._][A-Za-z0-9._-]*)?")
FIRST_DAY, LAST_DAY = date(1900, 1, 1), date(9999, 12, 31)
CODES = {code: kind for kind, (code, _) in records.KINDS.items()}
NAMES = {
    model.School: "school", model.Calendar: "calendar", model.PriorUse: "prior", model.Application: "apply", model.Enrolment: "enrol",
    model.Origination: "originate", model.Payment: "pay", model.Withdrawal: "withdraw", model.Repayment: "repay",
    model.Adjustment: "adjust", model.ChangedCost: "cost", model.Sending: "sent", model.Amendment: "amend",
}


# The export

def payload_of(filing, stamp=model.Stamp()):
    """The bytes of a filing behind those of its stamp, as the journal has them."""
    return records.stamp_bytes(stamp) + records.payload_of_filing(filing)


def payload_line(payload):
    return f"filing {payload.hex()}\n"


def filing_line(filing, stamp=model.Stamp()):
    return payload_line(payload_of(filing, stamp))


class Chain:
    """The seals of a list that grows, by the bytes of its records: the front one is that of none."""

    def __init__(self, payloads=()):
        self.seals = [hashlib.sha256(b"dalthyrm seal 1 AIDPELL1").digest()]
        for payload in payloads:
            self.take(payload)

    def take(self, payload):
        self.seals.append(hashlib.sha256(self.seals[-1] + len(payload).to_bytes(4, "little") + payload).digest())

    def digits(self, count=-1):
        """The digits of the seal of so many, or of all."""
        return self.seals[count].hex()


def seal_of(payloads):
    """The digits of the seal of all of these records."""
    return Chain(payloads).digits()


def standing_line(history, student, year):
    row = model.standing(history, student, year)
    return (
        f"standing {student} {year} {row.transaction} {row.formula} {row.index} {row.way} {row.award} {desk.money(row.paid)} {row.used}\n"
    )


def end_line(filings, standings, seal):
    return f"end {filings} {standings} {seal}\n"


def export(history, year, stamps=()):
    """What `report export YEAR` prints of a history; the last filings may have no stamp noted."""
    students = [student for student, _ in model.standing_report(history, year)]
    payloads = records.payloads_of_office(history, stamps)
    lines = [payload_line(payload) for payload in payloads] + [standing_line(history, student, year) for student in students]
    return "".join(lines) + end_line(len(history), len(students), seal_of(payloads))


def line_of_yes(filings, standings, seal):
    return f"yes {filings} {standings} {seal}\n"


# A filing's bytes

def numbers_in(data, widths):
    """The numbers of so many bytes each, the widest and the days with a sign, or none where the bytes aren't as many."""
    if len(data) != sum(widths):
        return None
    numbers = []
    for width in widths:
        numbers.append(int.from_bytes(data[:width], "little", signed=width == 8))
        data = data[width:]
    return numbers


def text_of(read, number):
    """A number as the column of a row has it, so that the reader of the column judges it."""
    if read is desk.day:
        try:
            return (date(1970, 1, 1) + timedelta(number - 2**32 if number >= 2**31 else number)).isoformat()
        except OverflowError:
            return "none"
    if read is desk.cents:
        return desk.money(number) if number >= 0 else "none"
    if read is desk.program:
        return desk.PROGRAM_WORDS[number] if number < len(desk.PROGRAM_WORDS) else "none"
    return str(number)


def filing_of_payload(data):
    """The filing whose one payload this is, if there is one."""
    if data[:1] == b"\1":
        return book_of_payload(data)
    if not data or data[0] not in CODES:
        return None
    kind = CODES[data[0]]
    widths, readers = records.KINDS[kind][1], desk.KINDS[NAMES[kind]]
    if kind is model.Calendar:
        count = data[25] if len(data) > 25 else 0
        if count > 8:
            return None
        widths, readers = widths[:6] + [4] * (2 * count), readers + [desk.day] * (2 * count)
    numbers = numbers_in(data[1:], [4, 8, *widths])
    if numbers is None:
        return None
    row = [NAMES[kind], *map(text_of, desk.KEY + readers, numbers)]
    filing = desk.filing_of(row)
    return None if isinstance(filing, desk.RowError) else filing


def stamped_of_payload(data):
    """The stamp and the filing whose one payload this is, if there are such."""
    if len(data) < 5 or len(data) < 5 + data[4] or data[4] > 32 or not CLERK.fullmatch(data[5:5 + data[4]]):
        return None
    try:
        day = date(1970, 1, 1) + timedelta(int.from_bytes(data[:4], "little", signed=True))
    except OverflowError:
        return None
    filing = filing_of_payload(data[5 + data[4]:]) if FIRST_DAY <= day <= LAST_DAY else None
    return (model.Stamp(day, data[5:5 + data[4]].decode()), filing) if filing else None


class Short(Exception):
    """There are too few bytes."""


def taken(data, count):
    """So many numbers of eight bytes from the front, which is cut off."""
    if len(data) < 8 * count:
        raise Short
    numbers = [int.from_bytes(data[8 * at:8 * at + 8], "little", signed=True) for at in range(count)]
    del data[:8 * count]
    return numbers


def value_in(data, name, shape):
    """The value of a book's field from the front of the bytes, by that of the specimen."""
    if name in records.TABLES:
        if not data:
            raise Short
        count = data.pop(0)
        return tuple(type(shape[0])(*taken(data, 3)) for _ in range(count))
    if isinstance(shape, tuple):
        return tuple(value_in(data, "", each) for each in shape)
    if isinstance(shape, model.BySize):
        return model.BySize(tuple(taken(data, len(shape.sizes))), *taken(data, 1))
    return taken(data, 1)[0]


def text_of_book(form, book):
    """The text of a book of these figures."""
    sizes = lambda name, table: f"{name} = {list(table.sizes)}\n{name}_extra = {table.extra}\n"
    keys = lambda *names: "".join(f"{name} = {getattr(book, name)}\n" for name in names)
    rows = lambda table, names: "".join(
        f"[[{table}]]\n" + "".join(f"{name} = {value}\n" for name, value in zip(names, records.flat(row))) for row in getattr(book, table)
    ) or ""
    empty = "".join(f"{table} = []\n" for table in records.TABLES if not getattr(book, table))
    percents = [field.name for field in fields(book)[3:10]]
    return (
        f"form = {form}\nyear = {book.year}\n" + empty + "[pell]\n" + keys("maximum", "minimum") + "[percent]\n" + keys(*percents)
        + "[poverty]\n" + "".join(map(sizes, ["contiguous", "alaska", "hawaii"], book.poverty))
        + "[payroll]\n" + keys("oasdi_cap", "oasdi_rate", "medicare_rate", "medicare_high", "threshold_single", "threshold_married")
        + "[protection]\n" + "".join(sizes(name, getattr(book, name)) for name in ["parents", "single_parent", "married_parent"])
        + keys("dependent_student", "single_student", "married_student")
        + f"[employment]\ncap = {book.employment_cap}\nrate = {book.employment_rate}\n"
        + "[assets]\n" + keys("parents_rate", "dependent_rate", "no_dependents_rate", "with_dependents_rate")
        + "[schedule]\n" + keys("low_at", "low", "first_rate", "student_rate", "lowest_student")
        + rows("business", ["over", "base", "rate"]) + rows("age", ["from", "single", "married"]) + rows("bracket", ["over", "base", "rate"])
        + (f"[ceiling]\npercent = {book.ceiling}\n" if form == 2 else "")
    )


def book_of_payload(data):
    """The filing of a book whose one payload this is, if there is one: its figures are judged as a text of them is."""
    key = numbers_in(data[1:13], [4, 8])
    if key is None or any(isinstance(faulty, desk.Faulty) for faulty in map(fault_of, desk.KEY, key)):
        return None
    rest = bytearray(data[13:])
    try:
        form = taken(rest, 1)[0]
        if form not in (1, 2):
            return None
        names = [field.name for field in fields(model.SPECIMEN) if field.name != "ceiling" or form == 2]
        book = model.YearBook(**{name: value_in(rest, name, getattr(model.SPECIMEN, name)) for name in names})
    except Short:
        return None
    if rest:
        return None
    try:
        read = desk.book_of(year_book.read(text_of_book(form, book).encode()))
    except year_book.NotABook:
        return None
    return model.Book(*key, read)


def fault_of(read, number):
    """Why a number is out of a column's range, if it is."""
    try:
        read(str(number))
    except desk.Faulty as faulty:
        return faulty
    return None


# The audit

class Auditor:
    """The good lines so far: the filings, the seals of their fronts, the students whose standing was told, and whether the end line was
    there. Some filings may be known to be good."""

    def __init__(self, known=(), most=MOST_FILINGS):
        self.history = [filing for _, filing in known]
        self.chain = Chain(bytes.fromhex(line.split()[1].decode()) for line, _ in known)
        self.students = []
        self.ended = False
        self.most = most

    def cause_of(self, line):
        """Takes a line, or tells the first cause that it is bad."""
        filing, standing, end = FILING.fullmatch(line), STANDING.fullmatch(line), END.fullmatch(line)
        if standing:
            student, year = int(standing[1]), int(standing[2])
            standing = 1 <= student < 10**12 and 2000 <= year <= 2099
        if self.ended or not (filing or standing or end) or filing and self.students:
            return 1
        if filing:
            return self.cause_of_filing(bytes.fromhex(filing[1].decode()))
        if standing:
            if line.decode() != standing_line(self.history, student, year) or self.students and student <= self.students[-1]:
                return 5
            self.students.append(student)
        elif line.decode() != end_line(len(self.history), len(self.students), self.chain.digits()):
            return 6
        else:
            self.ended = True
        return 0

    def cause_of_filing(self, data):
        """The same of the bytes of a filing under its stamp."""
        if len(self.history) == self.most:
            return 8
        _, filing = stamped_of_payload(data) or (None, None)
        if filing is None:
            return 2
        if any((earlier.school, earlier.number) == (filing.school, filing.number) for earlier in self.history):
            return 3
        if model.first_broken(self.history, filing):
            return 4
        self.history.append(filing)
        self.chain.take(data)
        return 0

    def cause_of_note(self, note):
        """What is told of a text that is good to its end, by a note: a count and the digits of a seal, or none."""
        if note is None:
            return 0
        count, digits = note
        if count > len(self.history):
            return 10
        return 9 if self.chain.digits(count) != digits else 0


def lines_of(text):
    """The lines of a text, each with its line feed; bytes behind the last one are a line too."""
    return re.findall(rb"[^\n]*\n|[^\n]+", text)


def audit(text, known=(), note=None, most=MOST_FILINGS):
    """What `audit` prints of a text, which is held against a note where there is one; with the other limit, what `audit whole` does. `known`
    are the lines of filings, each with its filing, of which it is known that they are good in this order."""
    lines = lines_of(text)
    same = 0
    while same < min(len(known), len(lines)) and lines[same] == known[same][0]:
        same += 1
    auditor = Auditor(known[:same], most)
    for number, line in enumerate(lines[same:], same + 1):
        cause = auditor.cause_of(line)
        if cause:
            return f"no {number} {cause}\n"
    if not auditor.ended:
        return f"no {len(lines) + 1} 7\n"
    cause = auditor.cause_of_note(note)
    return f"no {len(lines)} {cause}\n" if cause else line_of_yes(len(auditor.history), len(auditor.students), auditor.chain.digits())


# Clock hours

def hours_and_weeks(numbers):
    """The field of a payment's row that is out of its range, from 2, given those behind it; none where all are within."""
    scheduled, hours, year_hours, weeks, year_weeks = numbers
    tests = [
        scheduled is not None and 0 <= scheduled <= 99_999, hours is not None and 0 <= hours and (year_hours is None or hours <= year_hours),
        year_hours is not None and 1 <= year_hours <= 9_999, weeks is not None and 0 <= weeks and (year_weeks is None or weeks <= year_weeks),
        year_weeks is not None and 1 <= year_weeks <= 99,
    ]
    return None if all(tests) else 2 + tests.index(False)


def hours_and_cents(numbers):
    """The same of a withdrawal's row."""
    scheduled, period, *cents = numbers
    tests = [
        scheduled is not None and 1 <= scheduled and (period is None or scheduled <= period), period is not None and 1 <= period <= 9_999,
        *[amount <= 99_999_999 for amount in cents],
    ]
    return None if all(tests) else 2 + tests.index(False)


def whole_number(text):
    """The number of a column of any size, or nothing where it has no 64 bits."""
    if not re.fullmatch(WHOLE, text):
        raise desk.Faulty(3)
    return int(text) if -2**63 <= int(text) < 2**63 else None


def amount(text):
    """The cents of a column, of any size."""
    if not re.fullmatch(AMOUNT, text):
        raise desk.Faulty(3)
    return int(text.replace(b".", b""))


CLOCK = {"pay": ([whole_number] * 5, hours_and_weeks), "withdraw": ([whole_number] * 2 + [amount] * 13, hours_and_cents)}


def clock_answer(columns):
    """The answer to a row of a clock-hour program."""
    kind, *columns = columns
    if kind not in CLOCK:
        return "error 1 1"
    readers, out_of_range = CLOCK[kind]
    if len(columns) != len(readers):
        return "error 0 2"
    numbers = []
    for place, (read, text) in enumerate(zip(readers, columns), 2):
        try:
            numbers.append(read(text.encode("latin-1")))
        except desk.Faulty:
            return f"error {place} 3"
    place = out_of_range(numbers)
    if place:
        return f"error {place} 4"
    if kind == "pay":
        scheduled, hours, year_hours, weeks, year_weeks = numbers
        part, whole = (hours, year_hours) if hours * year_weeks <= weeks * year_hours else (weeks, year_weeks)
        return f"pay {(2 * scheduled * part + whole) // (2 * whole)}"
    scheduled, period, charges, *cents = numbers
    lines = model.worksheet(scheduled, period, charges, tuple(cents[:6]), tuple(cents[6:]))
    return f"returned {desk.percent_text(lines.percent)} {desk.money(lines.school)} {desk.money(sum(lines.owed))} {desk.money(lines.post)}"


def clock(text):
    """What `clock` prints of a text."""
    return "".join(f"{row} {clock_answer(columns)}\n" for row, columns in enumerate(desk.rows_of(text), 1))
