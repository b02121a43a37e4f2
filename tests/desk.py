"""A desk of the office in plain Python over tests/model.py, written apart from the proved code: what each command prints for
its input, from the columns of a row to the lines of its answer."""
import os
import re
import sys
from collections import Counter
from dataclasses import dataclass
from datetime import date

sys.path.append(os.path.join(os.path.dirname(os.path.dirname(os.path.abspath(__file__))), "scripts"))
import generated
import model
from office_tools import year_book

PROGRAM_WORDS = ["unsub", "sub", "plus", "pell", "fseog", "teach"]
SPELLING, RANGE = 3, 4


class Faulty(Exception):
    """The cause that a column's text is none of its field."""


def whole(low, high):
    """A whole number in its one spelling."""
    def read(text):
        if not re.fullmatch("0|-?[1-9][0-9]*", text, re.ASCII):
            raise Faulty(SPELLING)
        if not low <= int(text) <= high:
            raise Faulty(RANGE)
        return int(text)
    return read


def cents(text):
    """Dollars with two decimals."""
    if not re.fullmatch("(0|[1-9][0-9]*)[.][0-9]{2}", text, re.ASCII):
        raise Faulty(SPELLING)
    if len(text) > len("999999.99"):
        raise Faulty(RANGE)
    return int(text.replace(".", ""))


def day(text):
    """A civil day from 1900 on."""
    if not re.fullmatch("[0-9]{4}-[0-9]{2}-[0-9]{2}", text, re.ASCII):
        raise Faulty(SPELLING)
    try:
        found = date.fromisoformat(text)
    except ValueError:
        raise Faulty(RANGE) from None
    if found.year < 1900:
        raise Faulty(RANGE)
    return found


def program(text):
    """A program by its word."""
    if text not in PROGRAM_WORDS:
        raise Faulty(SPELLING)
    return PROGRAM_WORDS.index(text)


def policy(text):
    """A policy by its name."""
    if text not in model.POLICIES:
        raise Faulty(SPELLING)
    return text


def clerk(text):
    """A clerk's name as words say it: 1 to 32 letters, digits, dots, low lines and hyphens, the first no hyphen."""
    if not re.fullmatch("[A-Za-z0-9._][A-Za-z0-9._-]{0,31}", text, re.ASCII):
        raise Faulty(SPELLING)
    return text


FLAG, EITHER_SIGN, AMOUNT = whole(0, 1), whole(-99_999_999, 99_999_999), whole(0, 99_999_999)
STUDENT, YEAR, TERM, BREAKS = whole(1, 10**12 - 1), whole(2000, 2099), whole(1, 8), whole(0, 8)
SIDE = [EITHER_SIGN, *[AMOUNT] * 8, EITHER_SIGN, *[AMOUNT] * 6]
KEY = [whole(0, 999_999), whole(1, 10**12 - 1)]
REFERENCE = whole(0, 10**12 - 1)
MONEY = [STUDENT, YEAR, TERM, program, cents]
KINDS = {
    "school": [whole(1, 999_999), whole(2, 3), whole(1, 40)],
    "calendar": [YEAR, TERM, FLAG, day, day, BREAKS],
    "prior": [STUDENT, whole(0, 2**32 - 1)],
    "apply": [
        STUDENT, YEAR, whole(1, 99), whole(1900, 2099), whole(0, 2), whole(1, 30), *[FLAG] * 10, FLAG, *SIDE, FLAG, FLAG,
        whole(0, 120), *SIDE,
    ],
    "enrol": [STUDENT, YEAR, TERM, whole(0, 255)],
    "originate": [STUDENT, YEAR, whole(0, 999_999)],
    "pay": MONEY,
    "withdraw": [STUDENT, YEAR, TERM, day, day, *[cents] * 7],
    "repay": MONEY,
    "adjust": MONEY,
    "cost": [STUDENT, YEAR, whole(0, 999_999)],
    "sent": [*MONEY, day, REFERENCE],
    "amend": [*KEY, whole(1, 3), whole(1, 7), REFERENCE],
}


# The rows of words that are commands: the words that stand, and the numbers and names behind them.
COMMANDS = [
    (["found"], []), (["file"], []), (["book"], KEY[1:]), (["quote"], [KEY[0], STUDENT, YEAR, TERM]),
    (["report", "standing"], [YEAR]), (["report", "awards"], [YEAR]), (["report", "returns"], [YEAR]), (["report", "lifetime"], []),
    (["report", "stamps"], []), (["report", "seal"], []), (["report", "seals"], []), (["report", "export"], [YEAR]),
    (["fund"], [KEY[0], YEAR, TERM, whole(1, 99_999_999), policy, whole(1, 999_999_000_000)]),
    (["generate"], [whole(0, 10**12 - 1), whole(1, 20_000)]), (["check", "rows"], []), (["check", "book"], []),
]


def behind_at(words):
    """The stamp that `at`, a day and a clerk say in front of words, and the words behind; that of nobody where words don't begin so,
    and no words where the day or the clerk is none."""
    if words[:1] != ["at"]:
        return model.Stamp(), words
    try:
        return model.Stamp(day(words[1]), clerk(words[2])), words[3:]
    except (Faulty, IndexError):
        return None, []


def command_of(words):
    """The words of a command that stand, and what is behind them, or none where the words are no command's."""
    for names, fields in COMMANDS:
        if words[:len(names)] == names and len(words) == len(names) + len(fields):
            try:
                return names, [read(word) for read, word in zip(fields, words[len(names):])]
            except Faulty:
                return None
    return None


@dataclass(frozen=True)
class RowError:
    """The column at which a row is none, 0 for all of them, and the cause."""
    field: int
    cause: int


def columns_of(kind, columns):
    """How the columns behind the kind are read, or none where there aren't as many as the kind has."""
    fields = KEY + KINDS[kind]
    if kind != "calendar":
        return fields if len(columns) == len(fields) else None
    if len(columns) < len(fields):
        return None
    try:
        count = BREAKS(columns[len(fields) - 1])
    except Faulty:
        return fields
    fields = fields + [day, day] * count
    return fields if len(columns) == len(fields) else None


def filing_of(row):
    """The filing that a row is, or the first cause that it is none."""
    kind, *columns = row
    if kind not in KINDS:
        return RowError(1, 1)
    fields = columns_of(kind, columns)
    if fields is None:
        return RowError(0, 2)
    numbers = []
    for column, (read, text) in enumerate(zip(fields, columns), 2):
        try:
            numbers.append(read(text))
        except Faulty as faulty:
            return RowError(column, *faulty.args)
    return made(kind, *numbers)


def made(kind, school, number, *rest):
    """The filing of a kind with these numbers."""
    if kind == "calendar":
        year, term, extra, first, last, _, *days = rest
        return model.Calendar(school, number, year, term, bool(extra), first, last, tuple(zip(days[::2], days[1::2])))
    if kind == "apply":
        return application(school, number, *rest)
    if kind == "withdraw":
        return model.Withdrawal(school, number, *rest[:6], tuple(rest[6:]))
    plain = {
        "school": model.School, "prior": model.PriorUse, "enrol": model.Enrolment, "originate": model.Origination,
        "pay": model.Payment, "repay": model.Repayment, "adjust": model.Adjustment, "cost": model.ChangedCost, "sent": model.Sending,
        "amend": model.Amendment,
    }
    return plain[kind](school, number, *rest)


def application(school, number, student, year, transaction, birth_year, region, family, *rest):
    """The application of these numbers."""
    answers, student_file, rest = rest[:10], rest[10], rest[11:]
    own, (parents_married, parents_file, parent_age), parents = rest[:16], rest[16:19], rest[19:]
    names = ["married", "graduate", "bachelor", "veteran", "dependents", "orphan", "ward", "foster", "emancipated", "homeless"]
    return model.Application(
        school, number, student, year, transaction, birth_year, region, family, bool(student_file), bool(parents_file),
        bool(parents_married), parent_age, model.Household(*own), model.Household(*parents),
        **{name: bool(answer) for name, answer in zip(names, answers)},
    )


def rows_of(text):
    """The records of comma-separated values behind one byte order mark, without empty lines: a field may stand in quotes, in which
    two quotes are one; CR, LF or both end a record. Bytes are told by the characters of their codes."""
    rows, row, field, state = [], [], "", "start"
    for sign in text.removeprefix(b"\xef\xbb\xbf").decode("latin-1"):
        if state == "quoted":
            state, field = ("quote", field) if sign == '"' else ("quoted", field + sign)
        elif state == "quote" and sign == '"':
            state, field = "quoted", field + sign
        elif sign in "\r\n":
            if state != "start":
                rows.append([*row, field])
            row, field, state = [], "", "start"
        elif sign == ",":
            row, field, state = [*row, field], "", "field"
        elif sign == '"' and state in ("start", "field"):
            state = "quoted"
        else:
            state, field = "inside", field + sign
    return rows if state == "start" else [*rows, [*row, field]]


def book_of(tables):
    """The year book of a text's tables."""
    by_size = lambda section, key: model.BySize(tuple(tables[section][key]), tables[section][f"{key}_extra"])
    rows = lambda table: tuple(model.Row(row["over"], row["base"], row["rate"]) for row in tables[table])
    protection, schedule, payroll = tables["protection"], tables["schedule"], tables["payroll"]
    return model.YearBook(
        year=tables["year"], maximum=tables["pell"]["maximum"], minimum=tables["pell"]["minimum"], **tables["percent"],
        poverty=tuple(by_size("poverty", region) for region in ("contiguous", "alaska", "hawaii")), **payroll,
        parents=by_size("protection", "parents"), dependent_student=protection["dependent_student"],
        single_student=protection["single_student"], married_student=protection["married_student"],
        single_parent=by_size("protection", "single_parent"), married_parent=by_size("protection", "married_parent"),
        employment_cap=tables["employment"]["cap"], employment_rate=tables["employment"]["rate"], **tables["assets"],
        business=rows("business"), bracket=rows("bracket"),
        age=tuple(model.AgeRow(row["from"], row["single"], row["married"]) for row in tables["age"]), **schedule,
        ceiling=tables["ceiling"]["percent"] if tables["form"] == 2 else 0,
    )


def money(amount):
    """Whole dollars, a point, two digits."""
    return f"{amount // 100}.{amount % 100:02}"


def outcome_text(outcome):
    """An outcome as a line tells it."""
    if isinstance(outcome, model.Index):
        return f"index {outcome.formula} {outcome.index} {outcome.way} {outcome.award}"
    if isinstance(outcome, model.Paid):
        return f"paid {money(outcome.net)} {outcome.used}"
    if isinstance(outcome, model.Returned):
        return f"returned {percent_text(outcome.percent)} {money(outcome.school)} {money(outcome.owed)} {money(outcome.post)}"
    return "noted"


class Desk:
    """An office with its history, and the stamps of the filings in front; those behind them have none noted."""

    def __init__(self):
        self.history = []
        self.stamps = []

    def answer(self, words, text):
        """The status and the text of a command, for an input, on this office, which was founded. What it files has its stamp."""
        stamp, behind = behind_at(words)
        command = command_of(behind)
        if command is None:
            return 2, "fault usage\n"
        names, given = command
        if names == ["found"]:
            return 6, "fault office exists\n"
        if names[0] == "check":
            return 0, check_rows(text) if names[1] == "rows" else check_book(text)
        if names[0] == "report":
            return 0, self.report(names[1], *given)
        inputs = {"file": [text], "book": [text], "generate": [text]}.get(names[0], [])
        told = getattr(self, names[0])(*given, *inputs)
        self.note(stamp)
        return 0, told

    def note(self, stamp):
        """The filings that have no stamp noted have this one."""
        self.stamps += [stamp] * (len(self.history) - len(self.stamps))

    def line(self, row, filing):
        """The line that answers a filing, which joins the history where it is admitted."""
        front = len(self.history)
        answer = model.file(self.history, filing)
        if isinstance(answer, model.Refused):
            return f"{row} {front} refused {answer.rule} {answer.kept} {answer.bound}\n"
        if isinstance(answer, model.Again):
            return f"{row} {front} again {answer.position} {outcome_text(answer.outcome)}\n"
        return f"{row} {front} accepted {front + 1} {outcome_text(answer.outcome)}\n"

    def file(self, text):
        """What `file` prints."""
        lines = []
        for row, columns in enumerate(rows_of(text), 1):
            filing = filing_of(columns)
            if isinstance(filing, RowError):
                lines.append(f"{row} error {filing.field} {filing.cause}\n")
            else:
                lines.append(self.line(row, filing))
        return "".join(lines)

    def book(self, number, text):
        """What `book NUMBER` prints."""
        try:
            return self.line(1, model.Book(0, number, book_of(year_book.read(text))))
        except year_book.NotABook as error:
            return f"{error.line}\n"

    def quote(self, school, student, year, term):
        """What `quote SCHOOL STUDENT YEAR TERM` prints."""
        return f"quote {model.quote(self.history, school, student, year, term) // 100}\n"

    def fund(self, school, year, term, amount, policy, number):
        """What `fund SCHOOL YEAR TERM AMOUNT POLICY NUMBER` prints."""
        payments, left = model.plan_round(self.history, school, year, term, amount, model.POLICIES[policy], number)
        return "".join(self.line(row, payment) for row, payment in enumerate(payments, 1)) + f"left {left}\n"

    def generate(self, seed, students, text):
        """What `generate SEED STUDENTS` prints."""
        try:
            book = book_of(year_book.read(text))
        except year_book.NotABook as error:
            return f"{error.line}\n"
        totals = Counter()
        for filing in generated.filings(book, seed, students, lambda *place: model.quote(self.history, *place)):
            totals += counted(filing, model.file(self.history, filing))
        return four_lines(totals)

    def report(self, which, year=None):
        """What `report standing YEAR`, `report awards YEAR`, `report returns YEAR`, `report export YEAR`, `report lifetime`, `report
        stamps`, `report seal` and `report seals` print."""
        if which == "export":
            import audit_model  # which stands on this module
            return audit_model.export(self.history, year, self.stamps)
        if which in ("seal", "seals"):
            import records  # which stands on this module
            lines = records.seal_lines(records.payloads_of_office(self.history, self.stamps))
            return f"{lines[-1]}\n" if which == "seal" else "".join(f"{line}\n" for line in lines) + f"rows {len(lines)}\n"
        read = [self.stamps] if which == "stamps" else [] if year is None else [year]
        lines = REPORTS[which](self.history, *read)
        return "".join(f"{line}\n" for line in lines) + f"rows {len(lines)}\n"


def counted(filing, answer):
    """What a row of a generated year counts."""
    if isinstance(answer, model.Refused):
        return Counter(refused=1)
    if not isinstance(answer, model.Admitted):
        return Counter(accepted=1)
    pell = filing.cents if isinstance(filing, model.Payment) else 0
    returned = answer.outcome.school if isinstance(filing, model.Withdrawal) else 0
    return Counter(accepted=1, pell=pell, returned=returned)


def four_lines(totals):
    """What `generate` prints of such counts."""
    sums = "".join(f"{word} {money(totals[word])}\n" for word in ["pell", "returned"])
    return f"accepted {totals['accepted']}\nrefused {totals['refused']}\n{sums}"


def generate_apart(seed, students, book):
    """What `generate SEED STUDENTS` prints on an office without filings, in no long time: students share nothing but the founding
    rows, so each is judged on those and on rows of its own."""
    history, totals = [], Counter()
    for filing in generated.founding(book):
        totals += counted(filing, model.file(history, filing))
    drawn = generated.draws(seed)
    for student in range(1, students + 1):
        own = list(history)
        for filing in generated.of_student(book.year, student, [next(drawn) for _ in range(4)], lambda *place: model.quote(own, *place)):
            totals += counted(filing, model.file(own, filing))
    return four_lines(totals)


def percent_text(tenths):
    """Tenths of a percent with one decimal."""
    return f"{tenths // 10}.{tenths % 10}"


def standing_lines(history, year):
    """Student, formula, index, way, Scheduled Award, net Pell of the year, lifetime units used."""
    return [
        f"{student:>12} {row.formula} {row.index:>7} {row.way:<10} {row.award:>6} {money(row.paid):>12} {row.used:>7}"
        for student, row in model.standing_report(history, year)
    ]


def award_lines(history, year):
    """School, student, term, program, net."""
    return [
        f"{school:>6} {student:>12} {term} {PROGRAM_WORDS[program]:<5} {money(amount):>12}"
        for school, student, term, program, amount in model.award_report(history, year)
    ]


def return_lines(history, year):
    """School, student, term, percent earned, the school's return, what is owed, what may follow, the due day."""
    return [
        f"{row.school:>6} {row.student:>12} {row.term} {percent_text(row.percent):>5} {money(row.returned):>12} {money(row.owed):>12}"
        f" {money(row.post):>12} {row.due.isoformat() if row.due else 'none'}"
        for row in model.return_report(history, year)
    ]


def lifetime_lines(history):
    """Student, units before this office, all units used."""
    return [f"{student:>12} {prior:>7} {used:>7}" for student, prior, used in model.lifetime_report(history)]


def stamp_lines(history, stamps):
    """Position, day, clerk."""
    return [f"{position} {stamp.day.isoformat()} {stamp.clerk}" for position, stamp in model.stamp_report(history, stamps)]


REPORTS = {"standing": standing_lines, "awards": award_lines, "returns": return_lines, "lifetime": lifetime_lines, "stamps": stamp_lines}


def check_rows(text):
    """What `check rows` prints."""
    filings = [filing_of(columns) for columns in rows_of(text)]
    errors = [filing for filing in filings if isinstance(filing, RowError)]
    lines = [f"{row} error {filing.field} {filing.cause}\n" if filing in errors else f"{row} fine\n" for row, filing in enumerate(filings, 1)]
    return "".join(lines) + f"rows {len(filings)} errors {len(errors)}\n"


def check_book(text):
    """What `check book` prints."""
    try:
        year_book.read(text)
    except year_book.NotABook as error:
        return f"{error.line}\n"
    return "1 fine\n"
