"""A loan office in plain Python, written apart from the proved code: its rows, its rules, its lines and its journal. Each filing is
judged on the whole list of those before it."""
import ruled_model
from desk import Faulty, cents, whole

MOST_FILINGS = 200_000
PROGRAMS = ["unsub", "sub"]


def program(text):
    """A program of loans by its word."""
    if text not in PROGRAMS:
        raise Faulty(3)
    return PROGRAMS.index(text)


STUDENT, YEAR, DOLLARS = whole(1, 10**12 - 1), whole(2000, 2099), whole(0, 999_999)
KEY = [(whole(0, 999_999), 4), (whole(1, 10**12 - 1), 8)]
AMOUNT = [(STUDENT, 8), (YEAR, 2), (program, 1), (cents, 8)]
# The code of each kind, and how each field behind the key is read and how many bytes it takes.
KINDS = {
    "limits": (101, [(YEAR, 2), *[(DOLLARS, 4)] * 16]),
    "borrower": (102, [(STUDENT, 8), (YEAR, 2), (whole(1, 99), 1), (whole(1, 4), 1), (whole(0, 1), 1), (DOLLARS, 4), (DOLLARS, 4)]),
    "before": (103, [(STUDENT, 8), (DOLLARS, 4), (DOLLARS, 4)]),
    "lend": (104, AMOUNT),
    "cancel": (105, AMOUNT),
}
# Where each table of limits begins behind the year: by level, by level of dependents and of independents, at level 4, and the
# aggregates.
SUB, DEPENDENT, INDEPENDENT, GRADUATE, AGGREGATE_SUB, AGGREGATE = 1, 5, 8, 11, 12, 14


class Filing(ruled_model.Filing):
    def payload(self):
        """The bytes of the filing."""
        code, fields = KINDS[self.kind]
        numbers = zip((self.school, self.number, *self.facts), [width for _, width in KEY + fields])
        return bytes([code]) + b"".join(number.to_bytes(width, "little") for number, width in numbers)


def filing_of(columns):
    """The filing of a row's columns, or the field and the cause of its first fault."""
    if columns[0] not in KINDS:
        return 1, 1
    fields = KEY + KINDS[columns[0]][1]
    if len(columns) != 1 + len(fields):
        return 0, 2
    numbers = []
    for place, ((read, _), text) in enumerate(zip(fields, columns[1:]), 2):
        try:
            numbers.append(read(text))
        except Faulty as faulty:
            return place, *faulty.args
    return Filing(columns[0], numbers[0], numbers[1], tuple(numbers[2:]))


class LoanOffice(ruled_model.RuledOffice):
    """An office of loans."""

    def of_kind(self, kind):
        return [(place, filing) for place, filing in enumerate(self.filings, 1) if filing.kind == kind]

    def limits(self, year):
        """The place and the numbers of the limits of a year."""
        return next(((place, filing.facts) for place, filing in self.of_kind("limits") if filing.facts[0] == year), (0, None))

    def records(self, student):
        return [filing.facts for _, filing in self.of_kind("borrower") if filing.facts[0] == student]

    def record(self, student, year):
        """The record with the highest transaction of a year."""
        return max((record for record in self.records(student) if record[1] == year), key=lambda record: record[2], default=None)

    def before(self, student):
        return next(((place, filing.facts) for place, filing in self.of_kind("before") if filing.facts[0] == student), (0, (student, 0, 0)))

    def net(self, student, years=None, programs=(0, 1)):
        """The loans less the cancellations of a student, of some years and programs."""
        total = 0
        for filing in self.filings:
            if filing.kind in ("lend", "cancel"):
                whose, year, which, amount = filing.facts
                if whose == student and (years is None or year in years) and which in programs:
                    total += amount if filing.kind == "lend" else -amount
        return total

    def over_limits(self, own, last, nets, tried):
        """The first limit above which nets stand: (rule, net, limit), of those that are tried. `own` is the record of the year at
        hand, and `last` the last one of the student."""
        sub, year, all_sub, whole_net = nets
        bounds, aggregates = self.limits(own[1])[1], self.limits(last[1])[1]
        level, independent = own[3], own[4]
        total = bounds[GRADUATE] if level == 4 else bounds[(INDEPENDENT if independent else DEPENDENT) + level - 1]
        graduate = last[3] == 4
        most_sub = aggregates[AGGREGATE_SUB + graduate]
        most = aggregates[AGGREGATE + (2 if graduate else last[4])]
        _, (_, before_sub, before_total) = self.before(own[0])
        for rule, kept, bound in [
            (116, sub, own[5]), (117, sub, bounds[SUB + level - 1]), (118, year, total), (119, 100 * before_sub + all_sub, most_sub),
            (120, 100 * before_total + whole_net, most), (121, year, own[6]),
        ]:
            if rule in tried and kept > 100 * bound:
                return rule, kept, 100 * bound
        return None

    def nets(self, student, year):
        return [self.net(student, [year], [1]), self.net(student, [year]), self.net(student, None, [1]), self.net(student)]

    def broken(self, filing):
        """The first rule that a filing breaks: its number, what stands, and what may stand."""
        if len(self.filings) >= MOST_FILINGS:
            return 110, MOST_FILINGS, MOST_FILINGS
        return getattr(self, f"broken_{filing.kind}")(filing)

    def broken_limits(self, filing):
        year = filing.facts[0]
        place = self.limits(year)[0]
        return (14, filing.school, 0) if filing.school else (111, place, year) if place else None

    def broken_borrower(self, filing):
        student, year, transaction, *_ = filing.facts
        if not self.limits(year)[0]:
            return 112, year, 0
        record = self.record(student, year)
        if record and transaction <= record[2]:
            return 113, transaction, record[2]
        nets = self.nets(student, year)
        tried = {116, 117, 118, 121} | ({119} if nets[2] else set()) | ({120} if nets[3] else set())
        over = self.over_limits(filing.facts, filing.facts, nets, tried)
        return over and (126, *over[1:])

    def broken_before(self, filing):
        student, sub, total = filing.facts
        place = self.before(student)[0]
        loan = next((place for place, loan in self.of_kind("lend") if loan.facts[0] == student), 0)
        if filing.school:
            return 14, filing.school, 0
        if sub > total:
            return 125, sub, total
        return (123, place, student) if place else (124, loan, student) if loan else None

    def broken_lend(self, filing):
        student, year, which, amount = filing.facts
        record = self.record(student, year)
        if not record:
            return 114, student, year
        if not amount:
            return 115, 0, 1
        nets = self.nets_with(filing)
        return self.over_limits(record, self.records(student)[-1], nets, {118, 120, 121} | ({116, 117, 119} if which else set()))

    def nets_with(self, filing):
        student, year, which, amount = filing.facts
        sub = amount if which else 0
        return [net + more for net, more in zip(self.nets(student, year), [sub, amount, sub, amount])]

    def broken_cancel(self, filing):
        student, year, which, amount = filing.facts
        if not amount:
            return 115, 0, 1
        net = self.net(student, [year], [which])
        return (122, amount, net) if amount > net else None

    def outcome(self, filing):
        if filing.kind != "lend":
            return "noted"
        _, year, _, whole_net = self.nets_with(filing)
        return f"lent {money(year)} {money(100 * self.before(filing.facts[0])[1][2] + whole_net)}"

    def lines(self, rows):
        """The lines of an input's rows, given by their columns."""
        return "".join(f"{row} {self.line(columns)}\n" for row, columns in enumerate(rows, 1))

    def line(self, columns):
        filing = filing_of(columns)
        if not isinstance(filing, Filing):
            return "error %d %d" % filing
        return f"{len(self.filings)} {self.file(filing)}"

    def journal(self):
        """The bytes of the office's file."""
        payloads = [filing.payload() for filing in self.filings]
        return b"\1AIDPELL1" + (2).to_bytes(4, "little") + bytes(3) + b"".join(b"\1" + len(each).to_bytes(4, "little") + each for each in payloads) + b"\0"


def money(amount):
    return f"{amount // 100}.{amount % 100:02d}"
