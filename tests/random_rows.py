"""Random rows for an office, guided by its history so that every rule is met and broken."""
from datetime import date, timedelta

import desk
import model

PROGRAMS = desk.PROGRAM_WORDS
BAD_TEXTS = ["", "x", "01", "-0", "+1", " 1", "1 ", "1.5", "1e3", "-1", "0", "9", "99999999999999999999", "1.00", "2025-02-30", "2025-8-25", "1899-12-31", "0.5", "00.05", "1000000.00", "Pell", "sub", "\u0661"]
NAMES = ["loan", "book", "Pay", "", " pay", "payment"]


class Rows:
    """Rows for an office of a few schools and students in two or three award years."""

    def __init__(self, rng, history):
        self.rng = rng
        self.history = history
        self.number = 1_000
        self.sent = []
        self.codes = rng.sample([1, 101, 102, 103, 999_999], rng.choice([1, 2, 2, 3]))
        self.students = rng.sample([1, 2, 3, 4, 5001, 10**12 - 1], rng.choice([1, 2, 3, 4]))
        self.years = rng.choice([[2025], [2025, 2026], [2024, 2025]])
        self.shift = {code: rng.choice([0, 0, 7, 60, 150]) for code in self.codes}

    def setting(self):
        """The rows that an office begins with: schools, terms, and students who come to some of them."""
        rows = [self.school(code) for code in self.codes]
        for code in self.codes:
            for year in self.years:
                rows += [self.calendar(code, year, term) for term in range(1, self.rng.choice([3, 4, 4, 5]))]
        for student in self.students:
            if self.rng.random() < 0.4:
                rows.append(self.prior(student))
            for code in self.rng.sample(self.codes, self.rng.randint(1, len(self.codes))):
                year = self.years[0] if self.rng.random() < 0.6 else self.rng.choice(self.years)
                rows += [self.application(code, student, year, transaction=1), self.originate(code, student, year)]
                rows += [self.enrol(code, student, year, term) for term in (1, 2, 3) if self.rng.random() < 1.1 - 0.2 * term]
        return rows

    def next(self):
        """A row: of any kind, one that was sent before, or one that is none."""
        way = self.rng.random()
        if self.sent and way < 0.06:
            return self.rng.choice(self.sent)
        if way < 0.12:
            return self.damaged(self.of_any_kind())
        row = self.of_any_kind()
        if way < 0.15:
            row = self.with_key(row, self.any_key())
        if way < 0.17:
            row = self.with_key(row, (self.rng.choice([0, 77, *self.codes]), self.fresh()))
        self.sent.append(row)
        return row

    def of_any_kind(self):
        """A row of some kind, those of money most often."""
        kinds = [self.pay] * 10 + [self.withdraw] * 3 + [self.repay] * 3 + [self.adjust] * 3 + [self.enrol] * 3
        kinds += [self.application] * 3 + [self.originate] * 2 + [self.calendar] * 2 + [self.school] + [self.prior] * 2
        kinds += [self.change_cost] * 2 + [self.send_back] * 3 + [self.amend]
        return self.rng.choice(kinds)()

    # Keys, places and figures

    def fresh(self):
        self.number += 1
        return self.rng.choice([self.number] * 20 + [10**12 - 1 - self.number])

    def any_key(self):
        """The key of a filing that stands, or of a new one."""
        if not self.history:
            return 0, self.fresh()
        filing = self.rng.choice(self.history)
        return filing.school, filing.number

    def with_key(self, row, key):
        kind, _, _, *rest = row.split(",")
        return ",".join([kind, *map(str, key), *rest])

    def row(self, kind, school, *fields):
        """A row of a kind under a new number of its school."""
        return ",".join(map(str, [kind, school, self.fresh(), *fields]))

    def any(self, kind):
        """A filing of a kind that stands, or none."""
        filings = [filing for filing in self.history if isinstance(filing, kind)]
        return self.rng.choice(filings) if filings else None

    def place(self, kind=model.Enrolment):
        """A school, student, year and term: mostly of a filing that stands, and sometimes any term of an origination."""
        filing = self.any(kind) or self.any(model.Enrolment)
        way, term = self.rng.random(), self.rng.randint(1, 4)
        if filing is None or way < 0.05:
            return self.rng.choice(self.codes), self.rng.choice(self.students), self.rng.choice(self.years), term
        if way < 0.15:
            filing = self.any(model.Origination) or filing
            return filing.school, filing.student, filing.year, term
        return filing.school, filing.student, filing.year, filing.term

    def near(self, *bounds):
        """An amount of cents at, about or below one of these bounds."""
        bound = max(0, self.rng.choice(bounds))
        return min(99_999_999, max(0, self.rng.choice([bound, bound, bound + 100, bound + 1, bound - 100, bound // 2, 0, 100])))

    # Kinds

    def school(self, code=None):
        code = code or self.rng.choice(self.codes)
        return self.row("school", 0, code, self.rng.choice([2, 2, 3]), self.rng.choice([12, 12, 12, 24, 40, 6, 1]))

    def calendar(self, code=None, year=None, term=None):
        code, year = code or self.rng.choice(self.codes), year or self.rng.choice(self.years)
        term, wild = term or self.rng.randint(1, 6), self.rng.random() < 0.2
        first = date(year, 8, 25) + timedelta(120 * (term - 1) + self.shift[code] + (self.rng.randint(-150, 150) if wild else 0))
        last = first + timedelta(self.rng.choice([99, 109, 110, 60, 0, 1, 200]) if wild else self.rng.choice([99, 105, 110]))
        if wild and self.rng.random() < 0.2:
            last = first - timedelta(1)
        breaks = self.breaks(first, last)
        days = [day for pair in breaks for day in pair]
        extra = int(term > 2 and self.rng.random() < 0.8 or self.rng.random() < 0.1)
        return self.row("calendar", code, year, term, extra, first, last, len(breaks), *days)

    def breaks(self, first, last):
        """Up to four breaks in order, and sometimes one that isn't."""
        breaks, day = [], first
        for _ in range(self.rng.choice([0, 0, 1, 2, 4])):
            begin = day + timedelta(self.rng.choice([1, 10, 20, 0 if self.rng.random() < 0.1 else 5]))
            end = begin + timedelta(self.rng.choice([0, 3, 4, 5, 9, -1 if self.rng.random() < 0.1 else 1]))
            if end < last or self.rng.random() < 0.2:
                breaks.append((begin, end))
            day = end
        if breaks and self.rng.random() < 0.03:
            breaks.reverse()
        return breaks

    def prior(self, student=None):
        units = self.rng.choice([0, 100_000, 450_000, 550_000, 599_999, 600_000, 600_001, 2**32 - 1, self.rng.randint(0, 600_000)])
        return self.row("prior", 0, student or self.rng.choice(self.students), units)

    def application(self, code=None, student=None, year=None, transaction=None):
        rng = self.rng
        student, year = student or rng.choice(self.students), year or rng.choice(self.years * 10 + [2030])
        code = code or rng.choice([0, *self.codes])
        if transaction is None:
            in_force = model.application_of(self.history, student, year)
            transaction = rng.choice([1, 2, 99, *[(in_force.transaction if in_force else 0) + 1] * 6])
        answers = [int(rng.random() < chance) for chance in (0.15, 0.02, 0.03, 0.03, 0.2, 0.03, 0.03, 0.03, 0.03, 0.03)]
        birth = rng.choice([year - 19] * 6 + [year - 23, year - 24, year - 40, year - 66, year, 1900] + [year + 1] * (rng.random() < 0.2))
        family = rng.choice([1, 2, 3, 30]) if rng.random() < 0.1 else self.family(answers, birth <= year - 24)
        own, parents = self.side(), self.side()
        return self.row(
            "apply", code, student, year, min(99, transaction), birth, rng.choice([0, 0, 1, 2]), family, *answers,
            int(rng.random() < 0.9), *own, rng.randint(0, 1), int(rng.random() < 0.9), rng.choice([0, 25, 26, 48, 65, 120]), *parents,
        )

    def family(self, answers, is_of_age):
        """A size of family that the formula can have."""
        married, _, bachelor, _, dependents, *_ = answers
        if dependents:
            return 2 + married + self.rng.choice([0, 1, 3, 6])
        if is_of_age or sum(answers) > bachelor:
            return 1 + married
        return self.rng.choice([2, 3, 4, 4, 6, 8, 9])

    def side(self):
        """The amounts of a household: mostly of middling income, and sometimes at an end of a range."""
        rng = self.rng
        income = rng.choice([0, 6_000, 20_000, 43_505, 43_506, 60_000, 85_000, 120_000, 400_000, -5_000])
        rest = [rng.choice([0] * 8 + [900, 12_000, 250_000, 99_999_999]) for _ in range(8)]
        earned = rng.choice([0, max(income, 0), max(income, 0) // 2])
        tax = rng.choice([0, income // 10, income // 10, -1_000])
        worth = [rng.choice([0, 0, 1_000, 20_000, 165_001, 500_000]) for _ in range(4)]
        return [income, *rest, tax, earned, rng.choice([0, 0, earned]), *worth]

    def enrol(self, code=None, student=None, year=None, term=None):
        place = self.place(model.Payment) if code is None else (code, student, year, term)
        credits = self.rng.choice([12, 12, 9, 6, 6, 5, 3, 3, 1, 1, 15, 40, 0, 41] if code is None else [12, 12, 9, 6, 5, 40])
        return self.row("enrol", *place, credits)

    def originate(self, code=None, student=None, year=None):
        if code is None:
            code, student, year, _ = self.place()
        return self.row("originate", code, student, year, self.rng.choice([24_000, 24_000, 24_000, 9_000, 3_000, 1, 0, 999_999]))

    def change_cost(self):
        """A changed cost, mostly at what is paid there of the year, a dollar below it or above it."""
        code, student, year, _ = self.place(self.rng.choice([model.Payment, model.Payment, model.Enrolment]))
        paid = model.net(self.history, student, code, year)
        least = -(-paid // 100)
        costs = [least, least + 1, max(0, least - 1), paid // 100, 2 * least] if paid else [0, 1, 3_000, 9_000]
        return self.row("cost", code, student, year, min(999_999, self.rng.choice([*costs, 24_000, 999_999])))

    def cost_left(self, place):
        """What the cost in force still leaves at a school in a year, in cents."""
        code, student, year, _ = place
        return 100 * model.cost_of(self.history, student, code, year) - model.net(self.history, student, code, year)

    def room(self, place):
        """What the term, the year and the lifetime limit still leave for Pell, in cents."""
        code, student, year, term = place
        if not model.school_at(self.history, code)[0]:
            return [100_000]
        award = model.scheduled(self.history, student, year)
        in_year = model.net(self.history, student, year=year, program=model.PELL)
        in_term = model.net(self.history, student, code, year, term, model.PELL)
        used = model.used(self.history, student)
        return [
            model.payment_of_term(self.history, student, code, year, term) - in_term, 100 * award - in_year, 150 * award - in_year,
            (model.LIFETIME_LIMIT - used) * award // 1_000 // 100 * 100, (model.LIFETIME_LIMIT - used) * award // 1_000 // 100 * 100 + 100,
        ]

    def pay(self):
        place = self.place(self.rng.choice([model.Enrolment, model.Enrolment, model.Enrolment, model.Withdrawal]))
        program = self.rng.choice(["pell"] * 7 + ["fseog"] * 2 + PROGRAMS)
        withdrawal = self.withdrawal_of(place)
        if withdrawal and self.rng.random() < 0.7:
            could = [each for each in withdrawal.could if each] or [1_000]
            amount = self.near(*could)
        elif program == "pell":
            amount = self.near(*self.room(place))
            amount = amount if self.rng.random() < 0.1 else amount // 100 * 100
        else:
            amount = self.near(100_000, 400_000, 250_000, 1_000_000, 2_400_000, self.cost_left(place))
        return self.row("pay", *place, program, desk.money(amount))

    def withdrawal_of(self, place):
        code, student, year, term = place
        return model.earliest(self.history, model.Withdrawal, school=code, student=student, year=year, term=term)[1]

    def withdraw(self):
        rng = self.rng
        place = self.place(rng.choice([model.Payment, model.Enrolment]))
        _, term = model.term_at(self.history, place[0], place[2], place[3])
        first, last = (term.first, term.last) if term else (date(2025, 8, 25), date(2025, 12, 12))
        left = first + timedelta(rng.choice([0, 10, 20, 30, 40, 60, 66, (last - first).days, -1, (last - first).days + 1]))
        determined = left + timedelta(rng.choice([7, 0, 30, 30, -1 if rng.random() < 0.3 else 14]))
        could = [0] * 6
        if rng.random() < 0.4:
            could[rng.randrange(6)] = self.near(50_000, 100_000, 400_000)
        if rng.random() < 0.3:
            could[model.PELL] = self.near(*self.room(place)) // 100 * 100
        charges = rng.choice([0, 10_000, 100_000, 400_000, 99_999_999])
        return self.row("withdraw", *place, left, determined, *map(desk.money, [charges, *could]))

    def repay(self):
        withdrawal = self.any(model.Withdrawal)
        place, program, amount = self.place(), self.rng.choice(PROGRAMS), self.near(10_000)
        if withdrawal:
            place = withdrawal.school, withdrawal.student, withdrawal.year, withdrawal.term
            owed = model.sheet_at(self.history, self.history.index(withdrawal) + 1).owed
            chosen = self.rng.choice([each for each in model.GRANTS if owed[each]] or [model.PELL])
            program, amount = PROGRAMS[chosen], self.near(owed[chosen], owed[chosen] // 3)
        return self.row("repay", *place, program, desk.money(amount))

    def adjust(self):
        payment = self.any(model.Payment)
        place, program, amount = self.place(), self.rng.choice(PROGRAMS), self.near(10_000)
        if payment:
            place = payment.school, payment.student, payment.year, payment.term
            code, student, year, term = place
            net = model.net(self.history, student, code, year, term, payment.program)
            program, amount = PROGRAMS[payment.program], self.near(net, net // 2)
        return self.row("adjust", *place, program, desk.money(amount))

    def send_back(self):
        """A return that is sent back: mostly what is left of one or about that, on the day on which it was determined, the day
        before, or a day about that on which it is due. Where nobody has withdrawn it is mostly a withdrawal."""
        rng, place = self.rng, self.place()
        program, amount, day = rng.choice(PROGRAMS), self.near(10_000), date(self.years[0], 10, 1)
        withdrawal = self.paid_withdrawal()
        if withdrawal is None and rng.random() < 0.8:
            return self.withdraw()
        if withdrawal and rng.random() < 0.95:
            place = withdrawal.school, withdrawal.student, withdrawal.year, withdrawal.term
            returned = model.sheet_at(self.history, self.history.index(withdrawal) + 1).returned
            chosen = rng.choice([each for each in model.PROGRAMS if returned[each]] or [model.PELL])
            left = returned[chosen] - model.sent(self.history, model.place_of(withdrawal), chosen)
            program, amount = PROGRAMS[chosen], self.near(*([left, left, left // 3] if left else [10_000]))
            day = withdrawal.determined + timedelta(rng.choice([0, 0, 1, 20, 44, 45, 46, 100, -1]))
        reference = rng.choice([0, 1, 4711, 10**12 - 1, rng.randrange(10**12)])
        return self.row("sent", *place, program, desk.money(amount), day, reference)

    def paid_withdrawal(self):
        """A withdrawal from a term in which something was paid, or any one, or none."""
        places = [model.place_of(payment) for _, payment in model.filings_of(self.history, model.Payment)]
        paid = [filing for _, filing in model.filings_of(self.history, model.Withdrawal) if model.place_of(filing) in places]
        return self.rng.choice(paid) if paid else self.any(model.Withdrawal)

    def amend(self):
        """A record of a correction of a filing that stands, or of any key."""
        rng = self.rng
        of_school, of_number = self.any_key() if rng.random() < 0.8 else (rng.randrange(10**6), rng.randint(1, 10**12 - 1))
        code, reference = rng.choice([0, 0, *self.codes]), rng.choice([0, 4711, 10**12 - 1])
        return self.row("amend", code, of_school, of_number, rng.randint(1, 3), rng.randint(1, 7), reference)

    # Rows that are none

    def damaged(self, row):
        """A row with a column more, a column less, a bad column, or another name."""
        rng, columns = self.rng, row.split(",")
        way = rng.random()
        if way < 0.15:
            columns.pop(rng.randrange(len(columns)))
        elif way < 0.3:
            columns.insert(rng.randrange(len(columns) + 1), rng.choice(["", "0", "1"]))
        elif way < 0.4:
            columns[0] = rng.choice(NAMES)
        else:
            for _ in range(rng.choice([1, 1, 2])):
                columns[rng.randrange(1, len(columns))] = rng.choice(BAD_TEXTS)
        if rng.random() < 0.1:
            columns = [f'"{column}"' for column in columns]
        return ",".join(columns) or '""'
