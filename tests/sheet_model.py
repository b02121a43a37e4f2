"""The sheets of an office in plain Python, on its history and the stamps of its filings: what `aid_office sheet` writes, apart from the
proved code. Behind those of `SEALED` stands the seal (`sealed`)."""
from dataclasses import dataclass, fields
from datetime import date, timedelta

import audit_model
import desk
import model
import records

KINDS = {
    model.School: "school", model.Calendar: "calendar", model.PriorUse: "prior", model.Application: "apply", model.Enrolment: "enrol",
    model.Origination: "originate", model.Payment: "pay", model.Withdrawal: "withdraw", model.Repayment: "repay", model.Adjustment: "adjust",
    model.ChangedCost: "cost", model.Sending: "sent", model.Amendment: "amend",
}

# The sheets behind which the seal of the filings stands.
SEALED = ("list", "student", "need", "withdrawal", "review", "book")


def outcomes(history):
    """The outcome of each filing's admission, on those before it."""
    past, brought = [], []
    for filing in history:
        brought.append(model.file(past, filing).outcome)
    return brought


def day(number):
    """The day of a count from 1970-01-01."""
    return (date(1970, 1, 1) + timedelta(days=number)).isoformat()


def field_texts(filing):
    """The columns behind the key, as a row has them."""
    numbers = records.numbers_of(filing)
    if isinstance(filing, model.Calendar):
        return [*map(str, numbers[:3]), *map(day, numbers[3:5]), str(numbers[5]), *map(day, numbers[6:])]
    if isinstance(filing, (model.Amount, model.Sending)):
        behind = [day(numbers[5]), str(numbers[6])] if isinstance(filing, model.Sending) else []
        return [*map(str, numbers[:3]), desk.PROGRAM_WORDS[numbers[3]], desk.money(numbers[4]), *behind]
    if isinstance(filing, model.Withdrawal):
        return [*map(str, numbers[:3]), *map(day, numbers[3:5]), *map(desk.money, numbers[5:])]
    return [*map(str, numbers)]


def row(filing):
    """The row that files a filing; of a book the key and the year alone."""
    if isinstance(filing, model.Book):
        return f"book,{filing.school},{filing.number},{filing.book.year}"
    return ",".join([KINDS[type(filing)], str(filing.school), str(filing.number), *field_texts(filing)])


def clerk(stamp):
    """A clerk's name, or a hyphen without one."""
    return stamp.clerk or "-"


def table(lines):
    """Lines, and how many there are."""
    return "".join(f"{line}\n" for line in lines) + f"rows {len(lines)}\n"


def sealed(text, history, stamps):
    """A sheet with the line of the seal behind it."""
    return text + records.seal_lines(records.payloads_of_office(history, stamps))[-1] + "\n"


# The sections of a book and their keys, in the order of its fields; and the keys behind which a list of so many numbers stands.
SECTIONS = {
    "pell": "maximum minimum",
    "percent": "maximum_single maximum_other minimum_dependent_single minimum_dependent_other minimum_single_parent minimum_parent minimum_no_dependents",
    "poverty": "contiguous contiguous_extra alaska alaska_extra hawaii hawaii_extra",
    "payroll": "oasdi_cap oasdi_rate medicare_rate medicare_high threshold_single threshold_married",
    "protection": "parents parents_extra dependent_student single_student married_student single_parent single_parent_extra married_parent married_parent_extra",
    "employment": "cap rate", "assets": "parents_rate dependent_rate no_dependents_rate with_dependents_rate",
    "business": "over base rate", "age": "from single married",
    "schedule": "low_at low first_rate student_rate lowest_student", "bracket": "over base rate", "ceiling": "percent",
}
LISTS = {**dict.fromkeys(("contiguous", "alaska", "hawaii"), 8), **dict.fromkeys(("parents", "single_parent", "married_parent"), 5)}
TABLES = ("business", "age", "bracket")


def book_sheet(history, stamps, year):
    """What `book show` prints of the year's book, up to the line of its seal, which is a comment."""
    return book_part(history, stamps, year) + "# "


def book_part(history, stamps, year):
    """The figures of the year's book, and where it stands."""
    found = next(((at, filing) for at, filing in enumerate(history) if isinstance(filing, model.Book) and filing.book.year == year), None)
    if not found:
        return "none\n"
    at, filing = found
    figures = [(field.name, getattr(filing.book, field.name)) for field in fields(filing.book)]
    numbers = iter([number for name, value in figures for number in ([len(value)] if name in TABLES else []) + records.flat(value)])
    lines = [f"form = {2 if filing.book.ceiling else 1}", f"year = {next(numbers)}"]
    for section, keys in SECTIONS.items():
        if section == "ceiling" and not filing.book.ceiling:
            continue
        for _ in range(next(numbers) if section in TABLES else 1):
            lines += ["", f"[[{section}]]" if section in TABLES else f"[{section}]"]
            lines += [f"{key} = {[next(numbers) for _ in range(LISTS[key])] if key in LISTS else next(numbers)}" for key in keys.split()]
    lines += ["", f"# book at {at + 1}, {stamps[at].day.isoformat()} {clerk(stamps[at])}"]
    return "".join(f"{line}\n" for line in lines)


def list_lines(history, stamps):
    """A line for each filing."""
    told = zip(history, stamps, outcomes(history))
    return [
        f"{position} {stamp.day.isoformat()} {clerk(stamp)} {row(filing)} {desk.outcome_text(outcome)}"
        for position, (filing, stamp, outcome) in enumerate(told, 1)
    ]


def list_sheet(history, stamps):
    """What `list` prints."""
    return table(list_lines(history, stamps))


def front_of_line(position, stamp, filing, year, term, word):
    """What the lines of a ledger begin with."""
    return (
        f"{position:8} {stamp.day.isoformat()} {clerk(stamp):8} {filing.school:6} {filing.number:12} {year} {term} {word:9}"
    )


def money_line(history, position, stamp, filing, word, program, cents):
    """A line of a movement, with the net of its program there and the lifetime use behind it."""
    past = history[:position]
    net = model.net(past, program=program, **model.place_of(filing))
    used = model.used(past, filing.student)
    sign = "-" if cents < 0 else ""
    front = front_of_line(position, stamp, filing, filing.year, filing.term, word)
    return f"{front} {desk.PROGRAM_WORDS[program]:5} {sign + desk.money(abs(cents)):>12} {desk.money(net):>12} {used:7}"


def ledger_lines(history, position, stamp, outcome):
    """The lines of a filing about a student."""
    filing = history[position - 1]
    if isinstance(filing, model.PriorUse):
        return [f"{front_of_line(position, stamp, filing, '-', '-', 'prior')} {filing.units} units"]
    if isinstance(filing, model.Application):
        return [f"{front_of_line(position, stamp, filing, filing.year, '-', 'apply')} {desk.outcome_text(outcome)}"]
    if isinstance(filing, (model.Origination, model.ChangedCost)):
        return [f"{front_of_line(position, stamp, filing, filing.year, '-', KINDS[type(filing)])} {filing.cost} dollars"]
    if isinstance(filing, model.Enrolment):
        return [f"{front_of_line(position, stamp, filing, filing.year, filing.term, 'enrol')} {filing.credits} credits"]
    if isinstance(filing, model.Withdrawal):
        returned = model.sheet_at(history, position).returned
        return [f"{front_of_line(position, stamp, filing, filing.year, filing.term, 'withdraw')} {desk.outcome_text(outcome)}"] + [
            money_line(history, position, stamp, filing, "return", program, -cents)
            for program, cents in enumerate(returned) if cents
        ]
    if isinstance(filing, model.Sending):
        sent = f"{desk.PROGRAM_WORDS[filing.program]:5} {desk.money(filing.cents)} {filing.day.isoformat()} {filing.reference}"
        return [f"{front_of_line(position, stamp, filing, filing.year, filing.term, 'sent')} {sent}"]
    cents = filing.cents if isinstance(filing, model.Payment) else -filing.cents
    return [money_line(history, position, stamp, filing, KINDS[type(filing)], filing.program, cents)]


def student_sheet(history, stamps, student):
    """What `student STUDENT` prints."""
    brought = outcomes(history)
    lines = [
        line
        for position, filing in enumerate(history, 1) if getattr(filing, "student", None) == student
        for line in ledger_lines(history, position, stamps[position - 1], brought[position - 1])
    ]
    return table(lines) if lines else "none\n"


def quotes_sheet(history, school, year, term):
    """What `quotes SCHOOL YEAR TERM` prints."""
    students = sorted({
        filing.student for filing in history
        if isinstance(filing, model.Enrolment) and (filing.school, filing.year, filing.term) == (school, year, term)
    })
    lines = []
    for student in students:
        credits = model.credits_of(history, student, school, year, term)
        if credits:
            pell = model.net(history, student, school, year, term, model.PELL)
            quote = model.quote(history, school, student, year, term) // 100
            lines.append(f"{student},{credits},{model.scheduled(history, student, year)},{desk.money(pell)},{quote}\n")
    return "".join(["student,credits,scheduled,pell,quote\n", *lines]) if lines else "none\n"


# The movements of a term

def movements(history, position):
    """What the filing at a position moves, by program: the word, the program and the cents, below 0 where they are taken back."""
    filing = history[position - 1]
    if isinstance(filing, model.Withdrawal):
        returned = model.sheet_at(history, position).returned
        return [("return", program, -cents) for program, cents in enumerate(returned) if cents]
    return [(KINDS[type(filing)], filing.program, filing.cents if isinstance(filing, model.Payment) else -filing.cents)]


def moving(history, school, year, term):
    """The positions of the filings that move money in a term of a school, of whichever student."""
    return [
        position for position, filing in enumerate(history, 1)
        if isinstance(filing, (model.Amount, model.Withdrawal)) and (filing.school, filing.year, filing.term) == (school, year, term)
    ]


def total_of(history, program, *place):
    """What all students of a term have of a program."""
    return sum(model.moved(history, position, program) for position in moving(history, *place))


def signed(cents):
    """Cents behind a minus where they are below 0."""
    return f"{'-' if cents < 0 else ''}{desk.money(abs(cents))}"


def payments_sheet(history, stamps, *place):
    """What `payments SCHOOL YEAR TERM` prints."""
    lines = []
    for position in moving(history, *place):
        filing, stamp = history[position - 1], stamps[position - 1]
        for word, program, cents in movements(history, position):
            total = total_of(history[:position], program, *place)
            lines.append(",".join(map(str, [
                position, filing.school, filing.number, word, filing.student, filing.year, filing.term, desk.PROGRAM_WORDS[program],
                signed(cents), signed(total), stamp.day.isoformat(), clerk(stamp),
            ])) + "\n")
    return "".join(["position,school,number,kind,student,year,term,program,amount,total,day,clerk\n", *lines]) if lines else "none\n"


# The worksheet of a withdrawal

def figure(letter, words, text):
    """A line of one figure below the column of all programs."""
    return f"{letter:2}{words:28}{text:>77}\n"


def by_program(letter, words, figures):
    """A line of an amount of each program, and of all."""
    return f"{letter:2}{words:28}" + "".join(f"{desk.money(cents):>11}" for cents in [*figures, sum(figures)]) + "\n"


def since(history, kind, place):
    """What the filings of a kind come to in a student's term, by program."""
    filed = [filing for _, filing in model.filings_of(history, kind) if model.place_of(filing) == place]
    return [sum(filing.cents for filing in filed if filing.program == program) for program in model.PROGRAMS]


def form_lines(before, both, lines):
    """Boxes R to U of the Department's worksheet: what the student repays of loans, and returns of grants."""
    loans = sum(before[program] - lines.returned[program] for program in model.PROGRAMS if program not in model.GRANTS)
    grants = max(0, sum(lines.laid) - loans)
    half = model.nearest(sum(both[program] for program in model.GRANTS), 2)
    return [
        figure("R", "loans the student repays", desk.money(loans)),
        figure("S", "grants to return, at first", desk.money(grants)),
        figure("T", "half of both, of all grants", desk.money(half)),
        figure("U", "grants the student returns", desk.money(max(0, grants - half))),
    ]


def return_lines(history, position):
    """The lines of the withdrawal at a position: the worksheet on the filings before it, and what came of it on all."""
    past, withdrawal, after = history[:position - 1], history[position - 1], history[position:]
    place, lines, could = model.place_of(withdrawal), model.sheet_at(history, position), withdrawal.could
    _, term = model.term_at(past, withdrawal.school, withdrawal.year, withdrawal.term)
    before, now = ([model.net(filed, program=program, **place) for program in model.PROGRAMS] for filed in (past, history))
    repaid, unearned = since(history, model.Repayment, place), 1_000 - lines.percent
    both = [one + other for one, other in zip(before, could)]
    return [
        by_program("E", "disbursed, net", before),
        by_program("", "could have been disbursed", could),
        by_program("G", "both", both),
        figure("", "days of the term", model.days_up_to(term, term.last)),
        figure("", "days completed", model.days_up_to(term, withdrawal.last)),
        figure("H", "percent earned", desk.percent_text(lines.percent)),
        figure("I", "earned", desk.money(lines.earned)),
        figure("J", "post-withdrawal amount", desk.money(lines.post)),
        figure("K", "unearned", desk.money(lines.unearned)),
        figure("L", "institutional charges", desk.money(withdrawal.charges)),
        figure("M", "percent unearned", desk.percent_text(unearned)),
        figure("N", "unearned part of the charges", desk.money(model.nearest(withdrawal.charges * unearned, 1_000))),
        by_program("O", "the school returns", lines.returned),
        by_program("Q", "laid on the student", lines.laid),
        *form_lines(before, both, lines),
        by_program("", "half of both, of grants", [
            model.nearest(both[program], 2) if program in model.GRANTS else 0 for program in model.PROGRAMS
        ]),
        by_program("", "owed, program by program", lines.owed),
        by_program("", "repaid since", repaid),
        by_program("", "still owed", [max(0, owed - paid) for owed, paid in zip(lines.owed, repaid)]),
        by_program("", "paid since", since(after, model.Payment, place)),
        by_program("", "net now", now),
        *sent_lines(history, place, lines.returned),
    ]


def sent_lines(history, place, returned):
    """What the school sent back, and what of its part is still to be sent, where anything was sent."""
    sent = [model.sent(history, place, program) for program in model.PROGRAMS]
    if not any(sent):
        return []
    left = [part - gone for part, gone in zip(returned, sent)]
    return [by_program("", "sent back since", sent), by_program("", "still to send back", left)]


def withdrawal_sheet(history, school, student, year, term):
    """What `withdrawal SCHOOL STUDENT YEAR TERM` prints."""
    position, found = model.earliest(history, model.Withdrawal, school=school, student=student, year=year, term=term)
    if found is None:
        return "none\n"
    due = model.due_day(found)
    returned = sum(model.sheet_at(history, position).returned)
    return "".join([
        f"Return of funds: student {student}, school {school}, award year {year}, term {term}\n",
        f"withdrawal at {position}, number {found.number}: last day {found.last.isoformat()}, determined {found.determined.isoformat()}"
        + (f", return due {due.isoformat() if due else 'none'}\n" if returned else "\n"),
        " " * 30 + "".join(f"{word:>11}" for word in [*desk.PROGRAM_WORDS, "all"]) + "\n",
        *return_lines(history, position),
    ])


# What the schools send back, program by program

@dataclass(frozen=True)
class Part:
    """What a school returns of one program after a withdrawal: its position and the withdrawal, the program, the day on which it
    is due, and what was sent of it."""
    position: int
    withdrawal: model.Withdrawal
    program: int
    returned: int
    due: date
    sendings: list

    @property
    def sent(self):
        return sum(sending.cents for sending in self.sendings)

    @property
    def open(self):
        return self.returned - self.sent


def parts_of(history, school):
    """The parts that a school returns, by position and program."""
    parts = []
    for position, withdrawal in model.filings_of(history, model.Withdrawal):
        if withdrawal.school == school:
            place, due = model.place_of(withdrawal), model.due_day(withdrawal)
            parts += [
                Part(position, withdrawal, program, cents, due, model.sendings_of(history, place, program))
                for program, cents in enumerate(model.sheet_at(history, position).returned) if cents
            ]
    return parts


def day_or_none(told):
    """A day, or that there is none."""
    return told.isoformat() if told else "none"


def due_sheet(history, today, school):
    """What `due DAY SCHOOL` prints: what the school has still to send back, of all years, what is due first in front; what is due
    on no day that has a date comes last, and is never late."""
    parts = [part for part in parts_of(history, school) if part.open]
    lines = []
    for part in sorted(parts, key=lambda part: (part.due is None, part.due or today, part.position, part.program)):
        filed, late = part.withdrawal, max(0, (today - part.due).days) if part.due else 0
        lines.append(",".join(map(str, [
            day_or_none(part.due), late, filed.student, filed.year, filed.term, desk.PROGRAM_WORDS[part.program],
            *map(desk.money, [part.returned, part.sent, part.open]), part.position, filed.number,
        ])) + "\n")
    return "".join(["due,late,student,year,term,program,returned,sent,open,position,number\n", *lines]) if lines else "none\n"


def returns_sheet(history, school, year):
    """What `returns SCHOOL YEAR` prints: each program that the school returns in the year, with what was sent of it and of that
    after its due day, the day on which the last was sent, and what the student owes and repaid of the program."""
    lines = []
    for part in parts_of(history, school):
        filed, program = part.withdrawal, part.program
        if filed.year != year:
            continue
        last = max((sending.day for sending in part.sendings), default=None)
        late = sum(sending.cents for sending in part.sendings if part.due and sending.day > part.due)
        owed = model.sheet_at(history, part.position).owed[program]
        repaid = since(history, model.Repayment, model.place_of(filed))[program]
        lines.append(",".join(map(str, [
            filed.student, filed.term, desk.PROGRAM_WORDS[program], filed.determined.isoformat(), day_or_none(part.due),
            *map(desk.money, [part.returned, part.sent]), day_or_none(last), *map(desk.money, [late, part.open, owed, repaid]),
            part.position, filed.number,
        ])) + "\n")
    heading = "student,term,program,determined,due,returned,sent,last_sent,sent_late,open,owed,repaid,position,number\n"
    return "".join([heading, *lines]) if lines else "none\n"


# The worksheet of an index and an award

def line(mark, words, told):
    """A line: its mark, its words, what is told."""
    return f" {mark} {words:44}{told:>12}\n"


def amounts(*entries):
    """Lines of amounts, of those that aren't 0."""
    return "".join(line(mark, words, amount) for mark, words, amount in entries if amount)


def income_lines(household):
    """The amounts of a household's income, and its total."""
    return amounts(
        (" ", "adjusted gross income", household.gross_income),
        ("+", "deductions for retirement savings", household.ira_deductions),
        ("+", "tax-exempt interest", household.exempt_interest),
        ("+", "untaxed distributions of retirement savings", household.ira_distributions),
        ("+", "untaxed pensions", household.pensions),
        ("+", "foreign income that isn't taxed", household.foreign_income),
        ("-", "taxable grants and scholarships", household.grants),
        ("-", "education credits", household.education_credits),
        ("-", "earnings of work-study", household.work_study),
    ) + line("=", "total income", model.total_income(household))


def allowance_lines(book, household, married, living, further):
    """The allowances of a household, and the income that they leave."""
    tax, payroll = model.tax_allowance(household), model.payroll_allowance(book, household, married)
    allowances = tax + payroll + living[1] + further[1]
    available = model.total_income(household) - allowances
    return available, "".join([
        line(" ", "income tax, where above 0", tax), line("+", "payroll tax allowance", payroll), line("+", *living),
        line("+", *further), line("=", "allowances", allowances), line(" ", "available income", available),
    ])


def rate(percent):
    """A rate of ten-thousandths, in percent."""
    return f"{percent // 100}.{percent % 100:02}"


def asset_lines(book, household, married, age, share):
    """A household's assets, what is protected of them, and the share of the rest."""
    business = model.value_at(book.business, household.business, 0)
    worth = household.child_support + household.cash + household.investments + business
    protected = model.asset_protection(book, age, married)
    found = model.asset_contribution(book, household, age, married, share)
    return found, amounts(
        (" ", "child support received", household.child_support),
        ("+", "cash, savings and checking", household.cash),
        ("+", "net worth of investments", household.investments),
        ("+", "adjusted net worth of a business", business),
    ) + "".join([
        line("=", "net worth", worth), line("-", f"asset protection allowance, age {age}", protected),
        line("=", "discretionary net worth", worth - protected),
        line(" ", "contribution from assets, none below 0" if worth < protected else f"contribution from assets, {rate(share)} percent", found),
    ])


def assessed_lines(book, household, married, living, age, share):
    """A household whose income and assets the schedule assesses."""
    further = "employment expense allowance", model.employment_allowance(book, household)
    available, allowances = allowance_lines(book, household, married, living, further)
    found, assets = asset_lines(book, household, married, age, share)
    contribution = model.assessment(book, available + found)
    return available + found, contribution, "".join([
        income_lines(household), allowances, assets, line(" ", "adjusted available income", available + found),
        line(" ", "contribution, by the schedule", contribution),
    ])


def from_income_line(book, from_income):
    """A student's contribution from income: the rate, or that it is the least."""
    least = from_income == book.lowest_student
    return line(" ", "least contribution from income" if least else f"contribution from income, {rate(book.student_rate)} percent", from_income)


def dependent_lines(book, application):
    """Formula A: the parents, and the student."""
    parents, own = application.parents, application.own
    living = f"income protection, family of {application.family}", model.by_size(book.parents, application.family, 2)
    adjusted, from_parents, lines = assessed_lines(
        book, parents, application.parents_married, living, application.parent_age, book.parents_rate,
    )
    further = "parents' adjusted income below 0", max(0, -adjusted)
    available, allowances = allowance_lines(book, own, False, ("income protection", book.dependent_student), further)
    from_income = model.income_contribution(book, available)
    worth = own.cash + own.investments + own.business
    from_assets = model.share(worth, book.dependent_rate)
    assets = amounts(
        (" ", "cash, savings and checking", own.cash), ("+", "net worth of investments", own.investments),
        ("+", "net worth of a business", own.business),
    )
    return from_parents + from_income + from_assets, "".join([
        "parents\n", lines, "student\n", income_lines(own), allowances,
        from_income_line(book, from_income), assets,
        line("=", "net worth", worth), line(" ", f"contribution from assets, {rate(book.dependent_rate)} percent", from_assets),
    ])


def single_lines(book, application):
    """Formula B: the student, with the spouse."""
    own, married = application.own, application.married
    living = "income protection", book.married_student if married else book.single_student
    further = "employment expense allowance", model.employment_allowance(book, own) if married else 0
    available, allowances = allowance_lines(book, own, married, living, further)
    from_income = model.income_contribution(book, available)
    age = model.age_of(book, application)
    from_assets, assets = asset_lines(book, own, married, age, book.no_dependents_rate)
    return from_income + from_assets, "".join([
        "student\n", income_lines(own), allowances, from_income_line(book, from_income), assets,
    ])


def family_lines(book, application):
    """Formula C: the student's family."""
    married, family = application.married, application.family
    living = f"income protection, family of {family}", model.by_size(book.married_parent if married else book.single_parent, family, 2)
    age = model.age_of(book, application)
    _, raw, lines = assessed_lines(book, application.own, married, living, age, book.with_dependents_rate)
    return raw, "student\n" + lines


def award_lines(book, application, raw):
    """The index, the incomes that decide, and the award."""
    which, found = model.formula(book, application), model.index(book, application)
    household = application.parents if which == "A" else application.own
    must_file = application.parents_must_file if which == "A" else application.student_must_file
    barred = application.graduate or application.bachelor
    income = household.gross_income + (household.foreign_income if book.ceiling else 0)
    who = "parents" if which == "A" else "student"
    whose = "parents'" if which == "A" else "student's"
    words = f"{whose} adjusted gross and foreign income" if book.ceiling else f"{whose} adjusted gross income"
    taken = "0 for the index" if found < 0 else "the index"
    guideline = model.by_size(book.poverty[application.region], application.family, 1)
    most, least = model.maximum_percent(book, application), model.minimum_percent(book, application)
    decided = model.decision(book, application)
    ceiling = -(-book.ceiling * book.maximum // 100)
    return "".join([
        line("=", "sum of the contributions", raw), line(" ", "Student Aid Index, -1500 to 999999", found),
        amounts((" ", "ceiling: no award from this index on", ceiling)),
        line(" ", f"{who} required to file a tax return", "yes" if must_file else "no"),
        line(" ", "graduate student, or has a bachelor's degree", "yes" if barred else "no"),
        line(" ", words, income), line(" ", f"poverty guideline, family of {application.family}", guideline),
        line(" ", f"maximum award up to {most} percent", most * guideline // 100),
        line(" ", f"minimum award up to {least} percent", least * guideline // 100),
        line(" ", f"{book.maximum} less {taken}, to the nearest 5", model.to_five(book.maximum - max(found, 0))),
        line(" ", "minimum award of the year", book.minimum), line(" ", f"Scheduled Award: {decided.way}", decided.award),
        line(" ", "final Student Aid Index", decided.index),
    ])


def need_sheet(history, student, year):
    """What `need STUDENT YEAR` prints."""
    application, (book_at, book) = model.application_of(history, student, year), model.book_at(history, year)
    if application is None or book is None:
        return "none\n"
    which = model.formula(book, application)
    raw, lines = {"A": dependent_lines, "B": single_lines, "C": family_lines}[which](book, application)
    return "".join([
        f"Student Aid Index of student {student}, award year {year}: formula {which}\n",
        f"application at {history.index(application) + 1}, transaction {application.transaction}; year book at {book_at}\n",
        lines, "award\n", award_lines(book, application, raw),
    ])


# What whoever reviews a student reads

def review_sheet(history, stamps, student, year):
    """What `review STUDENT YEAR` prints: the lines of the list of the student's applications in the year, the year's book, and further parts
    as their sheets have them, each withdrawal in the order of filing; then the line of an export where the student stands."""
    about = lambda kind: [at for at, filing in enumerate(history) if isinstance(filing, kind) and (filing.student, filing.year) == (student, year)]
    lines, withdrawn = list_lines(history, stamps), [history[at] for at in about(model.Withdrawal)]
    parts = [
        ("Applications", "".join(f"{lines[at]}\n" for at in about(model.Application))), ("Year book", book_part(history, stamps, year)),
        ("Need", need_sheet(history, student, year)), ("Ledger", student_sheet(history, stamps, student)),
        *(("Withdrawal", withdrawal_sheet(history, filing.school, student, year, filing.term)) for filing in withdrawn),
        ("Standing", audit_model.standing_line(history, student, year)),
    ]
    return "".join(f"== {title}\n{text}" for title, text in parts)
