"""An office over a list of filings, computed afresh from the whole list in plain Python, written apart from the proved
code so that the two can be compared.

A history is a list of filings, the oldest first, and a position in it counts from 1. Nothing is kept beside the list but
the stamp of each filing, of which no answer speaks: `verdict` answers a filing on it, `file` also appends the filing where
it is admitted, `quote`, `standing` and `net` say what the list comes to, and `plan_round` what a round of awards files on it.

Figures of households and awards are whole dollars; what is paid, returned and owed is in cents; rates are
ten-thousandths; the lifetime limit of 600 percent is 600,000 units. A filing's numbers are taken to be in their ranges.

Each definition names its public source: HEA is the Higher Education Act of 1965, CFR the Code of Federal Regulations,
and "own" is the office's own rule or form. The numbers of rules, their order and what a refusal tells are own.
"""
from bisect import bisect_left
from dataclasses import astuple, dataclass
from datetime import date, timedelta

# The programs, in the order of returns (34 CFR 668.22(i)).
UNSUBSIDIZED, SUBSIDIZED, PLUS, PELL, FSEOG, TEACH = PROGRAMS = range(6)
GRANTS = PELL, FSEOG, TEACH

# The regions of the poverty guidelines (HEA 401(b)).
CONTIGUOUS, ALASKA, HAWAII = range(3)

OWN_DESK = 0                  # the key's school of what the office's own desk files
ROOM = 1_000_000              # filings that an office takes (own)
LEAST_INDEX = -1_500          # HEA 473
GREATEST_INDEX = 999_999      # own
LIFETIME_LIMIT = 600_000      # units (HEA 401(d)(5))
FSEOG_LIMIT = 400_000         # cents in a year (HEA 413B(a)(2))
FORGIVEN = 5_000              # cents of a grant up to which a student owes nothing (34 CFR 668.22(h)(3))
GREATEST_PAYMENT = 999_999    # whole dollars (own)
LEAST_AWARD = 100             # whole dollars of a grant (HEA 413B(a)(2))


# Numbers

def nearest(dividend, divisor):
    """The whole number nearest to a quotient, of two as near the one with the greater absolute value. Own."""
    if dividend < 0:
        return -nearest(-dividend, divisor)
    return (2 * dividend + divisor) // (2 * divisor)


def share(amount, rate):
    """The part of an amount that a rate in ten-thousandths takes, rounded once. Own."""
    return nearest(amount * rate, 10_000)


def to_five(amount):
    """An amount rounded to five dollars. Own."""
    return 5 * nearest(amount, 5)


def day_number(day):
    """A day by its count since 1900-01-01, as refusals tell it. Own."""
    return (day - date(1900, 1, 1)).days


# Year books

@dataclass(frozen=True)
class BySize:
    """Amounts by size of family, and what each member past the last one adds (HEA 478(b))."""
    sizes: tuple
    extra: int


@dataclass(frozen=True)
class Row:
    """A row of a table by amount: what is over `over` counts `base` and a share of the rest (HEA 475(e), 478(c))."""
    over: int
    base: int
    rate: int


@dataclass(frozen=True)
class AgeRow:
    """A row of the asset protection allowances: those from an age on (HEA 478(d))."""
    start: int
    single: int
    married: int


@dataclass(frozen=True)
class YearBook:
    """The figures and tables of an award year (HEA 401(b), 475 to 478)."""
    year: int
    # The greatest and the least Scheduled Award.
    maximum: int
    minimum: int
    # Percents of the poverty guideline up to which an award is the Maximum or the Minimum.
    maximum_single: int
    maximum_other: int
    minimum_dependent_single: int
    minimum_dependent_other: int
    minimum_single_parent: int
    minimum_parent: int
    minimum_no_dependents: int
    # Poverty guidelines by region.
    poverty: tuple
    # Payroll tax allowance.
    oasdi_cap: int
    oasdi_rate: int
    medicare_rate: int
    medicare_high: int
    threshold_single: int
    threshold_married: int
    # Income protection allowances.
    parents: BySize
    dependent_student: int
    single_student: int
    married_student: int
    single_parent: BySize
    married_parent: BySize
    # Employment expense allowance.
    employment_cap: int
    employment_rate: int
    # Rates at which assets contribute.
    parents_rate: int
    dependent_rate: int
    no_dependents_rate: int
    with_dependents_rate: int
    # Adjusted net worth of a business, and asset protection allowances by age.
    business: tuple
    age: tuple
    # The assessment schedule of adjusted available income.
    low_at: int
    low: int
    first_rate: int
    student_rate: int
    lowest_student: int
    bracket: tuple
    # The percent of the greatest award at which an index has none; 0 where the year has no such ceiling.
    ceiling: int = 0


SPECIMEN = YearBook(
    year=2025, maximum=7_395, minimum=740,
    maximum_single=225, maximum_other=175,
    minimum_dependent_single=325, minimum_dependent_other=275,
    minimum_single_parent=400, minimum_parent=350, minimum_no_dependents=275,
    poverty=(
        BySize((14_580, 19_720, 24_860, 30_000, 35_140, 40_280, 45_420, 50_560), 5_140),
        BySize((18_210, 24_640, 31_070, 37_500, 43_930, 50_360, 56_790, 63_220), 6_430),
        BySize((16_770, 22_680, 28_590, 34_500, 40_410, 46_320, 52_230, 58_140), 5_910),
    ),
    oasdi_cap=168_600, oasdi_rate=620, medicare_rate=145, medicare_high=235,
    threshold_single=200_000, threshold_married=250_000,
    parents=BySize((28_530, 35_510, 43_870, 51_750, 60_540), 6_840),
    dependent_student=11_770, single_student=18_310, married_student=29_350,
    single_parent=BySize((53_660, 66_800, 82_500, 97_330, 113_840), 12_860),
    married_parent=BySize((42_800, 53_270, 65_810, 77_630, 90_810), 10_260),
    employment_cap=4_730, employment_rate=3_500,
    parents_rate=1_200, dependent_rate=2_000, no_dependents_rate=2_000, with_dependents_rate=700,
    business=(
        Row(0, 0, 4_000), Row(165_000, 66_000, 5_000), Row(490_000, 228_500, 6_000), Row(815_000, 423_500, 10_000),
    ),
    age=(AgeRow(0, 0, 0), AgeRow(26, 500, 800), AgeRow(40, 2_500, 6_000), AgeRow(65, 4_000, 10_000)),
    low_at=-6_820, low=-1_500, first_rate=2_200, student_rate=5_000, lowest_student=-1_500,
    bracket=(
        Row(20_500, 4_510, 2_500), Row(25_700, 5_810, 2_900), Row(30_900, 7_318, 3_400), Row(36_200, 9_120, 4_000),
        Row(41_500, 11_240, 4_700),
    ),
)


# Filings

@dataclass(frozen=True)
class Filing:
    """What a desk files, under a key: the filing school, and a number of that school's own. Own."""
    school: int
    number: int


@dataclass(frozen=True)
class Stamp:
    """When something was filed and by whom, as who files it says: a day, and a clerk's name; nobody said so where both are
    these. Own."""
    day: date = date(1970, 1, 1)
    clerk: str = ""


@dataclass(frozen=True)
class Book(Filing):
    """The book of an award year (HEA 401(b), 478)."""
    book: YearBook


@dataclass(frozen=True)
class School(Filing):
    """A school's code, its main terms in a year and its full-time credits (34 CFR 690.63, 668.2)."""
    code: int
    terms: int
    full: int


@dataclass(frozen=True)
class Calendar(Filing):
    """A term: its number in the year, whether it is beyond the main terms, days, breaks (34 CFR 668.2, 690.3)."""
    year: int
    term: int
    extra: bool
    first: date
    last: date
    breaks: tuple = ()


@dataclass(frozen=True)
class PriorUse(Filing):
    """The units of the lifetime limit that a student used before this office (HEA 401(d)(5))."""
    student: int
    units: int


@dataclass(frozen=True)
class Household:
    """The income and assets of a student with a spouse, or of the parents (HEA 480)."""
    gross_income: int = 0             # adjusted gross income
    ira_deductions: int = 0
    exempt_interest: int = 0
    ira_distributions: int = 0        # the untaxed part
    pensions: int = 0                 # the untaxed part
    foreign_income: int = 0
    grants: int = 0
    education_credits: int = 0
    work_study: int = 0
    income_tax: int = 0
    earned_first: int = 0
    earned_second: int = 0
    child_support: int = 0
    cash: int = 0
    investments: int = 0
    business: int = 0


@dataclass(frozen=True)
class Application(Filing):
    """An application for a year, or a correction of it under a higher transaction number (HEA 480(d), (k), 483)."""
    student: int
    year: int
    transaction: int
    birth_year: int
    region: int
    family: int
    student_must_file: bool           # a federal income tax return
    parents_must_file: bool
    parents_married: bool
    parent_age: int
    own: Household
    parents: Household
    married: bool = False
    graduate: bool = False
    bachelor: bool = False
    veteran: bool = False
    dependents: bool = False
    orphan: bool = False
    ward: bool = False
    foster: bool = False
    emancipated: bool = False
    homeless: bool = False


@dataclass(frozen=True)
class Enrolment(Filing):
    """A student's credits in a term (34 CFR 690.75)."""
    student: int
    year: int
    term: int
    credits: int


@dataclass(frozen=True)
class Origination(Filing):
    """A student's cost of attendance at a school in a year, in dollars (HEA 472): the first one."""
    student: int
    year: int
    cost: int


@dataclass(frozen=True)
class ChangedCost(Filing):
    """Another cost of attendance of an originated student at the school in the year, in dollars; the one filed last is in
    force (HEA 472)."""
    student: int
    year: int
    cost: int


@dataclass(frozen=True)
class Amount(Filing):
    """Cents of a program in a term."""
    student: int
    year: int
    term: int
    program: int
    cents: int


class Payment(Amount):
    """A disbursement to the student (34 CFR 668.164)."""


class Repayment(Amount):
    """What a student repays of a grant after a withdrawal (34 CFR 668.22(h)(3))."""


class Adjustment(Amount):
    """A downward adjustment of what was disbursed (34 CFR 690.80)."""


@dataclass(frozen=True)
class Withdrawal(Filing):
    """A withdrawal: the last day attended, when it was determined, the charges, and what else could have been disbursed
    of each program (34 CFR 668.22)."""
    student: int
    year: int
    term: int
    last: date
    determined: date
    charges: int
    could: tuple


@dataclass(frozen=True)
class Sending(Filing):
    """What the school sent back of a program to the government, after a withdrawal from the term: cents, the day on which
    they were sent, and a number by which the school finds it (34 CFR 668.22(g), (j))."""
    student: int
    year: int
    term: int
    program: int
    cents: int
    day: date
    reference: int


@dataclass(frozen=True)
class Amendment(Filing):
    """A record of a correction: the key of the filing that was corrected, what was done, why, and a number of the paper
    behind it. It changes nothing. Own."""
    of_school: int
    of_number: int
    change: int
    reason: int
    reference: int


# Answers (own)

@dataclass(frozen=True)
class Noted:
    """The outcome of a filing that brings nothing to tell."""


@dataclass(frozen=True)
class Index:
    """The outcome of an application: its formula and final index, the way to its Scheduled Award, and that award."""
    formula: str
    index: int
    way: str
    award: int


@dataclass(frozen=True)
class Paid:
    """The outcome of a payment: the year's net of the program, and the lifetime units used, both with it."""
    net: int
    used: int


@dataclass(frozen=True)
class Returned:
    """The outcome of a withdrawal: tenths of a percent earned, the school's part, what the student owes, and the rest
    that may be disbursed after it."""
    percent: int
    school: int
    owed: int
    post: int


@dataclass(frozen=True)
class Admitted:
    """The verdict on a new filing that breaks no rule."""
    outcome: object


@dataclass(frozen=True)
class Again:
    """The verdict on a filing that stands already: its position, and the outcome of its admission."""
    position: int
    outcome: object


@dataclass(frozen=True)
class Refused:
    """The verdict on a filing that breaks a rule: the first one broken, what stands, and what may stand."""
    rule: int
    kept: int
    bound: int


@dataclass(frozen=True)
class Standing:
    """Where a student stands in a year: the application in force with its award, the net Pell, the lifetime use."""
    transaction: int
    formula: str
    index: int
    way: str
    award: int
    paid: int
    used: int


# Need: the index of an application under a book

def is_independent(book, application):
    """Who is independent: by age, marriage, graduate study, or one of seven circumstances. HEA 480(d)."""
    return (
        application.birth_year <= book.year - 24 or application.married or application.graduate
        or application.veteran or application.dependents or application.orphan or application.ward
        or application.foster or application.emancipated or application.homeless
    )


def formula(book, application):
    """A for dependent students, C for independent ones with dependents, B for the others. HEA 475 to 477."""
    if not is_independent(book, application):
        return "A"
    return "C" if application.dependents else "B"


def by_size(table, family, least):
    """The entry for a family in a table that begins at the least size; past its end the last entry, and the extra for
    each further member. HEA 478(b)."""
    place = family - least
    past = max(0, place - len(table.sizes) + 1)
    return table.sizes[place - past] + table.extra * past


def value_at(rows, amount, below):
    """A table's value at an amount: that of the last row that begins below it, or `below` where none does.
    HEA 475(e), 477(d), 478(c)."""
    begun = [row for row in rows if row.over < amount]
    if not begun:
        return below
    row = begun[-1]
    return row.base + share(amount - row.over, row.rate)


def total_income(household):
    """Adjusted gross and untaxed income, less grants, education credits and work-study. HEA 480(a), (b), (e); SAI and
    Pell Grant Eligibility Guide."""
    untaxed = (
        household.ira_deductions + household.exempt_interest + household.ira_distributions + household.pensions
        + household.foreign_income
    )
    offsets = household.grants + household.education_credits + household.work_study
    return household.gross_income + untaxed - offsets


def tax_allowance(household):
    """The income tax, if it is above 0. HEA 475(c), 476(b), 477(b)."""
    return max(household.income_tax, 0)


def payroll_allowance(book, household, married):
    """Social security on what each earned up to the cap, Medicare on what both earned, at a higher rate beyond a
    threshold. HEA 478(g)."""
    earned = household.earned_first + household.earned_second
    threshold = book.threshold_married if married else book.threshold_single
    return (
        share(min(household.earned_first, book.oasdi_cap), book.oasdi_rate)
        + share(min(household.earned_second, book.oasdi_cap), book.oasdi_rate)
        + share(min(earned, threshold), book.medicare_rate)
        + share(max(earned - threshold, 0), book.medicare_high)
    )


def employment_allowance(book, household):
    """A share of what both earned, up to the cap. HEA 478(h)."""
    return min(book.employment_cap, share(household.earned_first + household.earned_second, book.employment_rate))


def asset_protection(book, age, married):
    """The amount of the last row that begins at most at the age. HEA 478(d)."""
    row = [row for row in book.age if row.start <= age][-1]
    return row.married if married else row.single


def asset_contribution(book, household, age, married, rate):
    """A share of the net worth above what is protected: support, cash, investments, and a business at its adjusted
    worth. HEA 475(d), 476(c), 477(c), 478(c)."""
    worth = household.child_support + household.cash + household.investments
    worth += value_at(book.business, household.business, 0)
    return max(0, share(worth - asset_protection(book, age, married), rate))


def assessment(book, income):
    """What is assessed of adjusted available income: the least value below `low_at`, else the schedule's.
    HEA 475(e), 477(d), 478(e)."""
    if income < book.low_at:
        return book.low
    return value_at(book.bracket, income, share(income, book.first_rate))


def income_contribution(book, available):
    """A student's share of available income, not below the least. HEA 475(g), 476(b)."""
    return max(book.lowest_student, share(available, book.student_rate))


def age_of(book, application):
    """Years from birth to the award year, for the table by age. HEA 478(d)."""
    return book.year - application.birth_year


def dependent_index(book, application):
    """Formula A: what is assessed of the parents, and shares of the student's income and assets. HEA 475.
    Own: a dependent student's business isn't adjusted, and child support isn't counted."""
    parents, own, married = application.parents, application.own, application.parents_married
    allowances = (
        tax_allowance(parents) + payroll_allowance(book, parents, married)
        + by_size(book.parents, application.family, 2) + employment_allowance(book, parents)
    )
    adjusted = total_income(parents) - allowances
    adjusted += asset_contribution(book, parents, application.parent_age, married, book.parents_rate)
    shortfall = max(0, -adjusted)
    own_allowances = tax_allowance(own) + payroll_allowance(book, own, False) + book.dependent_student + shortfall
    return (
        assessment(book, adjusted)
        + income_contribution(book, total_income(own) - own_allowances)
        + share(own.cash + own.investments + own.business, book.dependent_rate)
    )


def single_index(book, application):
    """Formula B: shares of the income and assets of a student, and of the spouse, without dependents. HEA 476."""
    own, married = application.own, application.married
    allowances = tax_allowance(own) + payroll_allowance(book, own, married)
    if married:
        allowances += book.married_student + employment_allowance(book, own)
    else:
        allowances += book.single_student
    return (
        income_contribution(book, total_income(own) - allowances)
        + asset_contribution(book, own, age_of(book, application), married, book.no_dependents_rate)
    )


def family_index(book, application):
    """Formula C: what is assessed of the income and assets of a student with dependents. HEA 477."""
    own, married = application.own, application.married
    protection = by_size(book.married_parent if married else book.single_parent, application.family, 2)
    allowances = (
        tax_allowance(own) + payroll_allowance(book, own, married) + protection + employment_allowance(book, own)
    )
    adjusted = total_income(own) - allowances
    adjusted += asset_contribution(book, own, age_of(book, application), married, book.with_dependents_rate)
    return assessment(book, adjusted)


def index(book, application):
    """The Student Aid Index by the student's formula, in its range. HEA 473, 475(a), 476(a), 477(a)."""
    raw = {"A": dependent_index, "B": single_index, "C": family_index}[formula(book, application)](book, application)
    return max(LEAST_INDEX, min(GREATEST_INDEX, raw))


# Award: the way to a Scheduled Award

def maximum_percent(book, application):
    """The percent of the poverty guideline up to which the award is the Maximum, that of a single parent or any other.
    HEA 401(b)(1)."""
    which = formula(book, application)
    single = which == "A" and not application.parents_married or which == "C" and not application.married
    return book.maximum_single if single else book.maximum_other


def minimum_percent(book, application):
    """The percent of the poverty guideline up to which the award is no less than the Minimum. HEA 401(b)(1)."""
    which = formula(book, application)
    if which == "A":
        return book.minimum_dependent_other if application.parents_married else book.minimum_dependent_single
    if which == "C":
        return book.minimum_parent if application.married else book.minimum_single_parent
    return book.minimum_no_dependents


def is_at_ceiling(book, found):
    """Whether an index is at or above the year's percent of the greatest award. HEA 401(b)(1), since Public Law 119-21."""
    return book.ceiling > 0 and 100 * found >= book.ceiling * book.maximum


def decision(book, application):
    """The outcome of an application: nothing for graduates and for an index at the ceiling, the Maximum where no return was
    required or income is low, the maximum less the index where that comes to the minimum, the Minimum, or nothing. In a year
    with a ceiling foreign income counts as income. HEA 401(a)(2)(A), (b), (d)(1); Public Law 119-21, section 83001.
    Own: the final index of a Maximum, rounding to five before the comparison with the minimum, and that the ceiling comes
    before the ways to an award."""
    which, found = formula(book, application), index(book, application)
    if application.graduate or application.bachelor:
        return Index(which, found, "nothing", 0)
    if is_at_ceiling(book, found):
        return Index(which, found, "nothing", 0)
    household = application.parents if which == "A" else application.own
    must_file = application.parents_must_file if which == "A" else application.student_must_file
    guideline = by_size(book.poverty[application.region], application.family, 1)
    income = household.gross_income + (household.foreign_income if book.ceiling else 0)
    if not must_file:
        return Index(which, LEAST_INDEX, "maximum", book.maximum)
    if income > 0 and 100 * income <= maximum_percent(book, application) * guideline:
        return Index(which, min(found, 0), "maximum", book.maximum)
    calculated = to_five(book.maximum - max(found, 0))
    if calculated >= book.minimum:
        return Index(which, found, "calculated", calculated)
    if 100 * income <= minimum_percent(book, application) * guideline:
        return Index(which, found, "minimum", book.minimum)
    return Index(which, found, "nothing", 0)


def unfit(book, application):
    """What of an application can't be, and the limit: a birth after the book's year, or a size of family that the
    formula can't have. Own, on HEA 480(k)."""
    if application.birth_year > book.year:
        return application.birth_year, book.year
    which, family = formula(book, application), application.family
    couple = 2 if application.married else 1
    size = {"A": 2, "B": couple, "C": couple + 1}[which]
    if family < size or which == "B" and family != size:
        return family, size
    return None


# Terms, payments, lifetime use, returns

def shares_day(one, other):
    """Two terms share a day, from the first to the last of each, breaks included. Own."""
    return one.first <= other.last and other.first <= one.last


def is_counted(term, day):
    """A day of a term lies in no break of at least five days. 34 CFR 668.22(f)(2)."""
    return not any(first <= day <= last and (last - first).days + 1 >= 5 for first, last in term.breaks)


def days_up_to(term, day):
    """The counted days of a term up to a day, this one included. 34 CFR 668.22(f)(2)."""
    return sum(is_counted(term, term.first + timedelta(passed)) for passed in range((day - term.first).days + 1))


def intensity(credits, full):
    """Credits in percent of full-time credits, at most 100. HEA 401(b)(2)."""
    return min(100, nearest(100 * credits, full))


def period_payment(award, percent, terms):
    """A term's part, in dollars, of a Scheduled Award at an intensity. HEA 401(b)(2); 34 CFR 690.63(b)."""
    return nearest(award * percent, 100 * terms)


def use_of(paid, award):
    """The lifetime units that a year's net cents use of its Scheduled Award. HEA 401(d)(5)."""
    return nearest(paid * 1_000, award) if paid else 0


def spread(amount, room):
    """An amount laid on the programs in the order of returns, on each no more than it has room. 34 CFR 668.22(i)."""
    laid = []
    for most in room:
        part = min(most, amount)
        laid.append(part)
        amount -= part
    return laid


@dataclass(frozen=True)
class Worksheet:
    """The lines of the return of Title IV funds: tenths of a percent, and cents."""
    percent: int
    earned: int
    unearned: int
    school: int
    returned: list
    student: int
    laid: list
    owed: list
    post: int


def worksheet(completed, total, charges, disbursed, could):
    """The return of Title IV funds, from the days completed and all days, the charges, and by program what was and what
    could have been disbursed. HEA 484B; 34 CFR 668.22(e) to (i).
    Own: half and 50 dollars of a grant are taken by program, and the place of each rounding."""
    percent = 1_000 if 10 * completed > 6 * total else nearest(1_000 * completed, total)
    earned = nearest((sum(disbursed) + sum(could)) * percent, 1_000)
    post = max(0, earned - sum(disbursed))
    unearned = max(0, sum(disbursed) - earned)
    school = min(unearned, nearest(charges * (1_000 - percent), 1_000))
    returned = spread(school, disbursed)
    student = unearned - school
    laid = spread(student, [disbursed[program] - returned[program] for program in PROGRAMS])
    owed = [0 for _ in PROGRAMS]
    for program in GRANTS:
        due = laid[program] - nearest(disbursed[program] + could[program], 2)
        owed[program] = due if due > FORGIVEN else 0
    return Worksheet(percent, earned, unearned, school, returned, student, laid, owed, post)


# What is in force in a history

def filings_of(history, kind):
    """The filings of a kind with their positions. Own."""
    return [(position, filing) for position, filing in enumerate(history, 1) if isinstance(filing, kind)]


def earliest(history, kind, **wanted):
    """The position of the earliest filing of a kind that has what is wanted, and the filing; without one 0 and none.
    Own."""
    for position, filing in enumerate(history, 1):
        if isinstance(filing, kind) and all(getattr(filing, name) == value for name, value in wanted.items()):
            return position, filing
    return 0, None


def place_of(filing):
    """Where an enrolment, an amount, a withdrawal or a sending stands: student, school, year and term. Own."""
    return {"student": filing.student, "school": filing.school, "year": filing.year, "term": filing.term}


def book_at(history, year):
    """The position of the year's book, and the book. Own."""
    for position, filing in filings_of(history, Book):
        if filing.book.year == year:
            return position, filing.book
    return 0, None


def school_at(history, code):
    """The position of the school with a code, and the school. Own."""
    return earliest(history, School, code=code)


def term_at(history, school, year, term):
    """The position of a school's term, and the term. Own."""
    return earliest(history, Calendar, school=school, year=year, term=term)


def withdrawal_at(history, filing):
    """The position of the withdrawal from a filing's term, and the withdrawal. Own."""
    return earliest(history, Withdrawal, **place_of(filing))


def origination_at(history, filing):
    """The position of the origination at a filing's school in its year, and the origination. Own."""
    return earliest(history, Origination, student=filing.student, school=filing.school, year=filing.year)


def cost_of(history, student, school, year):
    """The cost of attendance in force, in dollars: of the origination and the changed costs the one that was filed last, 0
    without any. HEA 472."""
    filed = [
        filing.cost for _, filing in filings_of(history, (Origination, ChangedCost))
        if (filing.student, filing.school, filing.year) == (student, school, year)
    ]
    return filed[-1] if filed else 0


def application_of(history, student, year):
    """The application in force: the one with the highest transaction. Own."""
    filed = [
        filing for _, filing in filings_of(history, Application)
        if filing.student == student and filing.year == year
    ]
    return max(filed, key=lambda application: application.transaction, default=None)


def scheduled(history, student, year):
    """The Scheduled Award of the application in force, 0 without one. HEA 401(b)."""
    application = application_of(history, student, year)
    if application is None:
        return 0
    return decision(book_at(history, year)[1], application).award


def credits_of(history, student, school, year, term):
    """The credits that were filed last, 0 without any. Own."""
    place = student, school, year, term
    filed = [
        filing.credits for _, filing in filings_of(history, Enrolment)
        if (filing.student, filing.school, filing.year, filing.term) == place
    ]
    return filed[-1] if filed else 0


# What the money of a history comes to

def sheet(history, withdrawal):
    """The worksheet of a withdrawal on the filings before it. 34 CFR 668.22."""
    _, term = term_at(history, withdrawal.school, withdrawal.year, withdrawal.term)
    disbursed = [net(history, program=program, **place_of(withdrawal)) for program in PROGRAMS]
    completed, total = days_up_to(term, withdrawal.last), days_up_to(term, term.last)
    return worksheet(completed, total, withdrawal.charges, disbursed, withdrawal.could)


def sheet_at(history, position):
    """The worksheet of the withdrawal at a position. 34 CFR 668.22."""
    return sheet(history[:position - 1], history[position - 1])


def moved(history, position, program):
    """The cents of a program, or of all, that the filing at a position moves to the student, negative where they are
    taken back. 34 CFR 668.22, 690.79."""
    filing = history[position - 1]
    if isinstance(filing, Withdrawal):
        returned = sheet_at(history, position).returned
        return -sum(returned) if program is None else -returned[program]
    if program not in (None, filing.program):
        return 0
    return filing.cents if isinstance(filing, Payment) else -filing.cents


def net(history, student, school=None, year=None, term=None, program=None):
    """What was paid to a student less what was taken back by school returns, repayments and adjustments; where a
    school, a year, a term or a program is named, there alone. HEA 401; 34 CFR 668.22, 690.79."""
    return sum(
        moved(history, position, program)
        for position, filing in enumerate(history, 1)
        if isinstance(filing, (Amount, Withdrawal)) and filing.student == student
        and school in (None, filing.school) and year in (None, filing.year) and term in (None, filing.term)
    )


def returned(history, place, program):
    """The cents of a program that the school has to send back for a term: what the worksheet of the withdrawal from it
    returns. 34 CFR 668.22(g), (i)."""
    position, _ = earliest(history, Withdrawal, **place)
    return sheet_at(history, position).returned[program] if position else 0


def sendings_of(history, place, program):
    """What was sent back of a program for a term, in the order in which it was filed. 34 CFR 668.22(j)."""
    return [
        filing for _, filing in filings_of(history, Sending)
        if filing.program == program and place_of(filing) == place
    ]


def sent(history, place, program):
    """The cents of a program that were sent back for a term. 34 CFR 668.22(j)."""
    return sum(sending.cents for sending in sendings_of(history, place, program))


def used(history, student, year=None, more=0, award=None):
    """The lifetime units of a student: prior use, and the use of each year; of the one that is named with more cents
    paid, or under another Scheduled Award. HEA 401(d)(5)."""
    _, prior = earliest(history, PriorUse, student=student)
    units = prior.units if prior else 0
    years = {payment.year for _, payment in filings_of(history, Payment) if payment.student == student}
    for other in years - {year}:
        units += use_of(net(history, student, year=other, program=PELL), scheduled(history, student, other))
    if year is not None:
        paid = net(history, student, year=year, program=PELL) + more
        units += use_of(paid, scheduled(history, student, year) if award is None else award)
    return units


def payment_of_term(history, student, school, year, term, credits=None, award=None):
    """A term's Pell payment in cents, under the credits and the Scheduled Award in force or under others.
    HEA 401(b)(2); 34 CFR 690.63(b)."""
    _, facts = school_at(history, school)
    if credits is None:
        credits = credits_of(history, student, school, year, term)
    if award is None:
        award = scheduled(history, student, year)
    return 100 * period_payment(award, intensity(credits, facts.full), facts.terms)


# Rules. Each looks at a filing after a history and gives what stands and what may stand, or none where it isn't broken.

def over(kept, bound):
    """The two numbers of a limit, where it is exceeded."""
    return (kept, bound) if kept > bound else None


def no_room(history, filing):
    """The office is full. Own."""
    return (ROOM, ROOM) if len(history) >= ROOM else None


def unknown_school(history, filing):
    """The key's school is unknown. Own."""
    position, _ = school_at(history, filing.school)
    return None if position else (filing.school, 0)


def not_own_desk(history, filing):
    """Not filed by the office's own desk. Own."""
    return None if filing.school == OWN_DESK else (filing.school, OWN_DESK)


def book_on_file(history, filing):
    """The year's book is on file. Own."""
    position, _ = book_at(history, filing.book.year)
    return (position, filing.book.year) if position else None


def code_on_file(history, school):
    """A school with the code is on file. Own."""
    position, _ = school_at(history, school.code)
    return (position, school.code) if position else None


def prior_above_limit(history, prior):
    """Prior use above the lifetime limit. HEA 401(d)(5)."""
    return over(prior.units, LIFETIME_LIMIT)


def prior_on_file(history, prior):
    """The student's prior use is on file. Own."""
    position, _ = earliest(history, PriorUse, student=prior.student)
    return (position, prior.student) if position else None


def pell_before_prior(history, prior):
    """Pell was paid to the student before. Own."""
    position, _ = earliest(history, Payment, student=prior.student, program=PELL)
    return (position, prior.student) if position else None


def term_on_file(history, calendar):
    """The term is on file. Own."""
    position, _ = term_at(history, calendar.school, calendar.year, calendar.term)
    return (position, calendar.term) if position else None


def days_out_of_order(history, calendar):
    """The term ends before it begins, or a break begins by the end of the one before it, or ends before it begins.
    34 CFR 668.22(f)."""
    if calendar.last < calendar.first:
        return day_number(calendar.last), day_number(calendar.first)
    before = None
    for first, last in calendar.breaks:
        if before is not None and first <= before:
            return day_number(first), day_number(before)
        if last < first:
            return day_number(last), day_number(first)
        before = last
    return None


def break_outside(history, calendar):
    """A break isn't inside the term. 34 CFR 668.22(f)(2)."""
    for number, (first, last) in enumerate(calendar.breaks, 1):
        if first <= calendar.first or last >= calendar.last:
            return number, len(calendar.breaks)
    return None


def days_taken(history, calendar):
    """The term shares a day with another one of the school. Own."""
    for position, term in filings_of(history, Calendar):
        if term.school == calendar.school and shares_day(term, calendar):
            return position, calendar.term
    return None


def main_terms_on_file(history, calendar):
    """A main term more than the school has in a year. 34 CFR 690.63(a), (b)."""
    if calendar.extra:
        return None
    _, school = school_at(history, calendar.school)
    main = sum(
        term.school == calendar.school and term.year == calendar.year and not term.extra
        for _, term in filings_of(history, Calendar)
    )
    return (main, school.terms) if main >= school.terms else None


def unknown_desk(history, filing):
    """The key's school is unknown, and isn't the office's own desk. Own."""
    return None if filing.school == OWN_DESK else unknown_school(history, filing)


def no_book(history, application):
    """There is no book of the year. Own."""
    position, _ = book_at(history, application.year)
    return None if position else (application.year, 0)


def not_fit(history, application):
    """A birth year or a size of family that can't be. HEA 480(k)."""
    return unfit(book_at(history, application.year)[1], application)


def transaction_not_above(history, application):
    """The transaction isn't above the one in force. Own."""
    in_force = application_of(history, application.student, application.year)
    if in_force is None or application.transaction > in_force.transaction:
        return None
    return application.transaction, in_force.transaction


def past_limits_corrected(history, application):
    """A correction would leave a limit exceeded: the first term, by school and number, above its payment; main terms
    above the Scheduled Award; the year above one and a half; lifetime use above its limit.
    HEA 401; 34 CFR 690.80(a)."""
    student, year = application.student, application.year
    award = decision(book_at(history, year)[1], application).award
    terms = [term for _, term in filings_of(history, Calendar) if term.year == year]
    in_main_terms = 0
    for term in sorted(terms, key=lambda term: (term.school, term.term)):
        paid = net(history, student, term.school, year, term.term, PELL)
        if paid > 0:
            bound = payment_of_term(history, student, term.school, year, term.term, award=award)
            if paid > bound:
                return paid, bound
        if not term.extra:
            in_main_terms += paid
    return (
        over(in_main_terms, 100 * award)
        or over(net(history, student, year=year, program=PELL), 150 * award)
        or over(used(history, student, year, award=award), LIFETIME_LIMIT)
    )


def unknown_term(history, filing):
    """The term is unknown. Own."""
    position, _ = term_at(history, filing.school, filing.year, filing.term)
    return None if position else (filing.term, 0)


def credits_out_of_range(history, enrolment):
    """No credits, or more than 40. Own."""
    return None if 1 <= enrolment.credits <= 40 else (enrolment.credits, 40)


def withdrawn(history, filing):
    """The student withdrew from the term. 34 CFR 668.22."""
    position, _ = withdrawal_at(history, filing)
    return (position, filing.term) if position else None


def paid_above_credits(history, enrolment):
    """The term's net Pell is above what the new intensity gives. HEA 401(b)(2); 34 CFR 690.80(b)."""
    place = place_of(enrolment)
    bound = payment_of_term(history, credits=enrolment.credits, **place)
    return over(net(history, program=PELL, **place), bound)


def no_application(history, filing):
    """There is no application of the student for the year. HEA 483."""
    return (filing.student, filing.year) if application_of(history, filing.student, filing.year) is None else None


def originated(history, origination):
    """Originated already. Own."""
    position, _ = origination_at(history, origination)
    return (position, origination.year) if position else None


def no_cost(history, origination):
    """A cost of attendance of 0. HEA 472."""
    return (0, 1) if origination.cost == 0 else None


def not_originated(history, filing):
    """Not originated at the school in the year. Own."""
    position, _ = origination_at(history, filing)
    return None if position else (filing.student, filing.school)


def not_enrolled(history, filing):
    """Not enrolled in the term. 34 CFR 690.75, 668.22(a)."""
    return None if credits_of(history, **place_of(filing)) else (filing.student, filing.term)


def not_whole_dollars(history, payment):
    """An amount of 0, or Pell not in whole dollars. Own."""
    broken = payment.cents == 0 or payment.program == PELL and payment.cents % 100 != 0
    return (payment.cents, 100) if broken else None


def at_ceiling(history, payment):
    """Pell for an index at or above the year's ceiling, of one who isn't barred as a graduate. HEA 401(b)(1), since Public Law 119-21."""
    application, (_, book) = application_of(history, payment.student, payment.year), book_at(history, payment.year)
    if payment.program != PELL or application.graduate or application.bachelor:
        return None
    found = index(book, application)
    return (found, -(-book.ceiling * book.maximum // 100)) if is_at_ceiling(book, found) else None


def no_award(history, payment):
    """Pell with a Scheduled Award of 0. HEA 401(b)."""
    if payment.program != PELL or scheduled(history, payment.student, payment.year) > 0:
        return None
    return application_of(history, payment.student, payment.year).transaction, 0


def paid_elsewhere(history, payment):
    """Pell while a term of another school that shares a day holds net Pell. HEA 401(d)(3); 34 CFR 690.11."""
    if payment.program != PELL:
        return None
    _, here = term_at(history, payment.school, payment.year, payment.term)
    others = [
        term.school for _, term in filings_of(history, Calendar)
        if term.school != payment.school and shares_day(term, here)
        and net(history, payment.student, term.school, term.year, term.term, PELL) > 0
    ]
    return (min(others), payment.school) if others else None


def past_post_withdrawal(history, payment):
    """After a withdrawal, past what could have been disbursed of the program, or past the post-withdrawal amount in
    all. 34 CFR 668.22(a)(6)."""
    position, withdrawal = withdrawal_at(history, payment)
    if withdrawal is None:
        return None
    since = [
        paid for paid_at, paid in filings_of(history, Payment)
        if paid_at > position and place_of(paid) == place_of(payment)
    ]
    of_program = sum(paid.cents for paid in since if paid.program == payment.program)
    of_all = sum(paid.cents for paid in since)
    return (
        over(of_program + payment.cents, withdrawal.could[payment.program])
        or over(of_all + payment.cents, sheet_at(history, position).post)
    )


def pell_past_term(history, filing, cents):
    """So much Pell is past the payment of the term. 34 CFR 690.63(b)."""
    place = place_of(filing)
    return over(net(history, program=PELL, **place) + cents, payment_of_term(history, **place))


def pell_past_year(history, filing, cents):
    """So much Pell is past the year's limit at all schools: the Scheduled Award, or one and a half in an extra term of
    at least half intensity. HEA 401(b)."""
    _, school = school_at(history, filing.school)
    _, term = term_at(history, filing.school, filing.year, filing.term)
    percent = intensity(credits_of(history, **place_of(filing)), school.full)
    awards = 150 if term.extra and percent >= 50 else 100
    paid = net(history, filing.student, year=filing.year, program=PELL)
    return over(paid + cents, awards * scheduled(history, filing.student, filing.year))


def pell_past_lifetime(history, filing, cents):
    """So much Pell is past the lifetime limit. HEA 401(d)(5)."""
    return over(used(history, filing.student, filing.year, more=cents), LIFETIME_LIMIT)


def fseog_past_year(history, filing, cents):
    """So much FSEOG is past 4,000 dollars in the year. HEA 413B(a)(2). Own: one limit over all schools."""
    return over(net(history, filing.student, year=filing.year, program=FSEOG) + cents, FSEOG_LIMIT)


def aid_past_cost(history, filing, cents):
    """So much is past the cost of attendance at the school that is in force. HEA 401(b)(3) for Pell; own for all programs
    together."""
    cost = cost_of(history, filing.student, filing.school, filing.year)
    return over(net(history, filing.student, filing.school, filing.year) + cents, 100 * cost)


def past_term(history, payment):
    """Past the payment of the term, for Pell. 34 CFR 690.63(b)."""
    return pell_past_term(history, payment, payment.cents) if payment.program == PELL else None


def past_year(history, payment):
    """Past the year's limit, for Pell and FSEOG. HEA 401(b), 413B(a)(2)."""
    if payment.program == PELL:
        return pell_past_year(history, payment, payment.cents)
    return fseog_past_year(history, payment, payment.cents) if payment.program == FSEOG else None


def past_lifetime(history, payment):
    """Past the lifetime limit, for Pell. HEA 401(d)(5)."""
    return pell_past_lifetime(history, payment, payment.cents) if payment.program == PELL else None


def past_cost(history, payment):
    """Past the cost of attendance. HEA 401(b)(3) for Pell; own for all programs together."""
    return aid_past_cost(history, payment, payment.cents)


def last_day_outside(history, withdrawal):
    """The last day is outside the term. 34 CFR 668.22(b), (c)."""
    _, term = term_at(history, withdrawal.school, withdrawal.year, withdrawal.term)
    if withdrawal.last < term.first:
        return day_number(withdrawal.last), day_number(term.first)
    return over(day_number(withdrawal.last), day_number(term.last))


def determined_too_early(history, withdrawal):
    """Determined before the last day. 34 CFR 668.22(f)."""
    if withdrawal.determined < withdrawal.last:
        return day_number(withdrawal.determined), day_number(withdrawal.last)
    return None


def could_past_limits(history, withdrawal):
    """What could have been disbursed is past a limit of payments, each tried where its amount is above 0.
    34 CFR 668.22(a)(6), 668.164(j)."""
    pell, fseog, every = withdrawal.could[PELL], withdrawal.could[FSEOG], sum(withdrawal.could)
    limits = [
        (pell_past_term, pell), (pell_past_year, pell), (pell_past_lifetime, pell),
        (fseog_past_year, fseog), (aid_past_cost, every),
    ]
    for limit, cents in limits:
        broken = limit(history, withdrawal, cents) if cents > 0 else None
        if broken:
            return broken
    return None


def no_amount(history, filing):
    """An amount of 0. Own."""
    return (0, 1) if filing.cents == 0 else None


def past_owed(history, repayment):
    """Past what the student owes of the program. 34 CFR 668.22(h)(3)."""
    repaid = sum(
        earlier.cents for _, earlier in filings_of(history, Repayment)
        if earlier.program == repayment.program and place_of(earlier) == place_of(repayment)
    )
    position, _ = withdrawal_at(history, repayment)
    owed = sheet_at(history, position).owed[repayment.program] if position else 0
    return over(repaid + repayment.cents, owed)


def past_net(history, adjustment):
    """An adjustment past the net paid of the program. Own, on 34 CFR 690.80."""
    return over(adjustment.cents, net(history, program=adjustment.program, **place_of(adjustment)))


def cost_below_paid(history, changed):
    """More is paid of all programs at the school in the year than the changed cost. HEA 401(b)(3) for Pell; own for all
    programs together."""
    return over(net(history, changed.student, changed.school, changed.year), 100 * changed.cost)


def not_withdrawn(history, sending):
    """The student hasn't withdrawn from the term. 34 CFR 668.22(g)."""
    position, _ = withdrawal_at(history, sending)
    return None if position else (sending.student, sending.term)


def sent_too_early(history, sending):
    """Sent before the day on which the school determined the withdrawal. 34 CFR 668.22(j)(1)."""
    _, withdrawal = withdrawal_at(history, sending)
    if sending.day < withdrawal.determined:
        return day_number(sending.day), day_number(withdrawal.determined)
    return None


def past_returned(history, sending):
    """Past what the school has to send back of the program. 34 CFR 668.22(g), (i)."""
    place = place_of(sending)
    return over(sent(history, place, sending.program) + sending.cents, returned(history, place, sending.program))


# The rules of each kind with their numbers, in the order in which they are tried (own).
RULES = {
    Book: [(90, no_room), (14, not_own_desk), (11, book_on_file)],
    School: [(90, no_room), (14, not_own_desk), (13, code_on_file)],
    Calendar: [
        (90, no_room), (12, unknown_school), (20, term_on_file), (21, days_out_of_order), (23, break_outside),
        (22, days_taken), (24, main_terms_on_file),
    ],
    PriorUse: [
        (90, no_room), (14, not_own_desk), (81, prior_above_limit), (80, prior_on_file), (82, pell_before_prior),
    ],
    Application: [
        (90, no_room), (12, unknown_desk), (10, no_book), (92, not_fit), (91, transaction_not_above),
        (93, past_limits_corrected),
    ],
    Enrolment: [
        (90, no_room), (12, unknown_school), (30, unknown_term), (32, credits_out_of_range), (34, withdrawn),
        (33, paid_above_credits),
    ],
    Origination: [(90, no_room), (12, unknown_school), (31, no_application), (41, originated), (42, no_cost)],
    Payment: [
        (90, no_room), (12, unknown_school), (30, unknown_term), (31, no_application), (50, not_originated),
        (51, not_enrolled), (53, not_whole_dollars), (43, at_ceiling), (40, no_award), (58, paid_elsewhere), (52, past_post_withdrawal),
        (54, past_term), (55, past_year), (56, past_lifetime), (57, past_cost),
    ],
    Withdrawal: [
        (90, no_room), (12, unknown_school), (30, unknown_term), (31, no_application), (50, not_originated),
        (60, not_enrolled), (61, withdrawn), (62, last_day_outside), (21, determined_too_early),
        (63, could_past_limits),
    ],
    Repayment: [(90, no_room), (12, unknown_school), (71, no_amount), (70, past_owed)],
    Adjustment: [
        (90, no_room), (12, unknown_school), (30, unknown_term), (71, no_amount), (34, withdrawn), (72, past_net),
    ],
    ChangedCost: [(90, no_room), (12, unknown_school), (50, not_originated), (42, no_cost), (45, cost_below_paid)],
    Sending: [
        (90, no_room), (12, unknown_school), (64, not_withdrawn), (71, no_amount), (65, sent_too_early),
        (66, past_returned),
    ],
    Amendment: [(90, no_room), (12, unknown_desk)],
}


# What the office answers

def first_broken(history, filing):
    """The refusal by the first rule that a filing breaks after a history, if any. Own."""
    for number, rule in RULES[type(filing)]:
        broken = rule(history, filing)
        if broken:
            return Refused(number, *broken)
    return None


def outcome(history, filing):
    """With what a filing is admitted after a history. Own."""
    if isinstance(filing, Application):
        return decision(book_at(history, filing.year)[1], filing)
    if isinstance(filing, Payment):
        paid = net(history, filing.student, year=filing.year, program=filing.program) + filing.cents
        pell = filing.cents if filing.program == PELL else 0
        return Paid(paid, used(history, filing.student, filing.year, more=pell))
    if isinstance(filing, Withdrawal):
        lines = sheet(history, filing)
        return Returned(lines.percent, lines.school, sum(lines.owed), lines.post)
    return Noted()


def verdict(history, filing):
    """The answer to a filing: again where it stands already, rule 15 where its key is used for another one, else what
    the rules of its kind say. Own."""
    position, on_file = earliest(history, Filing, school=filing.school, number=filing.number)
    if position and on_file == filing:
        return Again(position, outcome(history[:position - 1], filing))
    if position:
        return Refused(15, position, filing.number)
    return first_broken(history, filing) or Admitted(outcome(history, filing))


def file(history, filing):
    """The answer to a filing, which joins the history where it is admitted. Own."""
    answer = verdict(history, filing)
    if isinstance(answer, Admitted):
        history.append(filing)
    return answer


def quote(history, school, student, year, term):
    """The greatest whole-dollar Pell payment, in cents, that a school could file, 0 where there is none. Own.
    Rules bound a payment from above alone: what can be paid is every amount up to the greatest, which halving finds."""
    def is_refused(dollars):
        """A payment of so many dollars breaks a rule."""
        return first_broken(history, Payment(school, 0, student, year, term, PELL, 100 * dollars)) is not None

    return 100 * bisect_left(range(1, GREATEST_PAYMENT + 1), True, key=is_refused)


def standing(history, student, year):
    """Where a student stands in a year; without an application there is no award. Own."""
    units = used(history, student)
    application = application_of(history, student, year)
    if application is None:
        return Standing(0, "A", 0, "nothing", 0, 0, units)
    found = decision(book_at(history, year)[1], application)
    paid = net(history, student, year=year, program=PELL)
    return Standing(application.transaction, *astuple(found), paid, units)


# Rounds of awards: what a school's fund of Federal Supplemental Educational Opportunity Grants pays by a policy

@dataclass(frozen=True)
class Candidate:
    """Whom a fund may award: the final index, the need in whole dollars, the enrolment intensity in percent."""
    student: int
    index: int
    need: int
    intensity: int


def level(candidate):
    """The need up to 1,000 dollars, and nothing below 100. Own, on HEA 413B(a)(2)."""
    award = min(candidate.need, 1_000)
    return award if award >= LEAST_AWARD else 0


def quarter(candidate):
    """A quarter of the need in whole dollars, up to 4,000, and nothing below 100. Own, on HEA 413B(a)(2)."""
    award = min(candidate.need // 4, 4_000)
    return award if award >= LEAST_AWARD else 0


POLICIES = {"level": level, "quarter": quarter}


def need(history, student, school, year):
    """The cost of attendance in force less all net aid at the school in the year, in whole dollars rounded down. HEA 471.
    Own: the rounding, and that aid is what this office knows of."""
    return max(0, 100 * cost_of(history, student, school, year) - net(history, student, school, year)) // 100


def is_candidate(history, student, school, year, term):
    """An application is in force, credits are in force in the term, the student hasn't withdrawn from it, and nothing of the
    program stands in it. 34 CFR 676.9, 676.10; own: the last."""
    place = {"student": student, "school": school, "year": year, "term": term}
    withdrawn_at, _ = earliest(history, Withdrawal, **place)
    return (
        application_of(history, student, year) is not None and credits_of(history, **place) > 0 and withdrawn_at == 0
        and net(history, program=FSEOG, **place) == 0
    )


def candidates(history, school, year, term):
    """Of the students originated at the school in the year those who may be awarded, the lowest index first, of one index
    by number. HEA 413C(c)(2); 34 CFR 676.10."""
    originated = {
        filing.student for _, filing in filings_of(history, Origination) if (filing.school, filing.year) == (school, year)
    }
    _, facts = school_at(history, school)
    listed = [
        Candidate(
            student, standing(history, student, year).index, need(history, student, school, year),
            intensity(credits_of(history, student, school, year, term), facts.full),
        )
        for student in originated if is_candidate(history, student, school, year, term)
    ]
    return sorted(listed, key=lambda candidate: (candidate.index, candidate.student))


def award_round(fund, listed, policy):
    """The awards of candidates in their order, and what they leave of a fund: what the policy answers cut to what is left,
    and nothing of less than 100 dollars. Own, on 34 CFR 676.10, 676.20."""
    awards = []
    for candidate in listed:
        award = min(policy(candidate), fund) if fund >= LEAST_AWARD else 0
        awards.append(award)
        fund -= award
    return awards, fund


def rest_of_fund(history, school, year, term, amount):
    """Whole dollars of a fund that aren't paid yet: what the term's students have of the program is rounded up. Own."""
    paid = {
        filing.student for _, filing in filings_of(history, Payment)
        if (filing.school, filing.year, filing.term, filing.program) == (school, year, term, FSEOG)
    }
    cents = sum(net(history, student, school, year, term, FSEOG) for student in paid)
    return max(0, amount - -(-cents // 100))


def plan_round(history, school, year, term, amount, policy, number):
    """The payments that a round files, under numbers from one on, and what is left of the fund. Own."""
    listed = candidates(history, school, year, term)
    awards, left = award_round(rest_of_fund(history, school, year, term, amount), listed, policy)
    paid = [(candidate.student, award) for candidate, award in zip(listed, awards) if award > 0]
    payments = [
        Payment(school, number + place, student, year, term, FSEOG, 100 * award) for place, (student, award) in enumerate(paid)
    ]
    return payments, left


# Reports: what the office tells of a whole history, line by line (own)

@dataclass(frozen=True)
class Return:
    """A withdrawal as a report has it: where, tenths of a percent earned, the school's part, what the student owes, the rest
    that may be disbursed after it, and the day on which the school's part is due."""
    school: int
    student: int
    term: int
    percent: int
    returned: int
    owed: int
    post: int
    due: date


def standing_report(history, year):
    """Each student with an application in the year, by number, and where the student stands in it."""
    applied = {filing.student for _, filing in filings_of(history, Application) if filing.year == year}
    return [(student, standing(history, student, year)) for student in sorted(applied)]


def award_report(history, year):
    """What each student has of each program in each term of the year, where it is above 0: school, student, term, program
    and cents, in that order."""
    paid = {
        (filing.school, filing.student, filing.term, filing.program)
        for _, filing in filings_of(history, Payment) if filing.year == year
    }
    nets = [(*place, net(history, place[1], place[0], year, place[2], place[3])) for place in sorted(paid)]
    return [line for line in nets if line[-1] > 0]


def due_day(withdrawal):
    """45 days after the school determined the withdrawal; none where no such day has a date. 34 CFR 668.22(j)(1)."""
    if withdrawal.determined > date.max - timedelta(45):
        return None
    return withdrawal.determined + timedelta(45)


def return_report(history, year):
    """The withdrawals in the year, in the order in which they were filed."""
    lines = []
    for position, filing in filings_of(history, Withdrawal):
        if filing.year == year:
            found = sheet_at(history, position)
            lines.append(Return(
                filing.school, filing.student, filing.term, found.percent, found.school, sum(found.owed), found.post,
                due_day(filing),
            ))
    return lines


def lifetime_report(history):
    """Each student with a prior use or a Pell payment, by number: the units used before this office, and all."""
    prior = {filing.student: filing.units for _, filing in filings_of(history, PriorUse)}
    paid = {filing.student for _, filing in filings_of(history, Payment) if filing.program == PELL}
    return [(student, prior.get(student, 0), used(history, student)) for student in sorted(paid | prior.keys())]


def stamp_report(history, stamps):
    """The position of each filing with its stamp, in the order in which they were filed. The last filings may have none noted, and
    have the one that nobody said."""
    return [(position, stamp) for position, stamp in enumerate(stamped(history, stamps), 1)]


def stamped(history, stamps):
    """The stamp of each filing of a history."""
    return [*stamps, *[Stamp()] * (len(history) - len(stamps))]
