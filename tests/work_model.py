"""A work-study office in plain Python, written apart from the proved code: its rows, its rules, its rounds, its lines and its journal.
Each filing is judged on the whole list of those before it."""
import ruled_model
from desk import KEY, STUDENT, YEAR, Faulty, RowError, money, rows_of, whole

MOST_FILINGS = 200_000
LONGEST_INPUT = 16_777_216
DOLLARS = whole(0, 9_999)
AWARDED = [STUDENT, YEAR, DOLLARS]
# The code of each kind, and the fields behind the key.
KINDS = {
    "fund": (201, [YEAR, whole(0, 9_999_999)]),
    "award": (202, AWARDED),
    "earn": (203, [STUDENT, YEAR, whole(0, 60_000), whole(0, 100_000)]),
    "release": (204, AWARDED),
}
# How many bytes a field takes; that of any other takes four.
WIDTHS = {KEY[1]: 8, STUDENT: 8, YEAR: 2}
# What a row of a round has: the student, the Student Aid Index, the need, the enrolment intensity in percent.
CANDIDATE = [STUDENT, whole(-1_500, 999_999), whole(0, 999_999), whole(1, 100)]
# Behind `round`: the school, the year, the number of the first award.
ROUND = [KEY[0], YEAR, whole(1, 999_999_000_000)]
LEAST_AWARD, MOST_AWARD = 100, 4_000


def least(dollars):
    """An amount from the least award on, else nothing."""
    return dollars if dollars >= LEAST_AWARD else 0


# What the policy of a school answers to a need.
POLICIES = {
    101: lambda need: least(min(need, 1_000)),
    102: lambda need: least(min(need // 4, MOST_AWARD)),
}


def earning(minutes, wage):
    """An earning in cents, of minutes at a wage in cents an hour: to the nearest cent, half a cent up."""
    return (minutes * wage + 30) // 60


class Filing(ruled_model.Filing):
    @property
    def student(self):
        """Whom it is about; nobody where it is a fund."""
        return None if self.kind == "fund" else self.facts[0]

    @property
    def year(self):
        return self.facts[0 if self.kind == "fund" else 1]

    @property
    def amount(self):
        """Dollars, or of an earning cents."""
        return earning(*self.facts[2:]) if self.kind == "earn" else self.facts[-1]

    def payload(self):
        """The bytes of the filing."""
        code, fields = KINDS[self.kind]
        numbers = zip((self.school, self.number, *self.facts), [*KEY, *fields])
        return bytes([code]) + b"".join(number.to_bytes(WIDTHS.get(field, 4), "little") for number, field in numbers)


def numbers_of(fields, columns, first):
    """The numbers of columns, the first of which stands so far in its row, or the first fault of them."""
    if len(columns) != len(fields):
        return RowError(0, 2)
    numbers = []
    for place, (read, text) in enumerate(zip(fields, columns), first):
        try:
            numbers.append(read(text))
        except Faulty as faulty:
            return RowError(place, *faulty.args)
    return numbers


def filing_of(columns):
    """The filing of a row's columns, or the first fault of them."""
    kind, *behind = columns
    if kind not in KINDS:
        return RowError(1, 1)
    numbers = numbers_of(KEY + KINDS[kind][1], behind, 2)
    return numbers if isinstance(numbers, RowError) else Filing(kind, numbers[0], numbers[1], tuple(numbers[2:]))


class WorkOffice(ruled_model.RuledOffice):
    """A work-study office."""

    def there(self, kind, school, year, student=None):
        """The filings of a kind for a school's year, of one student or of all, by their positions."""
        return {
            position: filing for position, filing in enumerate(self.filings, 1)
            if (filing.kind, filing.school, filing.year) == (kind, school, year) and student in (None, filing.student)
        }

    def total(self, *where):
        return sum(filing.amount for filing in self.there(*where).values())

    def in_force(self, *where):
        """The awards there less their releases, in dollars."""
        return self.total("award", *where) - self.total("release", *where)

    def rest(self, school, year):
        """What is left to award of a fund, in dollars; 0 where there is none."""
        return self.total("fund", school, year) - self.in_force(school, year)

    def broken(self, filing):
        """The first rule that a filing breaks: its number, what stands, and what may stand."""
        if len(self.filings) >= MOST_FILINGS:
            return 210, MOST_FILINGS, MOST_FILINGS
        fund = self.there("fund", filing.school, filing.year)
        if filing.kind == "fund":
            return (211, min(fund), filing.year) if fund else None
        award = self.there("award", filing.school, filing.year, filing.student)
        if filing.kind == "award":
            return self.broken_award(filing, fund, award)
        if not award:
            return 216, filing.student, filing.year
        if not filing.amount:
            return 217, 0, 1
        place = (filing.school, filing.year, filing.student)
        earned, most = self.total("earn", *place), 100 * self.in_force(*place)
        if filing.kind == "earn":
            return (218, earned + filing.amount, most) if earned + filing.amount > most else None
        return (219, 100 * filing.amount, most - earned) if 100 * filing.amount > most - earned else None

    def broken_award(self, filing, fund, award):
        if not fund:
            return 212, filing.school, filing.year
        if not LEAST_AWARD <= filing.amount <= MOST_AWARD:
            return 213, filing.amount, MOST_AWARD
        if award:
            return 214, min(award), filing.student
        awards, dollars = self.in_force(filing.school, filing.year) + filing.amount, self.total("fund", filing.school, filing.year)
        return (215, awards, dollars) if awards > dollars else None

    def outcome(self, filing):
        if filing.kind != "earn":
            return "noted"
        place = (filing.school, filing.year, filing.student)
        earned = self.total("earn", *place) + filing.amount
        return f"earned {money(earned)} {money(100 * self.in_force(*place) - earned)}"

    def line(self, row, filing):
        if isinstance(filing, RowError):
            return f"{row} error {filing.field} {filing.cause}\n"
        return f"{row} {len(self.filings)} {self.file(filing)}\n"

    def file_rows(self, text):
        """What `file` prints."""
        return "".join(self.line(row, filing_of(columns)) for row, columns in enumerate(rows_of(text), 1))

    def round(self, school, year, number, text):
        """What `round SCHOOL YEAR NUMBER` prints: the rows that are none, the awards, what is left."""
        errors, candidates = "", {}
        for row, columns in enumerate(rows_of(text), 1):
            candidate = numbers_of(CANDIDATE, columns, 1)
            if not isinstance(candidate, RowError) and candidate[0] in candidates:
                candidate = RowError(1, 5)
            if isinstance(candidate, RowError):
                errors += self.line(row, candidate)
            else:
                candidates[candidate[0]] = candidate
        awards, left = self.awards(school, year, candidates.values())
        filings = [Filing("award", school, number + k, (student, year, award)) for k, (student, award) in enumerate(awards)]
        return errors + "".join(self.line(row, filing) for row, filing in enumerate(filings, 1)) + f"left {left}\n"

    def awards(self, school, year, candidates):
        """The awards above 0 of those who have none there, by index and student, and what they leave of the fund."""
        awards, left = [], self.rest(school, year)
        for student, _, need, _ in sorted(candidates, key=lambda candidate: (candidate[1], candidate[0])):
            if left >= LEAST_AWARD and not self.there("award", school, year, student):
                award = min(POLICIES[school](need), left)
                awards += [(student, award)] if award else []
                left -= award
        return awards, left

    def answer(self, words, text=b""):
        """The status and the text of a run's words, for an input, on this office, which was founded."""
        behind = numbers_of(ROUND, words[1:], 1)
        if words[:1] == ["round"] and not isinstance(behind, RowError) and behind[0] in POLICIES:
            return (8, "fault too long\n") if len(text) > LONGEST_INPUT else (0, self.round(*behind, text))
        if words == ["file"]:
            return (8, "fault too long\n") if len(text) > LONGEST_INPUT else (0, self.file_rows(text))
        return (6, "fault office exists\n") if words == ["found"] else (2, "fault usage\n")

    def journal(self):
        """The bytes of the office's file up to the end mark, and with it."""
        payloads = [filing.payload() for filing in self.filings]
        records = b"".join(b"\1" + len(payload).to_bytes(4, "little") + payload for payload in payloads)
        return b"\1AIDPELL1" + (2).to_bytes(4, "little") + bytes(3) + records + b"\0"
