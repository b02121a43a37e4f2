"""Worked offices: each is a list of runs on a journal of its own, with the words, the input, and the text that they print. The
figures come from the law's worksheets and the office's own rules, worked by hand."""
import os

EXAMPLES = os.path.join(os.path.dirname(os.path.dirname(os.path.abspath(__file__))), "examples")


def example(name):
    """The text of an example."""
    with open(os.path.join(EXAMPLES, name), "rb") as file:
        return file.read()


SPECIMEN = example("2025.toml")


def with_ceiling(text, percent):
    """A book's text with a ceiling of so many percent: form 2, and its one field more."""
    return text.replace(b"form = 1\n", b"form = 2\n") + b"\n[ceiling]\npercent = %d\n" % percent


def specimen_of(year="2025", percent=None):
    """The specimen's figures as the book of a year, with a ceiling of so many percent or without one."""
    text = SPECIMEN.replace(b"year = 2025", b"year = " + year.encode())
    return with_ceiling(text, int(percent)) if percent else text


def book_of_step(words):
    """The text of a step `book NUMBER of YEAR with a ceiling of PERCENT`; the year and the ceiling may be left out."""
    return specimen_of(*words[3:4], *words[8:])


YEAR_ROWS = example("year.csv").decode().splitlines()


def apply(key, student, **given):
    """The row of an application: of a dependent student in a family of four without income, but for what is given."""
    numbers = {"year": 2025, "transaction": 1, "birth_year": 2006, "region": 0, "family": 4}
    numbers |= dict.fromkeys(
        ["married", "graduate", "bachelor", "veteran", "dependents", "orphan", "ward", "foster", "emancipated", "homeless"], 0)
    side = [
        "agi", "ira", "interest", "ira_untaxed", "pension", "foreign", "grants", "credits", "work_study", "tax", "earned_first",
        "earned_second", "support", "cash", "investments", "business",
    ]
    numbers |= {"student_file": 1} | dict.fromkeys(side, 0) | {"parents_married": 1, "parents_file": 1, "parent_age": 48}
    numbers |= dict.fromkeys([f"parent_{name}" for name in side], 0)
    assert given.keys() <= numbers.keys()
    return ",".join(["apply", key, str(student), *map(str, (numbers | given).values())])


def book(text=SPECIMEN, line="1 0 accepted 1 noted"):
    """The specimen is filed."""
    return ["book", "1"], text, line


def rows(*pairs):
    """Rows are filed, each with its line but for the numbers in front."""
    text = "\n".join(row for row, _ in pairs)
    return ["file"], text.encode(), [line for _, line in pairs]


def filed(*rows_of_text):
    """Rows are filed, and no line of them is compared."""
    return ["file"], "\n".join(rows_of_text).encode(), None


def quote(term, dollars, student=5001):
    """What the office quotes at school 110."""
    return ["quote", "110", str(student), "2025", str(term)], b"", f"quote {dollars}"


def report(text, *words):
    """A report prints this text."""
    return ["report", *words], b"", text


# A school of two terms with 12 credits full time, a student with a Scheduled Award of 7,395 dollars, full time in both terms.
SCHOOL = "school,0,2,110,2,12"
TERMS = ["calendar,110,1,2025,1,0,2025-08-25,2025-12-02,0", "calendar,110,2,2025,2,0,2026-01-12,2026-04-21,0"]


def base(student=5001, number=100, cost=24_000):
    """The rows that bring a student to both terms."""
    return [
        apply(f"110,{number}", student, parents_file=0), f"enrol,110,{number + 1},{student},2025,1,12",
        f"enrol,110,{number + 2},{student},2025,2,12", f"originate,110,{number + 3},{student},2025,{cost}",
    ]


BASE = [book(), filed(SCHOOL, *TERMS, *base())]
PAID = "pay,110,9,5001,2025,1,pell,3698.00"


def days_of(total):
    """The last day of a term of so many days from 2027-01-01 on, by its first and last day."""
    return {100: "2027-04-10", 111: "2027-04-21", 403: "2028-02-07"}[total]


def completed(total, last, percent):
    """A student leaves a term of so many days on this day, with nothing paid."""
    rows_before = [
        SCHOOL, f"calendar,110,1,2025,1,0,2027-01-01,{days_of(total)},0", apply("110,3", 5001), "enrol,110,4,5001,2025,1,12",
        "originate,110,5,5001,2025,24000",
    ]
    leaving = f"withdraw,110,6,5001,2025,1,{last},{last},0.00,0.00,0.00,0.00,0.00,0.00,0.00"
    return [book(), filed(*rows_before), rows((leaving, f"accepted 7 returned {percent} 0.00 0.00 0.00"))]


def withdraw(last, charges, pell="0.00"):
    """A withdrawal from term 1."""
    return f"withdraw,110,20,5001,2025,1,{last},2025-12-02,{charges},0.00,0.00,0.00,{pell},0.00,0.00"


BAD_ROWS = [
    ("pay,110,6,5001,2025,1,pell,1145", "error 8 3"),
    ("calendar,110,1,2025,1,0,2025-02-30,2025-12-12,0", "error 7 4"),
    ("calendar,110,1,2025,1,0,2025-08-25,2025-12-12,1", "error 0 2"),
    ("school,0,1,110,4,12", "error 5 4"),
    ("prior,0,02,5001,1", "error 3 3"),
    ("prior,0,2,5001,1", "fine"),
]
BAD_BOOKS = [
    (SPECIMEN.replace(b"minimum = 740\n", b"minimum = 740\nbonus = 1\n"), "1 book 6 pell.bonus"),
    (SPECIMEN.replace(b"minimum = 740\n", b'minimum = 740\n"a\\n1 book 1" = 1\n'), "1 book 6 pell.a?1 book 1"),
    (SPECIMEN.replace(b"minimum = 740\n", b"minimum = 7396\n"), "1 book 4 4"),
    (SPECIMEN.replace(b"base = 11240\n", b"base = 11241\n"), "1 book 5 3 5"),
    (SPECIMEN.replace(b"minimum = 740\n", b"bonus = 1\n"), "1 book 2 4"),
    (b"form = ", "1 book 1"),
]

# The worked year: 18 filings. Student 5001 has 2,145 dollars net at school 110. Of term 2 at school 120 there are 65.30 of Pell
# to send back, as the school determined on 2026-02-05.
FILED_YEAR = [book(), (["file"], example("year.csv"), example("year.txt").decode())]

# Of the students of school 110 two have one index and are filed in the other order of their numbers, and a third with their index
# needs less than 100 dollars; one has a higher index; one has withdrawn, one was paid 100.05 dollars of the fund, one is enrolled in
# term 2 alone, one isn't enrolled, and one isn't originated. The need of 5003 is 499.50 dollars.
ROUND_ROWS = [
    "school,0,2,110,2,12", "school,0,3,120,2,12", TERMS[0], TERMS[1].replace("2026-04-21", "2026-05-01"),
    TERMS[0].replace("calendar,110", "calendar,120"), apply("110,10", 5003, parents_file=0), YEAR_ROWS[6].replace("110,3,5001", "110,11,4001"),
    *[apply(f"110,{number}", student, parents_file=0) for number, student in enumerate([5001, 5007, 5008, 5009, 5010], 12)],
    apply("120,17", 5011, parents_file=0), apply("110,18", 5012, parents_file=0), apply("110,19", 5013, parents_file=0),
    *[f"originate,110,{number},{student},2025,24000" for number, student in enumerate([5003, 4001, 5001, 5007, 5008, 5009], 20)],
    "originate,110,26,5010,2025,99", "originate,120,27,5011,2025,24000", "originate,110,28,5012,2025,24000", "enrol,110,30,5003,2025,1,12",
    "enrol,110,31,4001,2025,1,6", "enrol,110,32,5001,2025,1,12", "enrol,110,33,5007,2025,1,12", "enrol,110,34,5008,2025,1,12",
    "enrol,110,35,5009,2025,2,12", "enrol,110,36,5010,2025,1,12", "enrol,120,37,5011,2025,1,12", "enrol,110,38,5013,2025,1,12",
    "pay,110,40,5003,2025,1,unsub,23500.50", "pay,110,41,5008,2025,1,fseog,100.05",
    "withdraw,110,42,5007,2025,1,2025-09-23,2025-09-29,100.00,0.00,0.00,0.00,0.00,0.00,0.00",
]
# What rounds on these 37 filings print. The 100.05 dollars that were paid count as 101.
ROUNDS = {
    (110, 2025, 1, 3_000, "level"): "1 37 accepted 38 paid 1000.00 0\n2 38 accepted 39 paid 499.00 0\n3 39 accepted 40 paid 1000.00 0\nleft 400",
    (110, 2025, 1, 1_601, "level"): "1 37 accepted 38 paid 1000.00 0\n2 38 accepted 39 paid 499.00 0\nleft 1",
    (110, 2025, 1, 20_000, "quarter"):
        "1 37 accepted 38 paid 4000.00 0\n2 38 accepted 39 paid 124.00 0\n3 39 accepted 40 paid 4000.00 0\nleft 11775",
    (110, 2025, 1, 201, "level"): "1 37 accepted 38 paid 100.00 0\nleft 0",
    (110, 2025, 1, 200, "level"): "left 99",
    (110, 2025, 1, 100, "level"): "left 0",
    (110, 2025, 2, 500, "level"): "1 37 accepted 38 paid 500.00 0\nleft 0",
    (120, 2025, 1, 5_000, "level"): "1 37 accepted 38 paid 1000.00 0\nleft 4000",
    (110, 2026, 1, 500, "level"): "left 500",
}

OFFICES = {
    "a day's first rows": [
        rows(("school,0,1,110,2,12", "accepted 1 noted"), ("prior,0,2,5001,550000", "accepted 2 noted")),
        (["file"], b"", ""),
        rows(("school,0,1,110,2,12", "again 1 noted"), ("prior,0,2,5001,550000", "again 2 noted")),
        rows(("prior,0,2,5001,540000", "refused 15 2 2"), ("prior,0,x,5001,1", "error 3 3"), ("loan,0,9", "error 1 1")),
        rows(
            ("school,0,4,110,3,24", "refused 13 1 110"), ("prior,0,5,5001,1", "refused 80 2 5001"),
            ("prior,0,6,5002,600001", "refused 81 600001 600000"), ("prior,110,1,5002,1", "refused 14 110 0"),
        ),
    ],
    "credits in percent of full time": BASE + [
        step for credits, dollars in [(1, 296), (7, 2145), (11, 3402), (12, 3698), (15, 3698)]
        for step in (filed(f"enrol,110,{10 + credits},5001,2025,1,{credits}"), quote(1, dollars))
    ],
    "the year's limit": BASE + [
        rows((PAID, "accepted 9 paid 3698.00 50007")),
        quote(2, 3697),
        rows(("pay,110,10,5001,2025,2,pell,3698.00", "refused 55 739600 739500")),
        rows(("pay,110,10,5001,2025,2,pell,3697.00", "accepted 10 paid 7395.00 100000")),
        filed("calendar,110,11,2025,3,1,2026-05-11,2026-08-07,0", "enrol,110,12,5001,2025,3,5"),
        rows(("pay,110,13,5001,2025,3,pell,1553.00", "refused 55 894800 739500")),
        filed("enrol,110,14,5001,2025,3,6"),
        quote(3, 1849),
        rows(("pay,110,13,5001,2025,3,pell,1849.00", "accepted 14 paid 9244.00 125003")),
    ],
    "the lifetime limit": [book(), filed("prior,0,3,5001,550000", SCHOOL, *TERMS, *base())] + [
        quote(1, 3697), rows(("pay,110,9,5001,2025,1,pell,3698.00", "refused 56 600007 600000")),
    ],
    "a lifetime used up": [book(), filed("prior,0,3,5001,600000", SCHOOL, *TERMS, *base())] + [
        quote(1, 0), rows(("pay,110,9,5001,2025,1,pell,1.00", "refused 56 600014 600000")),
        rows(("prior,0,4,5002,600001", "refused 81 600001 600000")),
    ],
    "60 of 100 days": completed(100, "2027-03-01", "60.0"),
    "61 of 100 days": completed(100, "2027-03-02", "100.0"),
    "66 of 111 days": completed(111, "2027-03-07", "59.5"),
    "67 of 111 days": completed(111, "2027-03-08", "100.0"),
    "241 of 403 days": completed(403, "2027-08-29", "59.8"),
    "242 of 403 days": completed(403, "2027-08-30", "100.0"),
    "a return of a loan and a grant": BASE + [
        filed("pay,110,9,5001,2025,1,pell,3000.00", "pay,110,10,5001,2025,1,unsub,2000.00"),
        rows((withdraw("2025-09-23", "4000.00"), "accepted 11 returned 30.0 2800.00 0.00 0.00")),
    ],
    "a student owes": BASE + [
        filed("pay,110,9,5001,2025,1,pell,3000.00"),
        rows((withdraw("2025-09-03", "1000.00"), "accepted 10 returned 10.0 900.00 300.00 0.00")),
    ],
    "30 dollars are forgiven": BASE + [
        filed("pay,110,9,5001,2025,1,pell,3000.00"),
        rows((withdraw("2025-09-03", "1300.00"), "accepted 10 returned 10.0 1170.00 0.00 0.00")),
    ],
    "fewer credits": BASE + [
        filed(PAID),
        rows(
            ("enrol,110,10,5001,2025,1,6", "refused 33 369800 184900"), ("adjust,110,11,5001,2025,1,pell,1849.00", "accepted 10 noted"),
            ("enrol,110,10,5001,2025,1,6", "accepted 11 noted"),
        ),
    ],
    "paid after a withdrawal": BASE + [
        rows((withdraw("2025-09-23", "0.00", "1000.00"), "accepted 9 returned 30.0 0.00 0.00 300.00")),
        rows(("pay,110,21,5001,2025,1,pell,301.00", "refused 52 30100 30000")),
        rows(("pay,110,21,5001,2025,1,pell,300.00", "accepted 10 paid 300.00 4057")),
    ],
    "the cost of attendance": [book(), filed(SCHOOL, *TERMS, *base(cost=3_000))] + [
        quote(1, 3000), rows(("pay,110,9,5001,2025,1,pell,3001.00", "refused 57 300100 300000")),
    ],
    "an independent student": [
        book(),
        rows(
            (apply("0,10", 5002, birth_year=2000, family=1, agi=20_000, tax=600, earned_first=20_000, cash=1_000, parents_married=0,
                   parents_file=0, parent_age=0), "accepted 2 index B -20 maximum 7395"),
            (apply("0,11", 5002, birth_year=2000, family=2, agi=20_000), "refused 92 2 1"),
            (apply("0,11", 5002, birth_year=2000, family=1, agi=20_000), "refused 91 1 1"),
            (apply("0,12", 5003, birth_year=1990, family=2, dependents=1, agi=60_000, tax=3_000, earned_first=60_000,
                   investments=40_000), "accepted 3 index C -707 calculated 7395"),
        ),
        (["quote", "110", "5009", "2025", "1"], b"", "quote 0"),
    ],
    "no book of the year": [rows((apply("0,1", 5001), "refused 10 2025 0"))],
    "a book twice": [
        book(), book(line="1 1 again 1 noted"), (["book", "2"], SPECIMEN, "1 1 refused 11 1 2025"),
        (["book", "1"], SPECIMEN.replace(b"cap = 4730", b"cap = 4731"), "1 1 refused 15 1 1"),
    ],
    "texts that are no book": [(["book", "1"], text, line) for text, line in BAD_BOOKS] + [book()],
    "terms and credits": [
        book(), filed(*YEAR_ROWS[:6]),
        rows(
            ("calendar,110,9,2025,3,0,2026-04-27,2026-08-07,0", "refused 22 5 3"),
            ("calendar,110,9,2025,3,0,2026-05-11,2026-08-07,0", "refused 24 2 2"),
            ("calendar,110,9,2025,3,1,2026-05-11,2026-08-07,1,2026-05-11,2026-05-15", "refused 23 1 1"),
            ("enrol,110,9,5001,2025,1,41", "refused 32 41 40"), ("originate,110,9,5001,2025,0", "refused 31 5001 2025"),
        ),
    ],
    "a year": FILED_YEAR + [
        report(example(f"year-{which}.txt").decode(), which, *year)
        for which, *year in [("standing", "2025"), ("awards", "2025"), ("returns", "2025"), ("lifetime",)]
    ],
    "a changed cost": FILED_YEAR + [
        rows(
            ("cost,110,8,5001,2025,2144", "refused 45 214500 214400"), ("cost,110,8,5001,2025,0", "refused 42 0 1"),
            ("cost,110,8,5002,2025,2145", "refused 50 5002 110"), ("cost,110,8,5001,2025,2145", "accepted 19 noted"),
            ("pay,110,9,5001,2025,1,unsub,0.01", "refused 57 214501 214500"),
            ("cost,110,10,5001,2025,26000", "accepted 20 noted"),
            ("pay,110,9,5001,2025,1,unsub,0.01", "accepted 21 paid 1000.01 78221"),
            ("originate,110,11,5001,2025,26000", "refused 41 10 2025"), ("cost,110,11,5001,2025", "error 0 2"),
        ),
    ],
    "a return that is sent back": FILED_YEAR + [
        rows(
            ("sent,120,11,5001,2025,2,pell,65.31,2026-03-20,4711", "refused 66 6531 6530"),
            ("sent,120,11,5001,2025,2,pell,40.00,2026-02-04,4711", "refused 65 46055 46056"),
            ("sent,120,11,5001,2025,2,pell,40.00,2026-03-20,4711", "accepted 19 noted"),
            ("sent,120,12,5001,2025,2,pell,25.31,2026-03-25,4712", "refused 66 6531 6530"),
            ("sent,120,12,5001,2025,2,pell,25.30,2026-03-25,4712", "accepted 20 noted"),
            ("sent,120,13,5001,2025,2,unsub,1.00,2026-03-25,4712", "refused 66 100 0"),
            ("sent,110,13,5001,2025,1,pell,1.00,2026-03-25,4712", "refused 64 5001 1"),
            ("sent,120,13,5001,2025,2,pell,0.00,2026-03-25,4712", "refused 71 0 1"),
            ("sent,120,13,5001,2025,2,pell,1.00,2026-02-30,4712", "error 9 4"),
        ),
        *[report(example(f"year-{which}.txt").decode(), which, "2025") for which in ("standing", "awards", "returns")],
    ],
    "records of corrections": FILED_YEAR + [
        rows(
            ("amend,0,900,120,8,1,2,4711", "accepted 19 noted"), ("amend,120,9,120,9,2,2,4711", "refused 15 18 9"),
            ("amend,130,1,120,9,2,2,4711", "refused 12 130 0"), ("amend,120,11,120,9,2,2,4711", "accepted 20 noted"),
            ("amend,120,11,120,9,4,2,4711", "error 6 4"), ("amend,120,11,120,9,2,8,4711", "error 7 4"),
            ("amend,120,11,120,9,2,2,-1", "error 8 4"), ("amend,120,11,120,9,2,2", "error 0 2"),
        ),
        *[report(example(f"year-{which}.txt").decode(), which, "2025") for which in ("standing", "awards", "returns")],
    ],
    "a second year, with a ceiling": FILED_YEAR + [
        (["book", "4"], example("2026.toml"), "1 18 accepted 19 noted"),
        (["file"], example("second-year.csv"), example("second-year.txt").decode()),
        report("""\
        5001 A    5427 calculated   2075       900.00  121594
        5002 A   -1500 maximum      7500         0.00       0
        5003 A    5296 calculated   2205         0.00       0
        5004 A   24820 nothing         0         0.00       0
rows 4""", "standing", "2026"),
        report("""\
        5001 A    5104 calculated   2290      1791.26  121594
rows 1""", "standing", "2025"),
    ],
    "reports": BASE + [
        filed(
            "prior,0,3,77,550000", *base(600, 200), "pay,110,9,5001,2025,1,pell,3000.00", "pay,110,10,5001,2025,1,unsub,2000.00",
            withdraw("2025-09-23", "4000.00"), withdraw("2025-09-23", "0.00").replace("20,5001", "21,600"),
        ),
        report("""\
         600 A   -1500 maximum      7395         0.00       0
        5001 A   -1500 maximum      7395      2200.00   29750
rows 2""", "standing", "2025"),
        report("""\
   110         5001 1 pell       2200.00
rows 1""", "awards", "2025"),
        report("""\
   110         5001 1  30.0      2800.00         0.00         0.00 2026-01-16
   110          600 1  30.0         0.00         0.00         0.00 2026-01-16
rows 2""", "returns", "2025"),
        report("""\
          77  550000  550000
        5001       0   29750
rows 2""", "lifetime"),
        *[report("rows 0", which, "2026") for which in ("standing", "awards", "returns")],
    ],
    "reports on many students": [
        book(), (["book", "2"], SPECIMEN.replace(b"year = 2025", b"year = 2026"), None),
        filed(
            "school,0,3,110,2,12", "school,0,4,120,2,12",
            *[f"calendar,{school},{number},2025,{number},0,{days},0" for school, number, days in [
                (110, 1, "2025-08-25,2025-12-02"), (110, 2, "2026-01-12,2026-05-01"), (120, 1, "2025-08-25,2025-12-02")]],
            # In another order than the students': one with a bachelor's degree, one with an application in another year
            # alone, one with a prior use alone.
            apply("110,10", 5003, parents_file=0), YEAR_ROWS[6].replace("110,3,5001", "110,11,5002").replace(",0,0,0,0,0,", ",0,0,1,0,0,", 1),
            apply("110,12", 5004, parents_file=0, year=2026, birth_year=2007), "prior,0,13,5009,600000", "prior,0,14,5001,10",
            apply("120,15", 5001, parents_file=0), apply("110,16", 5003, parents_file=0, transaction=2),
            "originate,110,20,5003,2025,24000", "originate,110,21,5002,2025,24000", "originate,120,22,5001,2025,24000",
            "enrol,110,23,5003,2025,1,12", "enrol,110,24,5003,2025,2,12", "enrol,110,25,5002,2025,1,12",
            "enrol,120,26,5001,2025,1,12", "pay,120,30,5001,2025,1,pell,3698.00", "pay,110,31,5003,2025,2,pell,1.00",
            "pay,110,32,5003,2025,1,fseog,100.05", "pay,110,33,5002,2025,1,unsub,12000.00", "pay,110,34,5003,2025,1,unsub,0.05",
            # A payment that is taken back whole.
            "adjust,110,35,5003,2025,2,pell,1.00", "pay,110,36,5003,2025,1,fseog,0.01",
            # 30 of 100 days, 30 of 110 with 1,000 dollars that could have been disbursed, all of 100.
            "withdraw,120,40,5001,2025,1,2025-09-23,2025-09-29,1000.00,0.00,0.00,0.00,0.00,0.00,0.00",
            "withdraw,110,41,5003,2025,2,2026-02-10,2026-02-16,0.00,0.00,0.00,0.00,1000.00,0.00,0.00",
            "withdraw,110,42,5002,2025,1,2025-12-02,2025-12-08,4000.00,0.00,0.00,0.00,0.00,0.00,0.00",
        ),
        report("""\
        5001 A   -1500 maximum      7395      2998.00   40551
        5002 A    5104 nothing         0         0.00       0
        5003 A   -1500 maximum      7395         0.00       0
rows 3""", "standing", "2025"),
        report("""\
   110         5002 1 unsub     12000.00
   110         5003 1 unsub         0.05
   110         5003 1 fseog       100.06
   120         5001 1 pell       2998.00
rows 4""", "awards", "2025"),
        report("""\
   120         5001 1  30.0       700.00         0.00         0.00 2025-11-13
   110         5003 2  27.3         0.00         0.00       273.00 2026-04-02
   110         5002 1 100.0         0.00         0.00         0.00 2026-01-22
rows 3""", "returns", "2025"),
        report("""\
        5001      10   40551
        5003       0       0
        5009  600000  600000
rows 3""", "lifetime"),
        report("        5004 A   -1500 maximum      7395         0.00       0\nrows 1", "standing", "2026"),
    ],
    "reports on no filings": [
        report("rows 0", which, *year) for which, *year in [("standing", "2025"), ("awards", "2025"), ("returns", "2025"), ("lifetime",)]
    ],
    **{
        f"a round {' '.join(map(str, words))}": [book(), filed(*ROUND_ROWS), (["fund", *map(str, words), "70"], b"", lines)]
        for words, lines in ROUNDS.items()
    },
    "rounds of one fund": FILED_YEAR + [
        (["fund", "110", "2025", "1", amount, "level", number], b"", lines) for amount, number, lines in [
            ("600", "50", "1 18 accepted 19 paid 600.00 78221\nleft 0"), ("600", "50", "left 0"), ("700", "51", "left 100")]
    ],
    "rows as they are written": [
        (["check", "rows"], "\n".join(row for row, _ in BAD_ROWS).encode(),
         "".join(f"{number} {line}\n" for number, (_, line) in enumerate(BAD_ROWS, 1)) + "rows 6 errors 5"),
        (["check", "rows"], b"", "rows 0 errors 0"),
    ],
    "books as they are written": [(["check", "book"], text, line) for text, line in BAD_BOOKS + [(SPECIMEN, "1 fine")]],
}


def without_front(text):
    """The lines of a text without the number of the row, and of filings that stood."""
    lines = []
    for line in text.splitlines():
        words = line.split(" ")
        lines.append(" ".join(words[2:] if words[1:2] and words[1].isdigit() else words[1:]))
    return lines
