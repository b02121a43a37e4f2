"""The filings of a generated year in plain Python, written apart from the proved code: four schools with two terms each, and
students whose rows are drawn from a seed."""
from datetime import date, timedelta

import model


def draws(seed):
    """The drawn numbers: the upper halves of a sequence of numbers of 64 bits."""
    number = seed
    while True:
        number = (number * 6364136223846793005 + 1442695040888963407) % 2**64
        yield number // 2**32


def founding(book):
    """The book, the schools, and the terms of each."""
    year = book.year
    yield model.Book(0, 1, book)
    for number, code in enumerate(range(101, 105), 2):
        yield model.School(0, number, code, 2, 12)
    for code in range(101, 105):
        yield model.Calendar(code, 1, year, 1, False, date(year, 8, 25), date(year, 12, 12))
        yield model.Calendar(code, 2, year, 2, False, date(year + 1, 1, 12), date(year + 1, 5, 1))


def of_student(year, number, drawn, quote):
    """What is filed for one student. Of an office the quote alone is asked, before its payment."""
    place, income, credits, leave = drawn
    school, income = 101 + place % 4, income % 120_000
    earned = model.Household(gross_income=income, income_tax=income // 10, earned_first=income)
    yield model.Application(
        school, 10 * number, number, year, 1, year - 19, 0, 4, True, True, True, 48, model.Household(), earned,
    )
    yield model.Enrolment(school, 10 * number + 1, number, year, 1, 3 + credits % 10)
    yield model.Origination(school, 10 * number + 2, number, year, 24_000)
    cents = quote(school, number, year, 1)
    if cents > 0:
        yield model.Payment(school, 10 * number + 3, number, year, 1, model.PELL, cents)
    if leave % 16 == 0:
        last = date(year, 8, 25) + timedelta(leave // 16 % 100)
        yield model.Withdrawal(school, 10 * number + 4, number, year, 1, last, last + timedelta(7), 200_000, (0,) * 6)


def filings(book, seed, students, quote):
    """All filings of a year, each made once the one before it was answered."""
    yield from founding(book)
    drawn = draws(seed)
    for number in range(1, students + 1):
        yield from of_student(book.year, number, [next(drawn) for _ in range(4)], quote)
