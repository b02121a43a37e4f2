"""The text of a year book: its fields with ranges and units, and the first thing that is wrong with a text. It is written
apart from the proved code, so that the two can be compared. Python reads TOML 1.0; the office also takes what 1.1 adds, as a
line end in an inline table."""
import re
import tomllib

AMOUNT = 0, 99_999_999
RATE = 0, 10_000
PERCENT = 1, 9_999
FLOOR = -999_999, 0

# The sections in order. A key has its range and its unit, and where it is a list the number of its entries; a table has the
# most rows that it may have, and its columns.
SECTIONS = [
    ("", {"form": (1, 2, ""), "year": (2_000, 2_099, "")}),
    ("pell", {"maximum": (1, 99_999, "dollars"), "minimum": (1, "maximum", "dollars")}),
    ("percent", {key: (*PERCENT, "percent") for key in (
        "maximum_single", "maximum_other", "minimum_dependent_single", "minimum_dependent_other", "minimum_single_parent",
        "minimum_parent", "minimum_no_dependents",
    )}),
    ("poverty", {
        "contiguous": (*AMOUNT, "dollars", 8), "contiguous_extra": (*AMOUNT, "dollars"), "alaska": (*AMOUNT, "dollars", 8),
        "alaska_extra": (*AMOUNT, "dollars"), "hawaii": (*AMOUNT, "dollars", 8), "hawaii_extra": (*AMOUNT, "dollars"),
    }),
    ("payroll", {
        "oasdi_cap": (*AMOUNT, "dollars"), "oasdi_rate": (*RATE, "rate"), "medicare_rate": (*RATE, "rate"),
        "medicare_high": (*RATE, "rate"), "threshold_single": (*AMOUNT, "dollars"), "threshold_married": (*AMOUNT, "dollars"),
    }),
    ("protection", {
        "parents": (*AMOUNT, "dollars", 5), "parents_extra": (*AMOUNT, "dollars"), "dependent_student": (*AMOUNT, "dollars"),
        "single_student": (*AMOUNT, "dollars"), "married_student": (*AMOUNT, "dollars"),
        "single_parent": (*AMOUNT, "dollars", 5), "single_parent_extra": (*AMOUNT, "dollars"),
        "married_parent": (*AMOUNT, "dollars", 5), "married_parent_extra": (*AMOUNT, "dollars"),
    }),
    ("employment", {"cap": (*AMOUNT, "dollars"), "rate": (*RATE, "rate")}),
    ("assets", {key: (*RATE, "rate") for key in ("parents_rate", "dependent_rate", "no_dependents_rate", "with_dependents_rate")}),
    ("business", 16, {"over": (*AMOUNT, "dollars"), "base": (*AMOUNT, "dollars"), "rate": (*RATE, "rate")}),
    ("age", 64, {"from": (0, 120, "years"), "single": (*AMOUNT, "dollars"), "married": (*AMOUNT, "dollars")}),
    ("schedule", {
        "low_at": (*FLOOR, "dollars"), "low": (*FLOOR, "dollars"), "first_rate": (*RATE, "rate"), "student_rate": (*RATE, "rate"),
        "lowest_student": (*FLOOR, "dollars"),
    }),
    ("bracket", 16, {"over": (*AMOUNT, "dollars"), "base": (*AMOUNT, "dollars"), "rate": (*RATE, "rate")}),
    ("ceiling", {"percent": (*PERCENT, "percent")}),
]
TABLES = ["business", "age", "bracket"]


class NotABook(Exception):
    """The first error of a text: its number 1 to 6 and its detail, as the program tells them, and a sentence."""

    def __init__(self, error, detail, sentence):
        super().__init__(sentence)
        self.line = f"1 book {error} {detail}".rstrip() if error < 6 else f"1 book 6 {detail}"


def shown(key):
    """A key in one line: each control character of ASCII is a question mark."""
    return re.sub("[\\x00-\\x1f\\x7f]", "?", key)


def share(amount, rate):
    """The part of an amount that a rate in ten-thousandths takes, to the nearest whole number, halves away from zero."""
    parts = amount * rate
    return (2 * abs(parts) + 10_000) // 20_000 * (1 if parts >= 0 else -1)


def is_number(value):
    return isinstance(value, int) and not isinstance(value, bool)


def are_numbers_of_toml(value):
    """No integer of the text is past 64 bits, which TOML doesn't allow here. A text may nest its values deeper than calls may."""
    waiting = [value]
    while waiting:
        each = waiting.pop()
        if isinstance(each, dict):
            waiting += each.values()
        elif isinstance(each, list):
            waiting += each
        elif is_number(each) and not -2**63 <= each < 2**63:
            return False
    return True


def sections_of(book):
    """The sections of a book's form: that of the ceiling stands in form 2 alone."""
    form = book.get("form")
    return SECTIONS if is_number(form) and form == 2 else SECTIONS[:-1]


def read(text):
    """The tables of a book's text, or the first thing that is wrong with it."""
    try:
        book = tomllib.loads(text.decode("utf-8-sig"))
    except RecursionError:
        raise NotABook(1, "", "The text is no TOML: its lists or tables lie too deep in one another.") from None
    except ValueError as error:
        raise NotABook(1, "", f"The text is no TOML: {error}.") from None
    if not are_numbers_of_toml(book):
        raise NotABook(1, "", "The text is no TOML: a number has more than 64 bits.")
    number = 1
    for section, *most, keys in sections_of(book):
        if most:
            judge_table(book, section, number, most[0], keys)
            number += 1 + len(keys)
        else:
            judge_section(book, section, number, keys)
            number += len(keys)
    for at, table in enumerate(TABLES, 1):
        judge_rising(book, at, table)
    judge_keys(book)
    return book


def judge(number, name, places, low, high, most=None):
    """The places of a field: each is there, then each is of its kind, then each is in range."""
    for place in places:
        if place is None:
            raise NotABook(2, number, f"Field {number}, {name}, is missing.")
    for place in places:
        if most is None and not is_number(place):
            raise NotABook(3, number, f"Field {number}, {name}, is no whole number.")
        if most is not None and not (isinstance(place, list) and len(place) == most and all(map(is_number, place))):
            raise NotABook(3, number, f"Field {number}, {name}, is no list of {most} whole numbers.")
    for place in places:
        for figure in place if most else [place]:
            if not low <= figure <= high:
                raise NotABook(4, number, f"Field {number}, {name}, has {figure}, which isn't from {low} to {high}.")


def judge_section(book, section, first, keys):
    """The fields of a section, or of the top."""
    holder = book.get(section) if section else book
    holder = holder if isinstance(holder, dict) else {}
    for number, (key, (low, high, _, *most)) in enumerate(keys.items(), first):
        high = holder[high] if isinstance(high, str) else high
        judge(number, f"{section}.{key}".lstrip("."), [holder.get(key)], low, high, *most)


def judge_table(book, table, first, most, columns):
    """A table, and its columns over all its rows."""
    rows = book.get(table)
    if rows is None:
        raise NotABook(2, first, f"Field {first}, the table {table}, is missing.")
    if not isinstance(rows, list) or not all(isinstance(row, dict) for row in rows):
        raise NotABook(3, first, f"Field {first}, {table}, is no array of tables.")
    if not 1 <= len(rows) <= most:
        raise NotABook(4, first, f"Field {first}, the table {table}, has {len(rows)} rows, and not 1 to {most}.")
    for number, (column, (low, high, _)) in enumerate(columns.items(), first + 1):
        judge(number, f"{table}.{column}", [row.get(column) for row in rows], low, high)


def goes_on(book, table, before, row):
    """Whether a row begins its table as it must, or goes on from the row before it."""
    if table == "age":
        return row["from"] == 0 if before is None else row["from"] > before["from"]
    if before is not None:
        value = before["base"] + share(row["over"] - before["over"], before["rate"])
        return row["over"] > before["over"] and row["base"] == value
    if table == "business":
        return row["over"] == 0 and row["base"] == 0
    return row["base"] == share(row["over"], book["schedule"]["first_rate"])


def judge_rising(book, at, table):
    """The rows of a table, one after the other."""
    before = None
    for number, row in enumerate(book[table], 1):
        if not goes_on(book, table, before, row):
            raise NotABook(5, f"{at} {number}", f"Row {number} of {table} doesn't begin the table, or go on from the row before it, as it must.")
        before = row


def judge_keys(book):
    """The keys that no book has."""
    unknown = []
    for section, *most, keys in sections_of(book):
        holders = [book] if not section else book[section] if most else [book[section]]
        known = set(keys) | {name for name, *_ in sections_of(book)} if not section else set(keys)
        unknown += [f"{section}.{key}" if section else key for holder in holders for key in holder if key not in known or not key]
    if unknown:
        least = shown(min(unknown, key=str.encode))
        raise NotABook(6, least, f"{least} is no key of a book.")
