"""Names the line of a year book at which its first error stands, with the text there, behind the line that the program answers.

usage: office JOURNAL book NUMBER < BOOK.toml, and so `dry book`, `check book` and `generate`
"""
import os
import re
import tomllib

from . import copies, year_book

HEADER = re.compile(r"\s*\[(\[)?\s*([^\[\]]+?)\s*\]")
KEY = re.compile(r"\s*((?:[A-Za-z0-9_-]+|\"[^\"]*\"|'[^']*')(?:\s*\.\s*(?:[A-Za-z0-9_-]+|\"[^\"]*\"|'[^']*'))*)\s*=")
BOOK = re.compile(r"1 book ([1-6])(?: (.*))?")


def bare(path):
    """A path of keys without quotes and blanks."""
    return ".".join(part.strip().strip("\"'") for part in path.split("."))


def places(text):
    """The line of each key by its path, and of each header; rows of a table are counted from 1 behind its name."""
    found, section, rows = {}, "", {}
    for number, line in enumerate(text.split("\n"), 1):
        header, key = HEADER.match(line), KEY.match(line)
        if header:
            section = bare(header[2])
            if header[1]:
                rows[section] = rows.get(section, 0) + 1
                section = f"{section} {rows[section]}"
            found.setdefault(section, number)
        elif key:
            found.setdefault(f"{section}.{bare(key[1])}".lstrip("."), number)
    return found


def fields():
    """The path of each field by its number, as FILINGS.md counts them; of a column with its table in front."""
    paths = []
    for section, *most, keys in year_book.SECTIONS:
        paths += [section] * len(most) + [f"{section}.{key}".lstrip(".") for key in keys]
    return dict(enumerate(paths, 1))


def first_bad_row(text, table, column, error):
    """The number of the first row of a table in which a column is missing, no number, or out of its range. Nothing where it can't be told, as
    of a text that the office alone reads."""
    try:
        rows = [row for row in tomllib.loads(text)[table] if isinstance(row, dict)]
    except (ValueError, KeyError, TypeError):
        return None
    low, high, _ = next(keys for name, *_, keys in year_book.SECTIONS if name == table)[column]
    for number, row in enumerate(rows, 1):
        value = row.get(column)
        bad = {2: value is None, 3: value is not None and not year_book.is_number(value), 4: year_book.is_number(value) and not low <= value <= high}
        if bad[error]:
            return number
    return None


def of_field(text, error, path):
    """The line of a field that is missing, or isn't what it must be: of a missing one that of the section or row in which it isn't."""
    found = places(text)
    section, _, key = path.rpartition(".")
    if section in year_book.TABLES:
        section = f"{section} {first_bad_row(text, section, key, error)}"
    if path in year_book.TABLES:
        section, key = f"{path} 1", ""
    lines = [found.get(name) for name in (f"{section}.{key}".strip("."), section, section.split(" ")[0])]
    return next((line for line in lines if line), None)


def of_no_toml(data):
    """The line at which a text is no TOML, and why, if it can be told."""
    try:
        tomllib.loads(data.decode("utf-8-sig"))
    except UnicodeDecodeError as error:
        return data.count(b"\n", 0, error.start) + 1, "it isn't UTF-8"
    except tomllib.TOMLDecodeError as error:
        why, _, place = str(error).rpartition(" (at ")
        line = re.match(r"line (\d+)", place)
        return (int(line[1]) if line else data.rstrip(b"\n").count(b"\n") + 1), why[:1].lower() + why[1:]
    except (RecursionError, ValueError):
        pass
    big = next((each for each in re.finditer(rb"\d{19,}", data) if len(each[0]) > 19 or int(each[0]) >= 2**63), None)
    return (data.count(b"\n", 0, big.start()) + 1, "a number has more than 64 bits") if big else (None, "the text is no TOML")


def line_of(data, error, detail):
    """The number of the line, from 1, at which a book has this error, and what is said of it; no number where it can't be told."""
    if error == 1:
        return of_no_toml(data)
    text = data.decode("utf-8-sig")
    if error == 5:
        table, row = map(int, detail.split())
        name = year_book.TABLES[table - 1]
        return places(text).get(f"{name} {row}"), f"row {row} of {name} doesn't begin the table, or go on from the row before it, as it must"
    if error == 6:
        path = re.sub(r"^(business|age|bracket)\.", r"\1 1.", detail)
        lines = [line for key, line in places(text).items() if re.sub(r" \d+(?=\.|$)", "", key) == detail or key == path]
        return min(lines, default=None), f"{detail} is no key of a book"
    path = fields()[int(detail)]
    says = {2: "isn't there", 3: "isn't of its kind", 4: "is out of its range"}[error]
    return of_field(text, error, path), f"field {detail}, {path}, {says}"


def sentence(data, line):
    """What is said behind the program's line, if it tells an error of a book."""
    found = BOOK.fullmatch(line)
    if not found:
        return None
    number, says = line_of(data, int(found[1]), found[2] or "")
    if number is None:
        return says
    there = data.decode("utf-8-sig", "replace").split("\n")[number - 1].strip()
    return f"line {number}, `{there[:100]}`: {says}"


def where(line):
    """Where the first error of the book that was kept stands, which this line tells, or nothing."""
    path = copies.scratch("book")
    return sentence(copies.text_of(path), line.decode("utf-8", "replace")) if path and os.path.exists(path) else None
