"""Reads a spreadsheet's CSV with headings: the rows by heading, and cells as a spreadsheet writes them."""
import csv
import datetime
import io
import re

MOST_DIGITS = 30     # more than any number of a filing has
MARKS = ((b"\xef\xbb\xbf", "utf-8"), (b"\xff\xfe", "utf-16-le"), (b"\xfe\xff", "utf-16-be"))


class Bad(Exception):
    """A cell, or a sheet, that can't be read: what is wrong with it."""


def text_of(data):
    """The text of a file as Excel, LibreOffice or Google write it."""
    try:
        for mark, name in MARKS:
            if data.startswith(mark):
                return data[len(mark):].decode(name)
        return data.decode("utf-8")
    except UnicodeDecodeError:
        return data.decode("cp1252", "replace")


def heading(cell):
    """A heading in small letters and digits, its words joined."""
    return re.sub(r"[^a-z0-9]+", "_", cell.strip().lower()).strip("_")


def parted(text):
    """The text, and what parts its cells: a comma, a semicolon or a tab, whichever stands most in the first line outside quotes."""
    told = re.match(r"sep=(.)\r?\n", text)
    if told:
        return text[told.end():], told[1]
    first = re.sub(r'"[^"]*"', "", text.lstrip("\r\n").split("\n", 1)[0])
    return text, max(",;\t", key=first.count)


def read(data):
    """The headings and the rows behind them, each with its line. Rows and columns of nothing are left out."""
    text, mark = parted(text_of(data))
    reader = csv.reader(io.StringIO(text, newline=""), delimiter=mark, strict=True)
    names, rows = None, []
    try:
        for cells in reader:
            cells = [cell.strip() for cell in cells]
            if not any(cells):
                continue
            if names is None:
                names = cells
                while not names[-1]:
                    names.pop()
                continue
            if any(cells[len(names):]) or any(cell and not name for name, cell in zip(names, cells)):
                wrong = f"line {reader.line_num} has a cell without a heading"
                raise Bad(f"{wrong}: the first line must be the headings, so leave out what is above them")
            rows.append((reader.line_num, dict(zip(names, cells + [""] * len(names)))))
    except csv.Error as error:
        raise Bad(f"line {reader.line_num}: {error}") from None
    if names is None:
        raise Bad("it is empty")
    return names, rows


def amount(cell):
    """An amount as $1,145.00, 1145, 1145.5 or 1145.00, with two decimals."""
    found = re.fullmatch(r"\$?(\d{1,3}(?:,\d{3})+|\d+)(?:\.(\d{1,2}))?", cell.replace(" ", ""), re.ASCII)
    if not found or len(cell) > MOST_DIGITS:
        raise Bad("is no amount of dollars and cents")
    return f"{int(found[1].replace(',', ''))}.{(found[2] or '').ljust(2, '0')}"


def day(cell):
    """A day as 2025-08-25 or, the month first, 8/25/2025."""
    found = re.fullmatch(r"(\d{4})-(\d\d)-(\d\d)", cell, re.ASCII)
    american = re.fullmatch(r"(\d{1,2})/(\d{1,2})/(\d{4})", cell, re.ASCII)
    if not found and not american:
        raise Bad("is no day as 2025-08-25 or 8/25/2025")
    year, month, date = found.groups() if found else (american[3], american[1], american[2])
    try:
        return datetime.date(int(year), int(month), int(date)).isoformat()
    except ValueError:
        raise Bad("is no day of the calendar") from None


def whole(cell):
    """A whole number as 1145, 1,145, $1,145 or 1145.0."""
    found = re.fullmatch(r"(-?)\$?(\d{1,3}(?:,\d{3})+|\d+)(?:\.0*)?", cell.replace(" ", ""), re.ASCII)
    if not found or len(cell) > MOST_DIGITS:
        raise Bad("is no whole number")
    number = int(found[2].replace(",", ""))
    return str(-number if found[1] else number)


def award_year(cell):
    """An award year as 2025, 2025-26 or 2025-2026."""
    found = re.fullmatch(r"(\d{4})(?:[-/](\d{2}|\d{4}))?", cell, re.ASCII)
    if not found or found[2] and int(found[2]) % 10 ** len(found[2]) != (int(found[1]) + 1) % 10 ** len(found[2]):
        raise Bad("is no award year as 2025 or 2025-26")
    return found[1]


class Asked(Bad):
    """A year that may be one of two."""


def said_year(cell, is_ours, means):
    """An award year by the year in which it begins. A plain year is that year where the heading `is_ours`, or by what it `means`: `begins` or
    `ends`. Else one is asked, as for a year without its century."""
    short = re.fullmatch(r"(\d{2})[-/](\d{2})", cell, re.ASCII)
    if short and means:
        return award_year(f"20{cell}")
    if short and (int(short[1]) + 1) % 100 == int(short[2]):
        raise Asked(f"has no century: write 20{short[1]}-{short[2]}, or say --year-begins or --year-ends: by either it is 20{short[1]}-{short[2]}")
    year = award_year(cell)
    if year != cell or means == "begins" or is_ours and not means:
        return year
    before, behind = (f"{first}-{(first + 1) % 100:02}" for first in (int(year) - 1, int(year)))
    if not means:
        ways = f"--year-ends, by which it is {before} as COD calls it, or --year-begins, by which it is {behind}"
        raise Asked(f"may be {before} or {behind}: write it so, or say {ways}")
    return str(int(year) - 1)


FLAGS = {word: number for number, words in (("1", "1 yes y true"), ("0", "0 no n false")) for word in words.split()}


def flag(cell):
    """A yes or a no."""
    if cell.lower() not in FLAGS:
        raise Bad("is neither yes nor no")
    return FLAGS[cell.lower()]


PROGRAMS = {
    "unsub": "unsub unsubsidized direct_unsubsidized direct_unsubsidized_loan dlunsub dlu",
    "sub": "sub subsidized direct_subsidized direct_subsidized_loan dlsub dls",
    "plus": "plus direct_plus direct_plus_loan parent_plus grad_plus graduate_plus dlplus",
    "pell": "pell pell_grant federal_pell_grant",
    "fseog": "fseog seog federal_supplemental_educational_opportunity_grant",
    "teach": "teach teach_grant",
}
WORDS = {word: name for name, words in PROGRAMS.items() for word in words.split()}


def program(cell):
    """A program of aid by its word or a usual name."""
    if heading(cell) not in WORDS:
        raise Bad("is no program: " + ", ".join(PROGRAMS))
    return WORDS[heading(cell)]
