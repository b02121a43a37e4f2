"""Copies reply lines, and puts a sentence in words behind each refusal, error and fault."""
import datetime
import os
import re
import sys

from . import TOP
from .amounts import money
from .say import refuse, visible

TABLES = ["business", "age", "bracket"]
NUMBER = "[0-9]{1,18}"
TEXT = {"encoding": "utf-8", "errors": "surrogateescape", "newline": "\n"}


def lines_of(path):
    """The lines of a text file."""
    with open(path, **TEXT) as file:
        return [line.removesuffix("\n") for line in file]


def answers():
    """What each answer means, by the first column of docs/answers.tsv: meaning, kept and its unit, bound and its unit, and what to do."""
    found = {}
    for line in lines_of(os.path.join(TOP, "docs", "answers.tsv")):
        key, *columns = line.split("\t")
        found[re.sub(r"^status [0-9]+ ", "", key)] = columns
    return found


class Columns:
    """The name and the range of each column of a kind, by the page of filings; the fields of a year book are those of the kind `book`."""

    def __init__(self):
        self.words, self.counted = {}, {}
        kind = ""
        for line in lines_of(os.path.join(TOP, "docs", "FILINGS.md")):
            if line.startswith("## "):
                kind = "book" if line == "## A year book" else line[3:]
            if re.match(r"\| [0-9]", line):
                _, number, name, _, reach, *_ = re.split(r" *[|] *", line)
                self.add(kind, number, f"{name} ({reach})")

    def add(self, kind, number, words):
        """A column, or one of those that are counted: `10, 12, ..`."""
        if "," not in number:
            self.words[kind, int(number)] = words
            return
        first, second, *_ = map(int, number.replace(", ..", "").split(", "))
        start, _, found = self.counted.setdefault(kind, (first, second - first, {}))
        self.counted[kind] = start, second - first, found | {first: words}

    def said(self, kind, number):
        """What a column is called in its kind, with its form and range."""
        if (kind, number) in self.words:
            return self.words[kind, number]
        if number <= 3 and ("", number) in self.words:
            return self.words["", number]
        start, step, found = self.counted.get(kind, (number + 1, 1, {}))
        return found.get(start + (number - start) % step, "") if number >= start else ""


def rows_of(path):
    """The rows of a file as they stand there, without empty lines. A field in quotes may hold line ends."""
    rows, lines, quotes = [], [], 0
    for line in lines_of(path):
        line = line.removesuffix("\r")
        if not rows and not lines:
            line = line.removeprefix("\ufeff")
        if not line and not lines:
            continue
        lines.append(line)
        quotes += line.count('"')
        if quotes % 2 == 0:
            rows.append("\n".join(lines))
            lines = []
    return rows


def columns_of(row):
    """The columns of a row."""
    parts, quoted, at = [""], False, 0
    while at < len(row):
        sign = row[at]
        if sign == '"' and quoted and row[at + 1 : at + 2] == '"':
            parts[-1] += sign
            at += 1
        elif sign == '"':
            quoted = not quoted
        elif sign == "," and not quoted:
            parts.append("")
        else:
            parts[-1] += sign
        at += 1
    return parts


def amount(number, unit):
    """A number of a refusal in words, by its unit."""
    share = f"{number / 1000:.3f} percent of an award"
    if unit == "day":
        try:
            return (datetime.date(1900, 1, 1) + datetime.timedelta(number)).isoformat()
        except OverflowError:
            return str(number)
    return {
        "cents": f"{money(number)} dollars", "dollars": f"{number} dollars", "units": share, "position": f"filing {number}",
        "either": f"{money(number)} dollars, or {share}",
    }.get(unit, str(number))


def plain(words):
    """The words of an amount whose unit is told already."""
    return re.sub(r", in units of which .*", "", re.sub(r", in cents|, in dollars", "", words))


class Explainer:
    """Sentences on reply lines, with the rows that were filed, where they are known."""

    def __init__(self, rows=()):
        self.answers, self.columns, self.rows = answers(), Columns(), rows

    def row(self, number):
        """The row of this number, or nothing."""
        return self.rows[int(number) - 1] if 1 <= int(number) <= len(self.rows) else ""

    def sentences(self, line):
        """What is said of a line."""
        desk = re.match(r"desk [0-9]+ ", line)
        if desk:
            line = re.sub(r"^[0-9]+ (?=fault )", "", line[desk.end():])
        for form, explain in FORMS:
            found = re.search(form, line)
            if found:
                return list(explain(self, *found.groups("")))
        return []

    def shown(self, number):
        """The row that is told of."""
        if self.row(number):
            yield f"row {number}: {self.row(number)}"

    def to_do(self, key):
        """What an answer means, and what to do."""
        meaning, *_, to_do = self.answers.get(key, ["", ""])
        yield meaning
        yield f"To do: {to_do}"

    def refusal(self, number, rule, stands, may):
        """A row that a rule refuses."""
        yield from self.shown(number)
        if f"refused {rule}" in self.answers:
            meaning, kept, kept_unit, bound, bound_unit, to_do = self.answers[f"refused {rule}"]
            yield meaning
            yield f"Kept, {plain(kept)}: {amount(int(stands), kept_unit)}."
            if bound != "always 0":
                yield f"Bound, {plain(bound)}: {amount(int(may), bound_unit)}."
            yield f"To do: {to_do}"

    def error(self, number, field, cause):
        """A row that is no filing."""
        yield from self.shown(number)
        cells, at = columns_of(self.row(number)) if self.row(number) else [], int(field)
        cell = cells[at - 1] if 0 < at <= len(cells) else None
        words = self.columns.said(cells[0], at) if cells else ""
        if words:
            yield f"Column {field}, {words}: `{cell or ''}`."
        elif at > 0:
            yield f"Column {field}" + ("." if cell is None else f": `{cell}`.")
        elif cells:
            yield f"It has {len(cells)} columns."
        yield from self.to_do(f"error {cause}")

    def book(self, error, detail):
        """A text that is no book."""
        number, _, row = detail.partition(" ")
        if error in "234":
            yield f"Field {number}, {self.columns.said('book', int(number) if re.fullmatch(NUMBER, number) else 0)}."
        if error == "5":
            yield f"Table {TABLES[int(number) - 1] if number in ('1', '2', '3') else ''}, row {row}."
        if error == "6":
            yield f"The key {detail}."
        yield from self.to_do(f"book {error}")

    def no(self, line, cause):
        """An export that isn't right."""
        meaning, to_do = self.to_do(f"no {cause}")
        yield f"Line {line}: {meaning}"
        yield to_do

    def fault(self, line):
        """A run that ended early."""
        line = re.sub(r"^fault disk [0-9]+$", "fault disk POSITION", line)
        line = re.sub(r"^fault damaged [0-9]+$", "fault damaged PLACE", line)
        if line in self.answers:
            yield from self.to_do(line)


FORMS = [
    (rf"^({NUMBER}) {NUMBER} refused ({NUMBER}) ({NUMBER}) ({NUMBER})$", Explainer.refusal),
    (rf"^({NUMBER}) error ({NUMBER}) ({NUMBER})$", Explainer.error), (r"^1 book ([1-6])(?: (.*)|$)", Explainer.book),
    (rf"^no ({NUMBER}) ([1-9]|10)$", Explainer.no), (r"^(fault .*)$", Explainer.fault),
]


def explain(lines, rows=()):
    """Prints each line, and below it what is said of it."""
    explainer = Explainer(rows)
    for line in lines:
        line = line.removesuffix("\n")
        print(visible(line, "\t"))
        for sentence in explainer.sentences(line):
            print(f"    {visible(sentence, chr(9) + chr(10))}")


def run(words):
    """Explains the lines on standard input, with the rows of a file."""
    if len(words) > 1:
        refuse("usage: office explain [ROWS.csv] < LINES", 2)
    if words and not os.access(words[0], os.R_OK):
        refuse(f"{words[0]} can't be read", 2)
    explain(sys.stdin, rows_of(words[0]) if words else ())
    return 0
