#!/usr/bin/env python3
"""Prints docs/FILINGS.md: each kind with its purpose, example rows and their bodies, and its columns, and then the fields of a year
book. Names, forms and ranges are those of the table that the office itself reads rows by, in its sources; what the page says in words
is docs/fields.tsv.

A row of docs/fields.tsv has a kind, what it tells of the kind (`purpose`, `filer`, an `example` row, or a `field`), the field's name,
and the words. The fields of the kind `key` are those of every row, and what is told of `any` holds for each kind that doesn't tell
of a field of that name itself. An office admits the example rows in their order, behind the book of examples/.

usage: scripts/make_filings.py > docs/FILINGS.md
"""
import json
import os
import re
import sys
import textwrap
from datetime import date, timedelta

TOP = os.path.dirname(os.path.dirname(os.path.abspath(__file__)))
# Where the kinds stand with their codes and names, their fields, the fields of a book, and the words of the programs.
KINDS = "crates/format_kinds/src/kind.rt"
PARTS = "crates/format_kinds/src/parts.rt"
BOOK = "crates/format_kinds/src/book.rt"
PROGRAMS = "crates/format_kinds/src/words.rt"
# The form of a field that is one of these words.
WORD_FORM = "Word"
WORDS = "docs/fields.tsv"

FRONT = """\
# Filings

This page is printed by `scripts/make_filings.py` from the table that the office itself reads rows by.
What it says in words stands in [fields.tsv](fields.tsv).

A desk files rows of comma-separated values. Column 1 is the name of the kind. Columns 2 and 3 are the key
under which the filing stands, and the columns behind them are those of its kind. Whole numbers have no
leading zeros, no plus and no point. Days are written 2025-08-25, and dollars and cents with two decimals, as
1145.00. Spaces count: none is passed over. A year book is a text of its own, and stands at the end of this
page.

Below its purpose each kind has example rows, and below them the bodies of the same filings over HTTP
([HTTP.md](HTTP.md)).
"""
BOOK_FRONT = """\
It is a TOML text, as examples/2025.toml, or in form 2 examples/2026.toml: `pell.maximum` is the key `maximum`
of the section `[pell]`, and a table is an array of tables, as `[[age]]`. Every number is a whole number.
Rates are in ten-thousandths: 50 is 0.50 percent, 10000 is the whole. Errors name a field by its number here.
A row of a table that doesn't begin or go on as said below is error 5, and any other number out of its range
is error 4.
"""
COLUMNS = "| column | name | what it is | form and range |\n|---|---|---|---|"
EXAMPLES = "| rows, and the bodies of the same filings |\n|---|"
FIELDS = "| field | key | what it is | range |\n|---|---|---|---|"
TOKEN = re.compile(r'''"[^"]*"|\d[\d_]*|[$']?\w+|::|=>|\S''')
CLOSING = {"(": ")", "[": "]", "{": "}"}


def text_of(path):
    with open(os.path.join(TOP, path)) as file:
        return file.read()


class Source:
    """The constants and the macros of a source file. A value is a number, a text, a list, a structure as a dictionary, or a tuple of
    a variant's name and what it holds; a name that the file doesn't give a value stands for itself."""

    def __init__(self, path):
        self.text = text_of(path)
        tokens = TOKEN.findall(re.sub(r"//.*", "", self.text))
        self.macros, self.constants = {}, {}
        for at, token in enumerate(tokens):
            if token == "macro_rules":
                rule = inside(tokens, at + 3)
                pattern = inside(rule, 0)
                self.macros[tokens[at + 2]] = pattern, inside(rule, len(pattern) + 3)
            elif token in ("const", "static"):
                begins = tokens.index("=", at) + 1
                self.constants[tokens[at + 1]] = until(tokens, begins, ";")

    def value_of(self, name):
        """The value of a constant."""
        return self.value(self.constants[name])

    def answer_of(self, function):
        """The value of the constant to which a function without arguments answers a reference."""
        body = re.search(rf"fn {function}\(\).*?\{{\s*&(\w+)\s*\}}", self.text, re.DOTALL)
        return self.value_of(body[1])

    def value(self, tokens):
        """The value of an expression."""
        first, rest = tokens[0], tokens[1:]
        if first == "&":
            return self.value(rest)
        if first == "-":
            return -self.value(rest)
        if first == "[":
            return [self.value(item) for item in items(inside(tokens, 0))]
        if first[0] == '"':
            return first[1:-1]
        if first[0].isdigit():
            return int(first.replace("_", ""))
        if rest[:1] == ["::"]:
            return self.value(rest[1:])
        if rest[:1] == ["!"]:
            return self.value(self.expanded(first, inside(tokens, 2)))
        if rest[:1] == ["("]:
            return first, *(self.value(item) for item in items(inside(tokens, 1)))
        if rest[:1] == ["{"]:
            return {item[0]: self.value(item[2:]) for item in items(inside(tokens, 1))}
        return self.value_of(first) if first in self.constants else first

    def expanded(self, name, given):
        """What a macro of one rule writes."""
        pattern, body = self.macros[name]
        bound, at, place = {}, 0, 0
        while place < len(pattern):
            if not pattern[place].startswith("$"):
                assert given[at] == pattern[place], (name, given)
                at, place = at + 1, place + 1
                continue
            variable, kind, place = pattern[place], pattern[place + 2], place + 3
            if kind == "expr":
                found = until(given, at, pattern[place] if place < len(pattern) else None)
            else:
                found = given[at : at + 1 + (given[at] == "-")]
            bound[variable], at = found, at + len(found)
        return [token for part in body for token in bound.get(part, [part])]


def inside(tokens, at):
    """What stands between the bracket at a place and the one that closes it."""
    return until(tokens, at + 1, CLOSING[tokens[at]])


def until(tokens, at, last):
    """The tokens from a place up to this one outside of all brackets, or to their end."""
    depth, found = 0, []
    for token in tokens[at:]:
        if depth == 0 and token == last:
            break
        depth += (token in CLOSING) - (token in CLOSING.values())
        found.append(token)
    return found


def items(tokens):
    """The parts between the commas outside of all brackets."""
    found, at = [], 0
    while at < len(tokens):
        found.append(until(tokens, at, ","))
        at += len(found[-1]) + 1
    return found


class Words:
    """What the page says in words, and what of it wasn't asked for yet."""

    def __init__(self, path):
        self.rows = [line.split("\t") for line in text_of(path).splitlines()[1:]]
        self.unused = {tuple(row[:3]) for row in self.rows}

    def all_of(self, kind, what, name=""):
        """All that is told so."""
        self.unused.discard((kind, what, name))
        return [row[3] for row in self.rows if row[:3] == [kind, what, name]]

    def of_field(self, kind, name):
        """What a field of a kind is."""
        told = self.all_of(kind, "field", name) or self.all_of("any", "field", name)
        if len(told) != 1:
            sys.exit(f"make_filings.py: {WORDS} tells of the field {name} of {kind} {len(told)} times")
        return told[0]

    def heading(self, kind):
        """What a kind is for, and who files it."""
        return f"{' '.join(self.all_of(kind, 'purpose'))} Filed by {' '.join(self.all_of(kind, 'filer'))}."


def form_of(field):
    """How a column is written."""
    names = {"Cents": "dollars and cents", "Day": "a day", "Flag": "1 for yes, 0 for no", "Count": "a count"}
    if field["form"] == WORD_FORM:
        return "one of " + " ".join(PROGRAM_WORDS)
    return names.get(field["form"], "a whole number")


def limit_of(field):
    """What a number may be, where its form doesn't say so."""
    kind, *ends = field["limit"]
    if field["form"] in ("Flag", WORD_FORM):
        return ""
    if field["form"] == "Day":
        return ", " + " to ".join(str(date(1970, 1, 1) + timedelta(end)) for end in ends)
    if field["form"] == "Cents":
        return ", " + " to ".join(f"{end // 100}.{end % 100:02}" for end in ends)
    if kind == "Between":
        low, high = ends
        return f", {low}" if low == high else f", {low} to {high}"
    said = {
        "UpToLast": "{} to the number before it",
        "AboveRow": "above the row before it, to {}",
        "Continues": "the value that the row before it has there, to {}",
        "Begins": "what `schedule.first_rate` gives there, to {}",
    }
    return ", " + said[kind].format(*ends)


def wrapped(text):
    """A paragraph in lines that are not too long."""
    return "\n".join(textwrap.wrap(text, 108, break_long_words=False, break_on_hyphens=False))


def print_row(number, name, words, rest):
    print(f"| {number} | {name} | {words} | {rest} |")


def print_key(parts):
    """The columns of every row."""
    print(COLUMNS)
    print_row(1, "kind", "the name of the kind", "one of those below")
    for number, part in enumerate(parts, 2):
        field = part["field"]
        print_row(number, field["name"], WORDS_OF.of_field("key", field["name"]), form_of(field) + limit_of(field))


def member_of(field, text):
    """The value of a column in a body: cents are a whole number there."""
    if field["form"] in ("Day", WORD_FORM):
        return text
    return int(text.replace(".", "")) if field["form"] == "Cents" else int(text)


def body_of(kind, parts, row):
    """The body of an example row. The school isn't in it."""
    _, _, number, *columns = row.split(",")
    body = {"kind": kind, "number": int(number)}
    for part in parts:
        field, member = part["field"], member_of(part["field"], columns.pop(0))
        if field["form"] == "Count":
            member = [[member_of(column, columns.pop(0)) for column in part["later"]] for _ in range(member)]
        body[field["name"]] = member
    return json.dumps(body, separators=(",", ":"))


def print_columns(kind, parts):
    """The columns behind the key, and those of the rows that the last of them counts."""
    for number, part in enumerate(parts, 4):
        field, later = part["field"], part["later"]
        print_row(number, field["name"], WORDS_OF.of_field(kind, field["name"]), form_of(field) + limit_of(field))
        for column, counted in enumerate(later, number + 1):
            numbers = f"{column}, {column + len(later)}, .."
            words = f"for each that column {number} counts, its {counted['name']} day"
            print_row(numbers, counted["name"], words, form_of(counted) + limit_of(counted))


def print_kind(kind, parts):
    """A kind with its examples and its columns."""
    examples = WORDS_OF.all_of(kind, "example")
    print(f"\n## {kind}\n\n{wrapped(WORDS_OF.heading(kind))}\n\n{EXAMPLES}")
    for example in [*examples, *(body_of(kind, parts, example) for example in examples)]:
        print(f"| `{example}` |")
    print()
    print(COLUMNS)
    print_columns(kind, parts)


def print_book(parts):
    """The fields of a book, of which a list stands as so many parts of one name."""
    print(f"\n## A year book\n\n{WORDS_OF.heading('book')}\n\n{BOOK_FRONT}\n{FIELDS}")
    number, length = 1, 1
    for part, behind in zip(parts, [*parts[1:], None]):
        field = part["field"]
        if behind and behind["field"]["name"] == field["name"]:
            length += 1
            continue
        form = "rows" if field["form"] == "Count" else "a number" if length == 1 else f"a list of {length} numbers, each"
        print_row(number, field["name"], WORDS_OF.of_field("book", field["name"]), form + limit_of(field))
        for column, (first, later) in enumerate(zip(part["first"], part["later"]), number + 1):
            where = "in each row" if first == later else f"in the first row{limit_of(first)}; in each later one"
            print_row(column, later["name"], WORDS_OF.of_field("book", later["name"]), where + limit_of(later))
        number, length = number + 1 + len(part["later"]), 1


def main():
    kinds = re.findall(r'row!\(\w+, (\d+), "(\w+)": (\w+)\(\)\)', text_of(KINDS))
    parts, book = Source(PARTS), Source(BOOK)
    print(FRONT)
    print_key(parts.answer_of("key_parts"))
    for code, kind, function in sorted(kinds, key=lambda row: int(row[0])):
        if kind != "book":
            print_kind(kind, parts.answer_of(function))
    print_book(book.answer_of("book_parts"))
    if WORDS_OF.unused:
        sys.exit(f"make_filings.py: {WORDS} tells of what is in no table: {sorted(WORDS_OF.unused)}")


if __name__ == "__main__":
    WORDS_OF = Words(WORDS)
    PROGRAM_WORDS = Source(PROGRAMS).value_of("PROGRAM_WORDS")
    main()
