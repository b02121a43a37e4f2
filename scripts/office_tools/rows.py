"""Makes rows that the office files of a spreadsheet's CSV with headings. All of them, or none.

usage: office rows [KIND [SCHOOL [NUMBER]]] [--year-begins | --year-ends] < SHEET.csv      KIND and SCHOOL where the sheet has no such
columns, NUMBER for its first row where it has no numbers; a plain year of a heading as Award Year is the one in which it begins or ends
       office rows --names [KIND]      the headings that a sheet may have
       office rows KIND --template     a sheet to fill in
       office JOURNAL rows ..          the same, where students may stand by their ids (ids.py)
"""
import re
import sys
from collections import Counter

from . import columns, ids, sheet, template
from .columns import BREAKS, KEY
from .say import refuse, say
from .sheet import Bad, heading

READS = {"a day": sheet.day, "dollars and cents": sheet.amount, "1 for yes": sheet.flag, "one of": sheet.program}
MOST = 20           # sentences that are told
YEARS = {"--year-begins": "begins", "--year-ends": "ends"}


def reader(column):
    """How the cells of a column are read, by its form."""
    return next((read for word, read in READS.items() if column.form.startswith(word)), sheet.whole)


class Sheet:
    """Rows in the making, and what is wrong with the sheet."""

    def __init__(self, headings, kind, school, number, years, known):
        self.kinds = columns.read()
        self.nothing = {(kind, each.name) for kind, of_kind in self.kinds.items() for each in of_kind if columns.is_nothing_where_empty(kind, each)}
        self.headings, self.kind, self.school, self.number, self.years, self.known = headings, kind, school, number, years, known
        self.made, self.wrong, self.keys, self.of, self.asked, self.missing = [], [], {}, {}, False, set()

    def look_at_headings(self):
        """Refuses a sheet of which no row can be made."""
        if self.kind is not None and self.kind not in self.kinds:
            refuse(f"there is no kind {self.kind}: " + ", ".join(self.kinds), 2)
        # the key has the same headings whatever the kind
        names = [columns.fits("", [], told) for told in self.headings]
        for name, what, words in (
            ("kind", self.kind, "rows KIND"), ("school", self.school, "rows KIND SCHOOL"), ("number", self.number, "rows KIND SCHOOL NUMBER"),
        ):
            if name not in names and what is None:
                refuse(f"the sheet has no column {name}: add one, or say it, as in office {words} < SHEET.csv")
        self.kind_heading = self.headings[names.index("kind")] if "kind" in names else None
        if self.kind is not None:
            self.fitted(self.kind)

    def fitted(self, kind):
        """The column of a kind that each heading is, or none."""
        if kind not in self.of:
            fits = {told: columns.fits(kind, self.kinds[kind], told) for told in self.headings}
            names = [fits[told] or heading(told) for told in self.headings]
            twice = [name for name, count in Counter(names).items() if count > 1]
            if twice:
                refuse(f"two columns are {', '.join(sorted(twice))}: put a # in front of one heading to leave it out")
            self.of[kind] = fits
        return self.of[kind]

    def bad(self, sentence):
        """Takes a sentence on what is wrong."""
        self.wrong.append(sentence)

    def take(self, at, line, told):
        """Makes a row of the cells of a line, by their headings."""
        word = told.get(self.kind_heading, "")
        kind = word.lower() if word else self.kind
        if kind not in self.kinds:
            self.bad(f"line {line}: `{kind or ''}` is no kind of filing")
            return
        of = self.fitted(kind)
        self.look_at_columns(at, line, kind, told, of)
        row = {of[name]: (name, cell) for name, cell in told.items() if of[name]}
        breaks = [name for name in BREAKS if kind == "calendar" and row.get(name, ("", ""))[1]]
        reads = dict.fromkeys(KEY[1:], sheet.whole) | {column.name: reader(column) for column in self.kinds[kind]} | dict.fromkeys(breaks, sheet.day)
        cells = [kind, *(self.cell(at, line, kind, row, name, read, len(breaks)) for name, read in reads.items())]
        self.made.append(",".join(cells))
        self.look_at_key(line, tuple(cells[1:3]))

    def look_at_columns(self, at, line, kind, told, of):
        """Names what fits no column: in a sheet of one kind a heading, once, and in one of several kinds a cell."""
        is_one = self.kind is not None and self.kind_heading is None
        for name in sorted(name for name in told if of[name] is None):
            if at == 0 if is_one else told[name]:
                way = f"put a # in front of its heading to leave it out; office rows --names {kind} has all"
                self.bad(f"line {line}: {kind} has no column {name}: {way}")

    def read(self, name, read, told, cell):
        """The text of a cell that isn't empty."""
        if name == "year":
            return sheet.said_year(cell, heading(told) == "year", self.years)
        if name == "student" and self.known.by_number and not cell.isdecimal():
            cell = self.known.number_of(cell)
            if not cell.isdecimal():
                raise Bad("is no whole number, and no id that is known")
        return read(cell)

    def cell(self, at, line, kind, row, name, read, breaks):
        """The text of one column."""
        told, cell = row.get(name, ("", ""))
        if cell:
            try:
                text = self.read(name, read, told, cell)
            except Bad as bad:
                # what years mean is asked once
                if not (self.asked and isinstance(bad, sheet.Asked)):
                    self.bad(f"line {line}, {told}: `{cell}` {bad}")
                self.asked = self.asked or isinstance(bad, sheet.Asked)
                return ""
            if name == "breaks" and breaks != 2 * int(text):
                self.bad(f"line {line}: {text} breaks, and {breaks} days of breaks: each has a break_1_first and a break_1_last")
            return text
        if name == "breaks":
            if breaks % 2:
                self.bad(f"line {line}: a break has a first and a last day")
            return str(breaks // 2)
        if name == "school" and self.school is not None:
            return self.school
        if name == "number" and self.number is not None:
            return str(int(self.number) + at)
        if name in row and (kind, name) in self.nothing:
            return "0"
        if name in row:
            self.bad(f"line {line}: {name} is empty")
        elif (kind, name) not in self.missing:
            # of a column that isn't there one line is told
            self.missing.add((kind, name))
            self.bad(f"line {line}: {kind} has a column {columns.said(kind, name)}, and the sheet hasn't: add one")
        return ""

    def look_at_key(self, line, key):
        """A desk uses a number once."""
        if all(key) and key in self.keys:
            self.bad(f"line {line}: school {key[0]} has number {key[1]} in line {self.keys[key]} already")
        self.keys.setdefault(key, line)


def main(kind, school, number, years, known):
    """Makes rows of the sheet on standard input, in which a student may stand by an id that is known."""
    try:
        names, rows = sheet.read(sys.stdin.buffer.read())
    except Bad as bad:
        refuse(f"the sheet can't be read: {bad}")
    making = Sheet([name for name in names if name and not name.startswith("#")], kind, school, number, years, known)
    making.look_at_headings()
    for at, (line, cells) in enumerate(row for row in rows if not template.is_note(row[1])):
        making.take(at, line, {name: cells[name] for name in making.headings})
    if making.wrong:
        for sentence in making.wrong[:MOST]:
            say(sentence)
        more = len(making.wrong) - MOST
        refuse("no row was made" + (f"; {more} more are wrong" if more > 0 else ""))
    for row in making.made:
        print(row)
    sys.stdout.flush()
    count = "1 row was" if len(making.made) == 1 else f"{len(making.made)} rows were"
    say(f"{count} made: keep and file this text, again if need be, and don't make it anew")


def show_names(words):
    """Prints the headings that a sheet may have, of one kind or of all."""
    kinds = columns.read()
    if len(words) > 1 or words and words[0] not in kinds:
        refuse("rows --names takes a kind: " + ", ".join(kinds), 2)
    for line in columns.listed({kind: kinds[kind] for kind in words or kinds}):
        print(line)


def run(words, known=None):
    """Makes rows of the sheet on standard input, or prints the headings that it may have, or a sheet to fill in."""
    if "--names" in words:
        show_names([word for word in words if word != "--names"])
        return 0
    if "--template" in words:
        return template.run([word for word in words if word != "--template"])
    plain, years = [word for word in words if word not in YEARS], {YEARS[word] for word in words if word in YEARS}
    if len(plain) > 3 or len(years) > 1 or any(not re.fullmatch(r"0|[1-9]\d*", word, re.ASCII) for word in plain[1:]):
        refuse("rows takes a kind, a school and a first number at most, and one of --year-begins and --year-ends", 2)
    kind, school, number = (plain + [None] * 3)[:3]
    main(kind, school, number, years.pop() if years else None, known or ids.Known())
    return 0


def run_office(office, *words):
    """The same with the ids of the file beside an office."""
    return run(words, ids.needed(office.journal))
