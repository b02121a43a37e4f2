"""Corrections of an office in plain Python, written apart from the proved code: what the rows of a text of corrections say, which of them fit
a list of filings, and the text, the status and the file that they make of it under the stamp of a run. The law is that of tests/model.py, the
rows of filings are those of tests/desk.py, and the bytes those of tests/records.py."""
import re
from dataclasses import dataclass

import audit_model
import desk
import model
import records
import sheet_model

# What is done, by the number that its record has.
REPLACED, VOIDED, INSERTED = 1, 2, 3
VERBS = {"replace": REPLACED, "void": VOIDED, "insert": INSERTED}
# The columns in front of the row of a filing, or, of a row without one, all of them.
FRONTS = {REPLACED: 3, VOIDED: 5, INSERTED: 5}
GROUNDS = [desk.whole(1, 7), desk.REFERENCE]
# Why a row is no correction, and why a correction doesn't fit the list.
UNKNOWN, COUNT, SPELLING = 1, 2, 3
NAMED_BEFORE, NO_FILING, OTHER_KIND, SAME_FILING = 5, 6, 7, 8
# The field at which it is told that a correction doesn't fit.
MISFIT_FIELD = 4


class Wrong(Exception):
    """The column at which a row is no correction, 0 for all of them, and the cause."""


@dataclass(frozen=True)
class Said:
    """What a row says: what is done, why, the filing that it names by its key, and what is put there."""
    change: int
    reason: int
    reference: int
    key: tuple
    filing: model.Filing | None


@dataclass(frozen=True)
class Correction:
    """A row that fits, with its record."""
    said: Said
    record: model.Amendment


@dataclass
class Place:
    """A filing of the new list under its stamp, the words of a line about what was done there, and the outcome that the old list's filing
    there had, if one was there that counts."""
    filing: model.Filing
    stamp: model.Stamp
    done: str = ""
    was: object = None


def key_of(filing):
    """The school and the number of a filing."""
    return filing.school, filing.number


# Rows

def numbers_in(columns, first, readers):
    """The numbers of the columns from this one on, which counts from 1."""
    numbers = []
    for column, read in enumerate(readers, first):
        try:
            numbers.append(read(columns[column - 1]))
        except desk.Faulty as faulty:
            raise Wrong(column, *faulty.args) from None
    return tuple(numbers)


def filing_of_digits(digits):
    """The filing whose bytes have these digits, or none."""
    if not re.fullmatch("([0-9a-f][0-9a-f])*", digits, re.ASCII):
        return None
    data = bytes.fromhex(digits)
    filing = audit_model.filing_of_payload(data)
    return filing if filing and records.payload_of_filing(filing) == data else None


def filing_in(columns, front):
    """The filing that the columns behind those in front say."""
    row = columns[front:]
    if row[0] == "digits":
        if len(row) != 2:
            raise Wrong(0, COUNT)
        filing = filing_of_digits(row[1])
        if filing is None:
            raise Wrong(front + 2, SPELLING)
        return filing
    filing = desk.filing_of(row)
    if isinstance(filing, desk.RowError):
        raise Wrong(filing.field + front if filing.field else 0, filing.cause)
    return filing


def said_by(columns):
    """What the columns of a row say."""
    change = VERBS.get(columns[0])
    if change is None:
        raise Wrong(1, UNKNOWN)
    front = FRONTS[change]
    if len(columns) != front if change == VOIDED else len(columns) <= front:
        raise Wrong(0, COUNT)
    grounds = numbers_in(columns, 2, GROUNDS)
    key = None if change == REPLACED else numbers_in(columns, 4, desk.KEY)
    filing = None if change == VOIDED else filing_in(columns, front)
    return Said(change, *grounds, key or key_of(filing), filing)


# Which rows fit a list

def named_by(corrections):
    """The corrections that name a filing whose place they take, by its key."""
    return {each.said.key: each for each in corrections if each.said.change != INSERTED}


def misfit(history, corrections, said):
    """Why what a row says doesn't fit a list, behind the rows that do; nothing where it does."""
    if said.change != INSERTED and said.key in named_by(corrections):
        return NAMED_BEFORE
    position, old = model.earliest(history, model.Filing, school=said.key[0], number=said.key[1])
    if not position:
        return NO_FILING
    if said.change == INSERTED:
        return None
    if isinstance(old, model.Amendment) or said.change == REPLACED and type(old) is not type(said.filing):
        return OTHER_KIND
    return SAME_FILING if old == said.filing else None


def record_of(said, number):
    """The record of a correction. It stands in the place of what is taken out, and otherwise has this number of the office's own desk."""
    own = said.key if said.change == VOIDED else (0, number)
    of = said.key if said.change == VOIDED else key_of(said.filing)
    return model.Amendment(*own, *of, said.change, said.reason, said.reference)


def gathered(history, number, data):
    """The corrections of a text that fit a list, and the lines of the rows that are none."""
    corrections, lines = [], []
    for row, columns in enumerate(desk.rows_of(data), 1):
        try:
            said = said_by(columns)
        except Wrong as wrong:
            lines.append("%d error %d %d" % (row, *wrong.args))
            continue
        cause = misfit(history, corrections, said)
        if cause:
            lines.append(f"{row} error {MISFIT_FIELD} {cause}")
        else:
            own = sum(each.said.change != VOIDED for each in corrections)
            corrections.append(Correction(said, record_of(said, number + own)))
    return corrections, lines


# The new list

def place_of(filing, stamp, was, correction, now):
    """What stands in the place of a filing of the old list."""
    if correction is None:
        return Place(filing, stamp, was=was)
    row, put = sheet_model.row(filing), correction.said.filing
    if correction.said.change == VOIDED:
        return Place(correction.record, now, f"{row} voided")
    return Place(put, now, f"{row} replaced {sheet_model.row(put)}", was)


def places(history, stamps, corrections, now):
    """The new list, the oldest first: each filing of the old one, or what is put in its place, behind what is put in front of it, and then
    the records that have numbers of their own."""
    named, inserted = named_by(corrections), [each.said for each in corrections if each.said.change == INSERTED]
    made = []
    for filing, stamp, was in zip(history, stamps, sheet_model.outcomes(history)):
        key = key_of(filing)
        made += [Place(said.filing, now, f"{sheet_model.row(said.filing)} inserted") for said in inserted if said.key == key]
        made.append(place_of(filing, stamp, was, named.get(key), now))
    return made + [Place(each.record, now) for each in corrections if each.said.change != VOIDED]


def told(place, answer):
    """The words of a line about the answer to a filing of the new list; nothing where all is as it was."""
    row = sheet_model.row(place.filing)
    if isinstance(answer, model.Refused):
        return f"{row} refused {answer.rule} {answer.kept} {answer.bound}"
    if isinstance(answer, model.Again):
        return f"{row} again {answer.position}"
    was, now = (desk.outcome_text(outcome) for outcome in (place.was, answer.outcome))
    return f"{row} was {was} now {now}" if place.was is not None and was != now else ""


def judged(listed):
    """The lines about a new list, whose filings are filed behind those that stand, and how many stand."""
    stood, lines = [], []
    for position, place in enumerate(listed, 1):
        answer = model.file(stood, place.filing)
        lines += [f"{position} {words}" for words in (place.done, told(place, answer)) if words]
    return lines, len(stood)


def text_of(lines):
    """Lines as they are written."""
    return "".join(f"{line}\n" for line in lines)


def amend(history, stamps, now, number, data):
    """What `amend` answers on a list of filings with their stamps, under the stamp of the run, the first number of its records, and for the
    bytes of the corrections: the status, the text, and the file of the new office, or nothing where none is made."""
    corrections, errors = gathered(history, number, data)
    if errors:
        return 1, text_of([*errors, f"errors {len(errors)}"]), None
    listed = places(history, stamps, corrections, now)
    lines, stood = judged(listed)
    if stood < len(listed):
        return 1, text_of([*lines, f"refused {len(listed) - stood}"]), None
    file = records.file_of_office([place.filing for place in listed], [place.stamp for place in listed])
    return 0, text_of([*lines, f"amended {len(listed)}"]), file
