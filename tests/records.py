"""The payload of a filing as its record keeps it, behind the stamp, and the file of an office, written apart from the proved code. All
numbers are little-endian; a day is counted from 1970-01-01, and below 0 before it."""
import hashlib
import os
import sys
from dataclasses import fields, is_dataclass
from datetime import date

sys.path.append(os.path.join(os.path.dirname(os.path.dirname(os.path.abspath(__file__))), "scripts"))
from office_tools import year_book
import desk
import model
import worked

# The name and the version of a journal.
HEADER = b"\1AIDPELL1" + (2).to_bytes(4, "little") + bytes(3)
SIDE = [8] * 16
MONEY = [8, 2, 1, 1, 8]
# The code of each kind, and the widths of its fields behind the key.
KINDS = {
    model.School: (2, [4, 1, 1]), model.Calendar: (3, [2, 1, 1, 4, 4, 1] + [4] * 16), model.PriorUse: (4, [8, 4]),
    model.Application: (5, [8, 2, 1, 2, 1, 1, *[1] * 11, *SIDE, 1, 1, 1, *SIDE]), model.Enrolment: (6, [8, 2, 1, 1]),
    model.Origination: (7, [8, 2, 4]), model.Payment: (8, MONEY), model.Withdrawal: (9, [8, 2, 1, 4, 4, *[8] * 7]),
    model.Repayment: (10, MONEY), model.Adjustment: (11, MONEY), model.ChangedCost: (12, [8, 2, 4]), model.Sending: (13, [*MONEY, 4, 8]),
    model.Amendment: (14, [4, 8, 1, 1, 8]),
}
# The fields of an application and of a calendar where they don't stand in the order of the model.
ANSWERS = ["married", "graduate", "bachelor", "veteran", "dependents", "orphan", "ward", "foster", "emancipated", "homeless"]
ORDERS = {
    model.Application: [
        "student", "year", "transaction", "birth_year", "region", "family", *ANSWERS, "student_must_file", "own", "parents_married",
        "parents_must_file", "parent_age", "parents",
    ],
}
TABLES = ["business", "age", "bracket"]


def flat(value):
    """The numbers of a value, in order."""
    if isinstance(value, date):
        return [(value - date(1970, 1, 1)).days]
    if is_dataclass(value):
        value = tuple(getattr(value, field.name) for field in fields(value))
    return [number for each in value for number in flat(each)] if isinstance(value, tuple) else [int(value)]


def numbers_of(filing):
    """The numbers of a filing's fields behind the key. A calendar counts its breaks before it has them."""
    names = ORDERS.get(type(filing), [field.name for field in fields(filing)[2:]])
    numbers = [number for name in names for number in flat(getattr(filing, name))]
    return numbers[:5] + [len(filing.breaks)] + numbers[5:] if isinstance(filing, model.Calendar) else numbers


def bytes_of_book(book):
    """The form of a book and its figures, each in eight bytes, a table behind its count. The ceiling stands in form 2 alone."""
    data = eight(2 if book.ceiling else 1)
    for field in fields(book):
        value = getattr(book, field.name)
        data += bytes([len(value)]) if field.name in TABLES else b""
        data += b"".join(map(eight, flat(value))) if field.name != "ceiling" or value else b""
    return data


def eight(number):
    return number.to_bytes(8, "little", signed=True)


def payload_of_filing(filing):
    """The payload of a filing, without its stamp."""
    key = filing.school.to_bytes(4, "little") + filing.number.to_bytes(8, "little")
    if isinstance(filing, model.Book):
        return b"\1" + key + bytes_of_book(filing.book)
    code, widths = KINDS[type(filing)]
    return bytes([code]) + key + b"".join((number % 256**width).to_bytes(width, "little") for number, width in zip(numbers_of(filing), widths))


def payload_of(filed):
    """The payload of a row, or of the specimen's figures under a number."""
    words = filed.split(" ")
    if words[0] == "book":
        return payload_of_filing(model.Book(0, int(words[1]), desk.book_of(year_book.read(worked.book_of_step(words)))))
    return payload_of_filing(desk.filing_of(filed.split(",")))


def stamp_bytes(stamp):
    """The day of a stamp, and its clerk's name behind the count of its bytes."""
    return flat(stamp.day)[0].to_bytes(4, "little", signed=True) + bytes([len(stamp.clerk)]) + stamp.clerk.encode()


def file_of(payloads):
    """The file that keeps these payloads, each with its stamp in front."""
    return HEADER + b"".join(b"\1" + len(payload).to_bytes(4, "little") + payload for payload in payloads) + b"\0"


def file_of_office(history, stamps):
    """The file of an office with these filings, the last of which may have no stamp noted."""
    return file_of(payloads_of_office(history, stamps))


def payloads_of_office(history, stamps):
    """The payloads of an office with these filings, each behind its stamp."""
    return [stamp_bytes(stamp) + payload_of_filing(filing) for filing, stamp in zip(history, model.stamped(history, stamps))]


def payloads_in(data):
    """The payloads that stand in a file."""
    payloads, at = [], len(HEADER)
    while data[at] == 1:
        end = at + 5 + int.from_bytes(data[at + 1 : at + 5], "little")
        payloads.append(data[at + 5 : end])
        at = end
    return payloads


def seal_lines(payloads):
    """The line of the seal of each front of some payloads, from that of none on: each seal is the sha256 of the one before it, and of what
    stands in the file behind the gate."""
    seals = [hashlib.sha256(b"dalthyrm seal 1 AIDPELL1").digest()]
    for payload in payloads:
        seals.append(hashlib.sha256(seals[-1] + len(payload).to_bytes(4, "little") + payload).digest())
    return [f"sealed {count} {seal.hex()}" for count, seal in enumerate(seals)]
