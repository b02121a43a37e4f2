#!/usr/bin/env python3
"""Prints the seal of the filings in a journal of any desk, of the file's bytes alone: a second way to it, for an auditor without the program.
The file has 16 bytes in front, 1 and the journal's name in eight bytes first of them; then for each filing a gate, 1, the length of its
record in four bytes, the lowest first, and the record; then a gate that is closed. The seal of nothing is the sha256 of "dalthyrm seal 1 "
and the name, and each further one that of the seal before, in its 32 bytes, the record's length in those four, and the record.

usage: seal.py JOURNAL [N]         the line of all filings, or of the first N
       seal.py JOURNAL --all       a line for each front of them, from that of none on
Status: 0, 1 where there are fewer than N, 2 other words, 4 the text can't be written, 5 the file can't be read, 6 no journal, 7 a damaged one.
"""
import hashlib
import re
import sys

HEAD, VERSION = 16, (2).to_bytes(4, "little")


class Cut(Exception):
    """A gate that is neither open nor closed, or behind which no whole record stands: its place."""


def seals(data):
    """The seal of each front of the filings, from that of none on."""
    seal, at = hashlib.sha256(b"dalthyrm seal 1 " + data[1:9]).digest(), HEAD
    yield seal
    while at < len(data) and data[at] == 1:
        length, record = data[at + 1 : at + 5], data[at + 5 : at + 5 + int.from_bytes(data[at + 1 : at + 5], "little")]
        if len(length) < 4 or not record or len(record) < int.from_bytes(length, "little"):
            raise Cut(at)
        seal, at = hashlib.sha256(seal + length + record).digest(), at + 5 + len(record)
        yield seal
    if at >= len(data) or data[at] != 0:
        raise Cut(at)


def refuse(sentence, status):
    """Ends with a sentence on standard error."""
    print(f"seal.py: {sentence}", file=sys.stderr)
    raise SystemExit(status)


def run(words):
    """Prints the line or the lines of a journal."""
    if not 1 <= len(words) <= 2 or words[0].startswith("-") or words[1:] != ["--all"] and not all(re.fullmatch("0|[1-9][0-9]{0,9}", word) for word in words[1:]):
        refuse("usage: seal.py JOURNAL [N | --all]", 2)
    try:
        with open(words[0], "rb") as file:
            data = file.read()
    except OSError as error:
        refuse(f"{ascii(words[0])} can't be read: {error.strerror}", 5)
    if len(data) <= HEAD or data[0] != 1:
        refuse(f"{ascii(words[0])} is no journal", 6)
    if data[9:13] != VERSION:
        refuse(f"{ascii(words[0])} is of another version than 2, and seals cover stamps, which only that one has", 6)
    lines = []
    try:
        for count, seal in enumerate(seals(data)):
            lines.append(f"sealed {count} {seal.hex()}\n")
    except Cut as cut:
        refuse(f"{ascii(words[0])} is damaged at its byte {cut}", 7)
    if words[1:] != ["--all"]:
        count = int(words[1]) if words[1:] else len(lines) - 1
        if count >= len(lines):
            refuse(f"{ascii(words[0])} has {len(lines) - 1} filings", 1)
        lines = [lines[count]]
    try:
        sys.stdout.writelines(lines)
        sys.stdout.flush()
    except OSError:
        sys.stderr.close()
        raise SystemExit(4)


if __name__ == "__main__":
    run(sys.argv[1:])
