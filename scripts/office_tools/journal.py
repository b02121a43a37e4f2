"""What the bytes of a journal say of its end. They are a header of 16 bytes, for each filing a gate that is 1, the payload's length in four
bytes, the least first, and the payload, and behind them a gate that is closed, 0 (crates/log_journal). The program takes each gate that
isn't 1 for the closed one, and cuts what stands behind it. So here is asked whether a run can have left what stands there."""
import os
import re

HEAD = 16
NAME = b"\1AIDPELL1"
MOST = 8_192                    # bytes of a payload
MOST_BEHIND = 12_293            # bytes behind a closed gate: a record without its gate, a gate and 4,096 zeros
PIECE = 1 << 22
# those of an aid office, of a loan office and of a work-study office
KINDS = (*range(1, 33), *range(101, 133), *range(201, 233))
CLERK = re.compile(rb"(?:[A-Za-z0-9._][A-Za-z0-9._-]{0,31})?\Z")
DAYS = range(-25_567, 2_932_897)        # 1900-01-01 to 9999-12-31, as the count since 1970-01-01


def number(data, signed=False):
    """A number whose lowest byte stands first."""
    return int.from_bytes(data, "little", signed=signed)


def has_key(payload):
    """Whether a payload begins as a filing does: its kind, the school, and the number that the school gave it."""
    return len(payload) >= 13 and payload[0] in KINDS and number(payload[1:5]) <= 999_999 and 1 <= number(payload[5:13]) <= 999_999_999_999


def is_stamped(payload):
    """Whether a payload begins as a filing does behind a stamp: a day, and the name of a clerk behind its length."""
    behind = 5 + payload[4] if len(payload) > 4 else 0
    stamp = behind and number(payload[:4], True) in DAYS and CLERK.match(payload[5:behind])
    return bool(stamp) and has_key(payload[behind:])


def record_at(data, gate):
    """The payload of the record behind a gate, where one stands there whole."""
    size = number(data[gate + 1 : gate + 5])
    whole = 1 <= size <= MOST and len(data) >= gate + 5 + size
    return data[gate + 5 : gate + 5 + size] if whole else None


def closed_gate(file):
    """The place of the first gate that isn't open, or nothing where what stands at a gate is none."""
    at, start, data = HEAD, HEAD, b""
    while True:
        if at - start + 5 + MOST > len(data):
            file.seek(at)
            start, data = at, file.read(PIECE)
        front = at - start
        if front >= len(data):
            return None
        if data[front] != 1:
            return at
        size = number(data[front + 1 : front + 5])
        if not 1 <= size <= MOST or len(data) < front + 5 + size:
            return None
        at += 5 + size


def goes_on(data, looks_so):
    """Whether a filing stands behind the closed gate, as these judge one, and an open gate behind that, with a filing or the file's end."""
    first = record_at(data, 0)
    if first is None or not looks_so(first) or data[5 + len(first) : 6 + len(first)] != b"\1":
        return False
    behind = data[5 + len(first):]
    second = record_at(behind, 0)
    return looks_so(second) if second is not None else len(behind) < 5 or 1 <= number(behind[1:5]) <= MOST


def is_left_so(file, gate):
    """Whether a run can have left what stands from the closed gate on."""
    file.seek(HEAD)
    first = record_at(file.read(5 + MOST), 0)
    file.seek(gate)
    data = file.read(MOST_BEHIND + 2)
    if not data:
        # another run has cut the file meanwhile
        return True
    if data[0] != 0 or len(data) - 1 > MOST_BEHIND:
        return False
    # a filing behind a stamp has no key in front: where a clerk is named its length would be part of a school's code that is too great
    plain = first is not None and has_key(first)
    return not goes_on(data, has_key if plain else is_stamped)


def hurt_gate(path, live=None):
    """The place of a gate that something else than a run has closed, or nothing. What a file is that the program refuses, it says itself.
    A run that files meanwhile opens a gate before it writes on, so it is looked at once more, in the live file of a copy."""
    if not os.path.isfile(path):
        return None
    try:
        with open(path, "rb") as file:
            if not file.read(HEAD).startswith(NAME):
                return None
            gate = closed_gate(file)
            if gate is None or is_left_so(file, gate):
                return None
            file.seek(gate)
            byte = file.read(1)
        with open(live or path, "rb") as file:
            file.seek(gate)
            return gate if file.read(1) == byte else None
    except OSError:
        return None
