"""What an office in plain Python (tests/model.py) writes over one connection for the bytes that came on it, written apart from the
proved code: heads by RFC 9112, bodies by tests/bodies.py."""
import json
import re

import bodies
import desk
import model

MOST_HEAD, MOST_LINES, MOST_BODY, MOST_REQUESTS = 16_384, 66, 65_536, 10_000
PHRASES = {
    200: "OK", 201: "Created", 400: "Bad Request", 404: "Not Found", 405: "Method Not Allowed", 411: "Length Required",
    413: "Payload Too Large", 422: "Unprocessable Entity", 431: "Request Header Fields Too Large", 501: "Not Implemented",
    503: "Service Unavailable", 507: "Insufficient Storage",
}
BLANK = re.compile(rb"\A(\r?\n)*")
TOKEN = rb"[!#$%&'*+.^_`|~0-9A-Za-z-]+"
FIRST = re.compile(rb"(%s) ([!-~\x80-\xff]+) HTTP/1\.([01])" % TOKEN)
FIELD = re.compile(rb"(%s):[ \t]*([\t -~\x80-\xff]*)" % TOKEN)
NUMBER = "(0|[1-9][0-9]*)"
ROUTES = [
    ("POST", f"/desks/{NUMBER}/filings", [(0, 999_999)]),
    ("GET", f"/desks/{NUMBER}/quote/{NUMBER}/{NUMBER}/{NUMBER}", [(0, 999_999), (1, 10**12 - 1), (2000, 2099), (1, 8)]),
    ("GET", f"/standing/{NUMBER}/{NUMBER}", [(1, 10**12 - 1), (2000, 2099)]),
]


class Rejected(Exception):
    """The status of a head that ends the connection."""


def response(status, body, closes):
    """The bytes of a response."""
    closing = "Connection: close\r\n" if closes else ""
    return (f"HTTP/1.1 {status} {PHRASES[status]}\r\nContent-Length: {len(body)}\r\nContent-Type: application/json\r\n{closing}\r\n{body}").encode()


def compact(value):
    """A JSON text with its keys in order and no spaces."""
    return json.dumps(value, sort_keys=True, separators=(",", ":"))


def head_of(block):
    """The method, target, minor version and fields of a head block."""
    if block.lstrip(b"\r\n").count(b"\n") > MOST_LINES:
        raise Rejected(431)
    lines = [line.removesuffix(b"\r") for line in BLANK.sub(b"", block).split(b"\n")[:-2]]
    first = FIRST.fullmatch(lines[0])
    fields = [FIELD.fullmatch(line) for line in lines[1:]]
    if first is None or None in fields:
        raise Rejected(400)
    try:
        target = first[2].decode("utf-8")
    except UnicodeDecodeError:
        raise Rejected(400) from None
    return first[1].decode(), target, int(first[3]), [(field[1].lower(), field[2].rstrip(b" \t")) for field in fields]


def length_of(method, fields):
    """The length of the body, by the checks of a head in their order."""
    lengths = [value for name, value in fields if name == b"content-length"]
    if len(lengths) > 1 or lengths and not re.fullmatch(rb"[0-9]+", lengths[0]):
        raise Rejected(400)
    if any(name in (b"transfer-encoding", b"content-encoding", b"expect") for name, _ in fields):
        raise Rejected(501)
    if lengths and int(lengths[0]) > MOST_BODY:
        raise Rejected(413)
    if method == "POST" and not lengths:
        raise Rejected(411)
    return int(lengths[0]) if lengths else 0


def call_of(method, target):
    """The route and the numbers of a target, or the status that it has none or another method."""
    for place, (wanted, pattern, ranges) in enumerate(ROUTES):
        found = re.fullmatch(pattern, target, re.ASCII)
        if found and all(low <= int(text) <= high for text, (low, high) in zip(found.groups(), ranges)):
            return (place, [int(text) for text in found.groups()]) if method == wanted else 405
    return 404


def head_end(data):
    """Where the head block ends that these bytes begin with, or none where its first 16,384 bytes have no end."""
    begun = re.search(rb"[^\r\n]", data[:MOST_HEAD])
    end = re.compile(rb"\n\r?\n").search(data[:MOST_HEAD], begun.end()) if begun else None
    return end and end.end()


class Office:
    """An office, and what it answers."""

    def __init__(self, history=()):
        self.history = list(history)

    def file(self, school, body):
        """The status and the body that answer a filing."""
        row = bodies.row_of(school, body)
        filing = desk.filing_of(row) if row else None
        if filing is None or isinstance(filing, desk.RowError):
            return 400, compact({"error": 400})
        front = len(self.history)
        answer = model.file(self.history, filing)
        if isinstance(answer, model.Refused):
            return 422, compact({"answer": "refused", "bound": answer.bound, "front": front, "kept": answer.kept, "rule": answer.rule})
        told = {"front": front, "outcome": desk.outcome_text(answer.outcome)}
        if isinstance(answer, model.Again):
            return 200, compact({"answer": "again", "position": answer.position, **told})
        return 201, compact({"answer": "accepted", "position": front + 1, **told})

    def quote(self, *place):
        cents = model.quote(self.history, *place)
        return 200, compact({"answer": "quoted", "cents": cents, "front": len(self.history)})

    def standing(self, student, year):
        row = model.standing(self.history, student, year)
        return 200, compact({
            "answer": "standing", "formula": row.formula, "front": len(self.history), "paid": row.paid, "sai": row.index,
            "scheduled": row.award, "transaction": row.transaction, "used": row.used, "way": row.way,
        })

    def answer(self, method, target, body):
        """The status and the body that answer a request."""
        call = call_of(method, target)
        if isinstance(call, int):
            return call, compact({"error": call})
        place, numbers = call
        return self.file(*numbers, body) if place == 0 else (self.quote, self.standing)[place - 1](*numbers)

    def exchange(self, data):
        """All that is written over a connection that brings these bytes and then ends."""
        written = []
        for _ in range(MOST_REQUESTS):
            end = head_end(data)
            if end is None:
                return b"".join(written) + (response(431, compact({"error": 431}), True) if len(data) >= MOST_HEAD else b"")
            try:
                method, target, minor, fields = head_of(data[:end])
                size = end + length_of(method, fields)
            except Rejected as rejected:
                status, = rejected.args
                return b"".join(written) + response(status, compact({"error": status}), True)
            if len(data) < size:
                break
            closes = minor == 0 or any(name == b"connection" and value.lower() == b"close" for name, value in fields)
            written.append(response(*self.answer(method, target, data[end:size]), closes))
            data = data[size:]
            if closes:
                break
        return b"".join(written)
