"""The JSON bodies of rows, and the rows of JSON bodies, by the columns of docs/FILINGS.md, written apart from the proved code."""
import json
import os
import re

PAGE = os.path.join(os.path.dirname(os.path.dirname(os.path.abspath(__file__))), "docs", "FILINGS.md")


def columns():
    """The name and the form of each field behind the key, kind by kind, without those that a count of breaks adds."""
    kinds, kind = {}, None
    with open(PAGE) as page:
        for line in page:
            if line.startswith("## "):
                kind = kinds.setdefault(line[3:].strip(), [])
            cells = re.fullmatch(r"\| (\d+) \| (\w+) \| .* \| (.*) \|\n", line)
            if cells and kind is not None:
                kind.append((cells[2], cells[3].split(",")[0]))
    return kinds


COLUMNS = columns()


def value_of(form, text):
    """The value of a field: days and programs are strings, all else whole numbers, cents too."""
    if form == "a day" or form.startswith("one of"):
        return text
    return int(text.replace(".", "")) if form == "dollars and cents" else int(text)


def body_of(row):
    """The school of a row, and its body."""
    kind, school, number, *texts = row
    body = {"kind": kind, "number": int(number)}
    for (name, form), text in zip(COLUMNS[kind], texts):
        body[name] = value_of(form, text)
    if kind == "calendar":
        days = texts[len(COLUMNS[kind]):]
        body["breaks"] = [list(days_of_break) for days_of_break in zip(days[::2], days[1::2])]
    return int(school), body


def text_of(form, value):
    """The column of a value, or none where it is of another kind."""
    if form == "a day" or form.startswith("one of"):
        return value if isinstance(value, str) else None
    if type(value) is not int:
        return None
    if form == "dollars and cents":
        return f"{value // 100}.{value % 100:02}" if value >= 0 else None
    return str(value)


def breaks_in(value):
    """The columns of breaks, their count first, or none."""
    if not isinstance(value, list) or not all(isinstance(row, list) and len(row) == 2 for row in value):
        return [None]
    return [str(len(value)), *(text_of("a day", day) for row in value for day in row)]


def whole(text):
    """A JSON number without a point or an exponent; a zero with a sign is none."""
    return float(text) if text == "-0" else int(text)


def no_constant(text):
    raise ValueError(text)


def row_of(school, body):
    """The columns of the filing that a body says under a school, or none where it says none."""
    try:
        value = json.loads(body.decode("utf-8"), parse_int=whole, parse_constant=no_constant)
    except (ValueError, RecursionError):
        return None
    kind = value.get("kind") if isinstance(value, dict) else None
    if not isinstance(kind, str) or kind not in COLUMNS or set(value) != {"kind", "number", *(name for name, _ in COLUMNS[kind])}:
        return None
    texts = [kind, str(school), text_of("a whole number", value["number"])]
    for name, form in COLUMNS[kind]:
        texts += breaks_in(value[name]) if name == "breaks" else [text_of(form, value[name])]
    return None if None in texts else texts
