"""Random texts of year books: right ones, and ones with errors of every kind."""
import copy
import os
import sys

sys.path.append(os.path.join(os.path.dirname(os.path.dirname(os.path.abspath(__file__))), "scripts"))
from office_tools import year_book
import worked

SPECIMEN = year_book.read(worked.SPECIMEN)
WRONG = ['"7"', "1.0", "true", "[]", "[1]", "{}", "2025-08-25", "[1, 2, 3, 4, 5]", "[[1]]", "nan"]
NO_TOML = ["x", "= 1", "[pell", "form = ", "a = 1\na = 2", "n = 99999999999999999999", "\x00", "s = \"a", "[a]\n[a]", "v = 01"]
UNKNOWN = ["bonus", "a", "z", "Maximum", "max-imum", '"two words"', '"ä"', "0", r'"two\nlines"', r'"\t\r\u007f"']


def right(rng):
    """A book whose figures are as they must be."""
    book = copy.deepcopy(SPECIMEN)
    book["year"] = rng.choice([2024, 2025, 2026, 2027])
    if rng.random() < 0.5:
        book |= {"form": 2, "ceiling": {"percent": rng.choice([1, 20, 50, 100, 200, 200, 9_999, rng.randint(1, 9_999)])}}
    for section, *most, keys in year_book.sections_of(book):
        if section not in ("", "ceiling") and not most and section != "pell":
            for key, (low, high, _, *count) in keys.items():
                if rng.random() < 0.2:
                    book[section][key] = moved(rng, book[section][key], low, high)
    if rng.random() < 0.3:
        book["pell"]["maximum"] = rng.choice([1, 99_999, rng.randint(1, 20_000)])
        book["pell"]["minimum"] = rng.choice([1, book["pell"]["maximum"], rng.randint(1, book["pell"]["maximum"])])
    for table, most in [("business", 16), ("bracket", 16)]:
        book[table] = rising(rng, table, rng.choice([1, 2, 5, most]), book["schedule"]["first_rate"])
    if rng.random() < 0.5:
        starts = [0, *sorted(rng.sample(range(1, 121), rng.choice([0, 1, 5, 63])))]
        book["age"] = [{"from": start, "single": rng.randint(0, 20_000), "married": rng.randint(0, 20_000)} for start in starts]
    return book


def moved(rng, figure, low, high):
    """Another figure in its range, or such a list."""
    if isinstance(figure, list):
        return [moved(rng, each, low, high) for each in figure]
    near = min(high, max(low, figure + rng.randint(-abs(figure) // 4 - 1, abs(figure) // 4 + 1)))
    return rng.choice([near, near, near, low, high] if high <= 10_000 else [near])


def rising(rng, table, count, first_rate):
    """So many rows, each going on from the one before it."""
    over = 0 if table == "business" else rng.choice([0, 20_500, rng.randint(0, 60_000)])
    base = 0 if table == "business" else year_book.share(over, first_rate)
    rows = []
    for _ in range(count):
        rate = rng.choice([0, 10_000, rng.randint(0, 10_000)])
        rows.append({"over": over, "base": base, "rate": rate})
        step = rng.choice([1, rng.randint(1, 50_000)])
        over, base = over + step, base + year_book.share(step, rate)
    return rows


def places(book):
    """Each figure, list and row of a book, as what holds it and its key there."""
    for section, *most, keys in year_book.sections_of(book):
        held = book.get(section, []) if section else book
        for holder in held if isinstance(held, list) else [held]:
            yield from ((holder, key) for key in keys if isinstance(holder, dict))
    yield from ((book, section) for section, *_ in year_book.sections_of(book) if section)


def break_once(rng, book):
    """One thing is made wrong."""
    way = rng.choice(["remove", "wrong", "range", "rise", "unknown", "row"])
    holder, key = rng.choice(list(places(book)))
    if way == "remove":
        holder.pop(key, None)
    elif way == "wrong":
        holder[key] = Raw(rng.choice(WRONG))
    elif way == "range":
        figure = rng.choice([-1, 0, 2, 9_999, 10_000, 10_001, 121, 2_100, 100_000_000, -1_000_000, 1, 2**63 - 1, -2**63])
        place = holder.get(key)
        if isinstance(place, list) and place and not isinstance(place[0], dict):
            place[rng.randrange(len(place))] = figure
        else:
            holder[key] = figure
    elif way == "rise":
        rows = book.get(rng.choice(year_book.TABLES))
        if isinstance(rows, list) and rows and all(isinstance(row, dict) for row in rows):
            row = rng.choice(rows)
            column = rng.choice(list(row) or ["over"])
            if isinstance(row.get(column), int):
                row[column] += rng.choice([-1, 1])
    elif way == "unknown":
        holders = [holder for holder, _ in places(book)]
        rng.choice(holders)[Raw(rng.choice(UNKNOWN))] = rng.choice([1, Raw("{ x = 1 }"), Raw("[]")])
    else:
        rows = book.get(rng.choice(year_book.TABLES))
        if isinstance(rows, list) and rows:
            rng.choice([rows.pop, rows.reverse, lambda: rows.extend(copy.deepcopy(rows) * rng.choice([1, 20])), rows.clear])()


class Raw(str):
    """A text that stands in the TOML as it is."""


def value_text(rng, value):
    """A value as TOML writes it."""
    if isinstance(value, Raw):
        return value
    if isinstance(value, list):
        return "[" + ", ".join(value_text(rng, each) for each in value) + rng.choice(["", ",", " "] if value else [""]) + "]"
    if isinstance(value, dict):
        return "{ " + ", ".join(f"{key} = {value_text(rng, each)}" for key, each in value.items()) + " }"
    return rng.choice([str(value)] * 4 + [f"{value:_}", f"0x{value:x}" if value >= 0 else str(value), f"+{value}" if value >= 0 else str(value)])


def text_of(rng, book):
    """The TOML of a book, its sections in any order and each in one of the ways to write it."""
    top, below = [], []
    for section, value in rng.sample(list(book.items()), len(book)):
        lines = lambda row: [f"{key} = {value_text(rng, each)}" for key, each in rng.sample(list(row.items()), len(row))]
        are_rows = isinstance(value, list) and value and all(isinstance(row, dict) for row in value)
        if isinstance(value, dict) and rng.random() < 0.8:
            below.append([f"[{section}]", *lines(value)])
        elif isinstance(value, dict) and value and rng.random() < 0.5:
            top += [f"{section}.{line}" for line in lines(value)]
        elif are_rows and rng.random() < 0.8:
            below.append([line for row in value for line in (f"[[{section}]]", *lines(row))])
        else:
            top.append(f"{section} = {value_text(rng, value)}")
    end = rng.choice(["\n", "\n", "\r\n"])
    return end.join(rng.sample(top, len(top)) + [line for part in below for line in part]) + rng.choice([end, "", f"{end}# the end{end}"])


def random_book(rng):
    """The bytes of a book: a right one, one with one, two or more errors, or no TOML."""
    book = right(rng)
    for _ in range(rng.choice([0, 0, 1, 1, 1, 2, 3])):
        break_once(rng, book)
    text = text_of(rng, book)
    if rng.random() < 0.06:
        text = rng.choice([text + "\n" + rng.choice(NO_TOML), rng.choice(NO_TOML) + "\n" + text, text[:rng.randrange(len(text))]])
    data = text.encode()
    return data + b"\xff" if rng.random() < 0.01 else data
