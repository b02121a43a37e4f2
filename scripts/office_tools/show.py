"""Prints a year book in words and units, and marks the figures that are far from those of the book before it.

usage: office show BOOK.toml [BEFORE.toml]      without the second, the specimen of examples/ is the book before
"""
import os
import sys

from . import TOP, year_book
from .say import visible

SPECIMEN = os.path.join(TOP, "examples", "2025.toml")
PAGE = os.path.join(TOP, "docs", "FILINGS.md")


def page_words():
    """What each field is, by its key, as the page of filings says it."""
    with open(PAGE) as page:
        lines = page.read().split("## A year book")[1].splitlines()
    cells = [line.split(" | ") for line in lines if line.startswith("| ")]
    return {row[1]: row[2].replace(", in dollars, beyond", " beyond").replace(", in dollars", "").replace(", in years", "") for row in cells if len(row) == 4}


def figure(number, unit):
    """A figure with its unit."""
    if unit == "rate":
        return f"{number / 100:.2f} percent"
    return f"{number:,} {unit}" if unit else str(number)


def mark(now, before, unit):
    """What is said of a figure that is far from the one before: of a factor of two or more, of a rate strongly from ten on."""
    if now == before or not unit:
        return ""
    if now * before <= 0:
        return f"    <-- was {figure(before, unit)}" if before == 0 or now == 0 else f"    <-- was {figure(before, unit)}, of the other sign"
    factor = max(abs(now), abs(before)) / min(abs(now), abs(before))
    if unit in ("rate", "percent") and factor >= 10:
        return f"    <<<<<< WAS {figure(before, unit)}: MOVED BY A FACTOR OF {factor:.0f}"
    return f"    <-- was {figure(before, unit)}" if factor >= 2 else ""


def show_key(section, key, unit, now, before, said):
    """A figure, or a list of them with a line for each one that is marked."""
    label = f"  {key:<26}"
    if isinstance(now, list):
        print(f"{label}{' '.join(f'{each:,}' for each in now)} {unit}: {said}")
        for number, (each, other) in enumerate(zip(now, before), 1):
            if mark(each, other, unit):
                print(f"  {'':<26}entry {number}, {figure(each, unit)}{mark(each, other, unit)}")
    else:
        print(f"{label}{figure(now, unit)}: {said}{mark(now, before, unit)}")


def show_table(table, columns, now, before, said):
    """A table with a line for each row, and below it a line for each figure that is marked."""
    print(f"  {said[table]}{'' if len(now) == len(before) else f'    <-- had {len(before)} rows'}")
    for column, (_, _, unit) in columns.items():
        print(f"  {column}: {said[f'{table}.{column}']}")
    for number, row in enumerate(now, 1):
        print(f"  {number:>4}  " + "  ".join(f"{column} {figure(row[column], unit):<22}" for column, (_, _, unit) in columns.items()).rstrip())
    for number, (row, other) in enumerate(zip(now, before), 1):
        for column, (_, _, unit) in columns.items():
            if mark(row[column], other[column], unit):
                print(f"  {number:>4}  {column} {figure(row[column], unit)}{mark(row[column], other[column], unit)}")


def show(now, before, said):
    """All sections of a book."""
    for section, *most, keys in year_book.sections_of(now):
        if section:
            print(f"\n{section}")
        if most:
            show_table(section, keys, now[section], before[section], said)
            continue
        holder, other = (now[section], before.get(section, {})) if section else (now, before)
        for key, (_, _, unit, *_) in keys.items():
            show_key(section, key, unit, holder[key], other.get(key, holder[key]), said[f"{section}.{key}".lstrip(".")])


def end(sentence):
    """Ends with a sentence on standard error."""
    print(visible(sentence), file=sys.stderr)
    raise SystemExit(1)


def read(path):
    """The book of a file; without one the program ends with a sentence."""
    try:
        with open(path, "rb") as file:
            return year_book.read(file.read())
    except OSError as error:
        end(f"show: {path} can't be read: {error.strerror}.")
    except year_book.NotABook as error:
        end(f"show: {path} is no year book. {error}")


def run(words):
    """Prints the book of a path beside the one before it."""
    if len(words) not in (1, 2):
        end("usage: office show BOOK.toml [BEFORE.toml]")
    path = words[1] if words[1:] else SPECIMEN
    before = read(path)
    now = read(words[0])
    law = "" if now["form"] == before["form"] else f" That one is of form {before['form']}, and this one of form {now['form']}."
    print(f"Year book of the award year {now['year']}-{(now['year'] + 1) % 100:02}; figures are marked that are far from those of {os.path.basename(path)} ({before['year']}).{law}\n")
    show(now, before, page_words())
    return 0
