"""The sheet `list` of an office: each filing with its position, its stamp, the row that files it, and with what it was admitted."""
from dataclasses import dataclass

from . import copies, seals
from .office import Office
from .program import SHEET


class NotListed(Exception):
    """A list that can't be had, or was cut short: the status that tells it."""

    def __init__(self, status):
        super().__init__(status)
        self.status = status


@dataclass
class Entry:
    """A filing as the list has it."""
    position: int
    day: str
    clerk: str
    row: tuple
    outcome: tuple


def entry(line):
    """The filing of a line."""
    position, day, clerk, row, *outcome = line.split(" ")
    return Entry(int(position), day, clerk, tuple(row.split(",")), tuple(outcome))


def entries(lines):
    """The filings of a list, one after the other; at its end it is known to be whole: behind the count stands the seal."""
    count, last = 0, []
    for line in lines:
        line = line.rstrip("\n")
        if last or line.startswith(("rows ", "sealed ")):
            last.append(line)
        else:
            count += 1
            yield entry(line)
    if len(last) != 2 or last[0] != f"rows {count}" or not seals.is_line(last[1]) or not last[1].startswith(f"sealed {count} "):
        raise NotListed(1)


def of_file(status, path):
    """The filings of a list in a file, of a run that ended so."""
    if status:
        raise NotListed(5 if status == copies.NO_COPY else status)
    with open(path, encoding="ascii", errors="replace") as lines:
        yield from entries(lines)


def of_journal(journal):
    """The filings of a journal, which is listed on a copy."""
    copies.needs_scratch("copy")
    return of_file(*copies.run_on_copy(Office(journal, ["list"], SHEET), journal, ["list"]))


def of_copy(path):
    """The filings of a copy."""
    text = copies.needs_scratch("list")
    with open(text, "wb") as out:
        status = Office(path, ["list"], SHEET).run(["list"], out=out)
    return of_file(status, text)
