"""What became of what a run filed, by its reply lines: how many rows stand, and whether all do."""
import csv
import io
import os
import stat
import sys

from . import book_line, copies, settings
from .say import say

csv.field_size_limit(sys.maxsize)


class Filed:
    """The counts of a run's reply lines. Behind the first that was accepted it is said where none has a stamp."""

    def __init__(self, office, tells_stamp=False, total=None):
        self.office, self.tells_stamp, self.total = office, tells_stamp, total
        self.counts = {b"accepted": 0, b"again": 0, b"refused": 0, b"error": 0}
        self.book = b""         # the line of a text that is no book
        self.left = False       # a round's last line

    def take(self, line):
        """Takes a reply line: `ROW FRONT accepted ..`, `ROW error ..`, `1 book ..`, behind `desk DESK ` where there are several, or a count."""
        words = line.split()
        if words[:1] == [b"desk"]:
            words = words[2:]
        if len(words) > 2 and words[0].isdigit():
            kind = words[2] if words[1].isdigit() else words[1]
            self.book = line if kind == b"book" else self.book
            self.add(kind, 1)
        elif len(words) == 2 and words[1].isdigit():
            self.left = self.left or words[0] == b"left"
            self.add(words[0], int(words[1]))

    def add(self, kind, count):
        """Counts so many answers of a kind."""
        if kind in self.counts:
            self.counts[kind] += count
        if kind == b"accepted" and count and self.tells_stamp:
            settings.say_unstamped(self.office)
            self.tells_stamp = False

    def answered(self):
        """How many rows have an answer."""
        return sum(self.counts.values())

    def progress(self):
        """What a terminal is told of a run that goes on."""
        done = self.answered()
        return f"{done} rows answered" if self.total is None else f"{done} of {self.total} rows answered, {self.total - done} left"

    def status(self, lenient):
        """1 where something of the input isn't on file, with a sentence, unless that is to be let be."""
        refused, errors = self.counts[b"refused"], self.counts[b"error"]
        if self.book:
            say(f"the book isn't on file: {book_line.where(self.book) or 'office explain says why'}")
        elif refused or errors:
            counts = [f"{count} {name}" for count, name in ((refused, "refused"), (errors, "no filings")) if count]
            say(f"{refused + errors} of {self.answered()} rows aren't on file: {', '.join(counts)}; office explain says why")
        elif self.left and not self.answered():
            say("nobody was awarded anything by this round")
        else:
            return 0
        return 0 if lenient else 1


def count_rows(data):
    """How many rows an input has, as the office counts them."""
    text = data.decode("utf-8-sig", "surrogateescape")
    return sum(1 for row in csv.reader(io.StringIO(text, newline="")) if row)


def rows_told(words):
    """How many rows a command will read, where its input is ordinary files."""
    if words[0] == "file" and stat.S_ISREG(os.fstat(0).st_mode):
        return count_rows(os.pread(0, copies.MOST_INPUT + 1, os.lseek(0, 0, os.SEEK_CUR)))
    if words[0] == "desks" and all(map(os.path.isfile, words[1:])):
        return sum(count_rows(copies.text_of(path)) for path in words[1:])
    return None
