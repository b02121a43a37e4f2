"""Files the rows of a file, hands on the reply lines, tells what became of the rows, and writes those that don't stand to a file."""
import csv
import os
import sys

from . import copies, filing, ids, running, settings
from .say import refuse, say

# The bytes of a field may be any, and a field may be as long as a row.
TEXT = {"newline": "", "encoding": "utf-8", "errors": "surrogateescape"}
STANDS = (b"accepted", b"again")
WORDS = ((b"accepted", "accepted"), (b"again", "again"), (b"refused", "refused"), (b"error", "no filings"))
csv.field_size_limit(sys.maxsize)


def rows_of(path):
    """The rows as the office counts them: lines of nothing are none, and a byte order mark in front counts for nothing."""
    with open(path, **TEXT | {"encoding": "utf-8-sig"}) as file:
        return [row for row in csv.reader(file) if row]


def row_text(row):
    """A row as text: a cell in quotes where it has to be, so that it is read as one cell again."""
    return ",".join('"' + cell.replace('"', '""') + '"' if any(sign in cell for sign in ',"\r\n') or row == [""] else cell for cell in row) + "\n"


def look_at_left(left, others):
    """Refuses a file for the rows that don't stand that can't be written, or that is one of the others."""
    for other in others:
        if copies.is_there(left) and os.path.exists(other) and os.path.exists(left) and os.path.samefile(left, other):
            refuse(f"{left} would be written over: name another file for the rows that don't stand", 2)
    if not os.path.isdir(copies.folder_of(left)):
        refuse(f"there is no folder for {left}: make it, or name another file", 2)
    try:
        os.close(os.open(left, os.O_WRONLY | os.O_CREAT | os.O_APPEND, 0o600))
    except OSError:
        refuse(f"{left} can't be written: name another file for the rows that don't stand", 2)


def write_left(left, rows):
    """Writes rows to a file, whole or not at all where it is an ordinary one. Whether they could be written."""
    part = f"{left}.part" if os.path.isfile(left) and not os.path.islink(left) else left
    try:
        if part != left:
            copies.Left.parts.append(part)
        with open(os.open(part, os.O_WRONLY | os.O_CREAT | os.O_TRUNC, 0o600), "w", **TEXT) as file:
            file.writelines(map(row_text, rows))
        if part != left:
            os.chmod(part, os.stat(left).st_mode & 0o7777)
            os.replace(part, left)
            copies.Left.parts.remove(part)
    except OSError as error:
        say(f"{left} can't be written: {error.strerror}; run it again with another file")
        return False
    return True


class Told:
    """What each row was answered, by its number."""

    def __init__(self):
        self.words, self.positions = {}, {}

    def take(self, line):
        """Takes a reply line."""
        words = line.split()
        if words[2:3] == [b"accepted"]:
            self.positions[int(words[0])] = int(words[3])
        if len(words) > 1 and words[0].isdigit():
            self.words[int(words[0])] = words[2] if words[1].isdigit() and len(words) > 2 else words[1]

    def stands(self, number):
        """Whether the row of this number stands."""
        return self.words.get(number) in STANDS


def tell(rows, told, left, status):
    """Tells what became of the rows, and writes those that don't stand. The status of the whole."""
    out = [number for number in range(1, len(rows) + 1) if not told.stands(number)]
    if left and not write_left(left, (rows[number - 1] for number in out)):
        left, status = "", status or 4
    answers = list(told.words.values())
    counts = ", ".join(f"{answers.count(word)} {name}" for word, name in WORDS)
    where = f"; {len(out)} are in {left}" if left else ""
    say(f"{len(rows)} rows: {counts}, {len(rows) - len(told.words)} unanswered{where}")
    return status or (1 if out else 0)


def run_file(office, copy, path, take, is_quiet):
    """Files the rows of a file, and takes the reply lines, which are printed too unless it is to be quiet."""
    with open(path, "rb") as given:
        if not is_quiet:
            return office.run(["file"], copy, given=given, take=take, keeps_on=True)
        with open(copies.needs_scratch("lines"), "wb") as out:
            status = office.run(["file"], copy, given=given, out=out)
    for line in copies.text_of(copies.scratch("lines")).splitlines():
        take(line)
    return status


def intake(office, path, left="", is_dry=False, before=None, after=None, is_quiet=False):
    """Files rows, or tries them on a copy, and tells by the status whether all of them stand. LEFT gets the others. Nothing is filed where
    what looks at the rows before gives a status; what comes after is handed the copy and the answers."""
    if not (os.path.isfile(path) and os.access(path, os.R_OK)):
        refuse(f"{path} is no file that can be read: mend the path, or its rights", 2)
    if left:
        look_at_left(left, (office.journal, path, settings.path_of(office.journal), ids.path_of(office.journal)))
    rows, told, status = rows_of(path), Told(), 130
    filed = filing.Filed(office, not is_dry and not office.stamp, len(rows))
    running.State.tells = filed.progress
    hurt = None if is_dry else office.hurt()

    def take(line):
        told.take(line)
        filed.take(line)

    try:
        status = before(rows) if before else 0
        if status:
            pass
        elif hurt is None:
            copy = copies.try_on_copy(office) if is_dry else None
            status = run_file(office, copy, path, take, is_quiet)
            office.say_status(status)
            if after and not status:
                status = after(copy, told)
        else:
            status = 7
            office.say_hurt(hurt)
    finally:
        status = tell(rows, told, left, status)
    return 0 if status == 1 and office.lenient else status
