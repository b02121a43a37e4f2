"""The line of a seal, `sealed N HEX`, which names the first N filings: it stands last on some sheets, and people keep it as a note."""
import io
import os
import re

from . import copies
from .say import refuse

LINE = re.compile(r"sealed (0|[1-9][0-9]{0,9}) [0-9a-f]{64}")
LONGEST = 100                       # bytes, more than the line of a seal has
FIRST_BYTES = (b"\0", b"\1")        # of a journal, and of one whose founding didn't end
MARKS = (b"\xef\xbb\xbf", b"\xff\xfe", b"\xfe\xff")


def is_line(line):
    """Whether a line is that of a seal."""
    return LINE.fullmatch(line) is not None


def without(lines):
    """The lines of a sheet without that of its seal, which is the last one. It isn't taken off where something else stands last."""
    return lines[:-1] if lines and is_line(lines[-1].removesuffix("\n")) else lines


def needed(lines, what):
    """The same of a sheet that has its seal: one that hasn't was cut short, and is refused."""
    if not lines or not is_line(lines[-1]):
        refuse(f"{what} was cut short, for the line of its seal is missing: run it again")
    return lines[:-1]


def begins_as_journal(path):
    """Whether a file begins as a journal does. Else it can only be notes."""
    try:
        with open(path, "rb") as file:
            return file.read(1) in FIRST_BYTES
    except OSError as error:
        refuse(f"{path} can't be read: {error.strerror}", 5)


def lines_of(path):
    """The lines of a file of notes, one that is too long in pieces."""
    try:
        with open(path, "rb") as file:
            yield from iter(lambda: file.readline(LONGEST), b"")
    except OSError as error:
        refuse(f"{path} can't be read: {error.strerror}", 5)


def notes_of(path):
    """The notes of a file, a line each. A line that is none is refused, and so is one that doesn't end, since the next note would join it."""
    notes = []
    for at, line in enumerate(lines_of(path), 1):
        note = line.removesuffix(b"\n").decode("ascii", "replace")
        if line.startswith(MARKS):
            refuse(f"{path}, line {at}: this begins with a byte-order mark, and notes are plain text: save it without one", 2)
        if not is_line(note):
            refuse(f"{path}, line {at}: this is no note: a note is `sealed N HEX`, as report seal prints it, HEX of 64 digits in lower case", 2)
        if not line.endswith(b"\n"):
            refuse(f"{path}, line {at}: this note has no line end, and the next one would join it: end it by: echo >> {path}", 2)
        notes.append(note)
    if not notes:
        refuse(f"{path} is empty: it is no copy of a journal, and has no note", 2)
    return notes


def since(office, path):
    """Whether all that a copy holds, or all that notes name, stands in the journal still."""
    return copies.since(office, path) if not os.path.isfile(path) or begins_as_journal(path) else since_notes(office, path)


def since_of_desk(office, path):
    """The same of notes alone: the program compares no copies of a desk's journal."""
    if not os.path.isfile(path):
        refuse(f"there is no file {path}", 2)
    if begins_as_journal(path):
        refuse(f"{path} is no notes: a desk's since takes lines `sealed N HEX`, as report seal prints them", 2)
    return since_notes(office, path)


def since_notes(office, path):
    """Whether each note of a file is the seal of so many filings at the front of the journal; one run tells of all of them."""
    notes = notes_of(path)
    office.refuse_hurt(office.journal)
    status, text = copies.needs_copy(office, ["report", "seals"])
    if status:
        office.write(text)
        office.say_status(status)
        return status
    missing, count = set(notes), -1
    for line in io.BytesIO(text):
        words = line.decode("ascii", "replace").removesuffix("\n")
        if is_line(words):
            missing.discard(words)
            count += 1
    if text.splitlines()[-1:] != [b"rows %d" % (count + 1)]:
        refuse(f"the seals of {office.journal} were cut short: run it again")
    if not missing:
        print(f"the {len(notes)} notes of {path} stand in {office.journal}")
        return 0
    at = next(at for at, note in enumerate(notes) if note in missing)
    named = int(notes[at].split()[1])
    says = f"has another seal of its first {named} filings" if named <= count else f"has {count} filings, fewer than {named}"
    print(f"{office.journal} {says}: line {at + 1} of {path} is {notes[at]}")
    return 1
