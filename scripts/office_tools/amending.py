"""Copies an office into a new one with corrections of what was filed wrong, tells what differs between the two, and makes the row that corrects
a year book."""
import os

from . import copies, running
from .office import Office
from .program import SHEET
from .say import AMENDED, refuse, say_known

WANTS_STAMP = "amend wants the day and the clerk who corrects: office JOURNAL at DAY CLERK amend NEW NUMBER < CORRECTIONS.csv"

# The digits of the stamp of nobody, 1970-01-01 and no name, in front of those of a filing in an export.
STAMP_DIGITS = 10

# The line in front of a fault of the older journal.
IN_OLD = b"in the old journal\n"


def look_at_stamp(office):
    """Refuses corrections under no stamp: who corrected, and when, is on file with each."""
    if not office.stamp:
        office.write(b"fault usage\n")
        refuse(WANTS_STAMP, 2)


def made(office, number, path):
    """The status of the program, which makes the new office at a path."""
    return office.run(["amend", office.journal, number], path, given=running.INPUT)


def told(office, status, new):
    """Says what a status means, and returns it."""
    say_known(AMENDED, status, new=new, old=office.journal)
    return status


def amend(office, new, number):
    """Copies the office into a new one with corrections, which has its name once all of it is there."""
    old = office.journal
    look_at_stamp(office)
    if os.path.exists(new) and os.path.exists(old) and os.path.samefile(new, old):
        refuse(f"{new} is the office itself: name a new file behind amend", 2)
    copies.look_before_found(new)
    office.refuse_hurt(old)
    if not copies.may_be_founded(new):
        return told(office, made(office, number, new), new)
    part, was_there = copies.part_of(new, "an amendment"), copies.is_there(new)
    try:
        copies.opened_alone(part, os.O_EXCL).close()
    except OSError as error:
        refuse(f"{part} can't be written: {error.strerror}; mend that, and run it again; {old} is as it was", 5)
    copies.Left.parts.append(part)
    status = made(office, number, part)
    if status:
        return told(office, status, new)
    if not copies.may_be_founded(new):
        refuse(f"{new} became an office meanwhile, and is as it is: name another file behind amend; {old} is as it was", 6)
    # what is there holds no office
    os.replace(part, new) if was_there else copies.name_new(part, new)
    copies.sync(copies.folder_of(new))
    return 0


def try_amend(office, new, number):
    """Tries it: the same text, and nothing is made."""
    look_at_stamp(office)
    office.refuse_hurt(office.journal)
    return told(office, made(office, number, copies.needs_scratch("amended")), new)


def changes(office, old):
    """Tells what differs between an older journal and the office, of copies of both. 1 where something does."""
    if not os.path.isfile(old):
        refuse(f"{old} is no file that can be read: name an older journal, or a copy that backup made", 2)
    for path in (old, office.journal):
        office.refuse_hurt(path)
    one, other, text = (copies.needs_scratch(name) for name in ("old", "copy", "text"))
    office.desk, office.stamp = SHEET, []

    def once():
        for path, copy in ((old, one), (office.journal, other)):
            if not copies.copy_to(path, copy):
                copies.refuse_copy(path)
        with open(text, "wb") as out:
            return office.run(["changes", one], other, out=out)

    status, said = copies.tries(once), copies.text_of(text)
    if office.write(said):
        return 4
    office.say_status(status, old if said.startswith(IN_OLD) else office.journal)
    return status or (0 if said.endswith(b" differ 0\n") else 1)


def book_row(words):
    """Prints the row of corrections that puts a year book in the place of the one with its number."""
    reason, reference, number = words
    path, text = copies.needs_scratch("book"), copies.needs_scratch("row")
    office = Office(path, ["book", number])
    for words, given in ((["found"], None), (office.words, running.INPUT), (["report", "export", "2025"], None)):
        with open(text, "wb") as out:
            status = office.run(words, out=out, given=given)
        if status:
            office.hand_on(text)
            office.say_status(status, "the year book")
            return status
        if words == office.words and not copies.text_of(text).split(b" ")[2:3] == [b"accepted"]:
            office.hand_on(text)
            return 1
    digits = copies.text_of(text).split(b"\n", 1)[0].split(b" ")[1]
    return office.write(b"replace,%s,%s,digits,%s\n" % (reason.encode(), reference.encode(), digits[STAMP_DIGITS:]))
