"""Why a quote isn't greater, a worked year that shows how an office works, and checks and audits without a journal."""
import os
import re

from . import TOP, book_line, copies, explain, running, seals
from .office import Office
from .program import AUDIT, CLOCK
from .say import AUDITED, MOST_OF_ROWS, MOST_OF_WHOLE, MOST_READ, refuse, say, say_known
from .words import number

EXAMPLES = os.path.join(TOP, "examples")


def answered(office, row, path):
    """What a row is answered on a new copy of the journal: the status and the text."""
    with open(path, "w", encoding="ascii") as file:
        file.write(f"{row}\n")
    copy = copies.try_on_copy(office)
    with open(path, "rb") as given, open(copies.scratch("text"), "wb") as text:
        status = office.run(["file"], copy, out=text, given=given)
    return status, copies.text_of(copies.scratch("text")).decode()


def paid(office, place, dollars):
    """What a payment of so many dollars is answered on a copy: the row, the status and the text."""
    school, student, year, term = place
    for number in (999_999_999_999, 999_999_999_998):
        row = f"pay,{school},{number},{student},{year},{term},pell,{dollars}.00"
        status, text = answered(office, row, copies.scratch("pay.csv"))
        # the school used this number
        if " refused 15 " not in text:
            break
    return row, status, text


def quote(office, *place):
    """A quote, and where it is 0 what isn't on file of the words."""
    status = office.read_only()
    text = copies.scratch("text")
    if status == 0 and text and os.path.exists(text) and copies.text_of(text) == b"quote 0\n":
        _, _, answer = paid(office, place, 1)
        school, student, year, term = place
        missing = {
            "12": f"there is no school {school} on file", "30": f"school {school} has no term {term} of {year} on file",
            "31": f"student {student} has no application for {year} on file",
        }.get("".join(answer.split()[3:4]))
        if missing:
            say(missing)
    return status


def why(office, *place):
    """A quote, and the answer to a payment of one dollar more on a copy, in words."""
    office.refuse_hurt(office.journal)
    status, text = copies.needs_copy(office, ["quote", *place])
    office.write(text)
    if status:
        office.say_status(status)
        return status
    row, status, text = paid(office, place, int(text.split()[1]) + 1)
    explain.explain(text.splitlines(), [row])
    return status


def demo():
    """Files a worked year into an office that goes, and says its answers in words."""
    office = Office(copies.needs_scratch("demo.journal"), [])
    status = office.run(["found"])
    if status == 0:
        with open(os.path.join(EXAMPLES, "2025.toml"), "rb") as book:
            status = office.run(["book", "1"], given=book)
    if status:
        return status
    rows = os.path.join(EXAMPLES, "year.csv")
    with open(rows, "rb") as given, open(copies.scratch("text"), "wb") as text:
        status = office.run(["file"], given=given, out=text)
    explain.explain(copies.text_of(copies.scratch("text")).decode().splitlines(), explain.rows_of(rows))
    return status


def judged(words, paths, is_good, explains=None):
    """The status of a run that judges standard input, and 1 where its last line isn't a good one, which is explained where it can be."""
    last = [b""]
    status = running.run(words, paths, given=running.INPUT, take=lambda line: last.__setitem__(0, line))
    why = explains(last[0]) if explains else None
    if why:
        say(why)
    return status or (0 if re.search(is_good, last[0]) else 1)


def check(words):
    """Judges rows or a book without an office: 1 where something is wrong."""
    line = [copies.needs_scratch("none.journal"), "check", *words]
    if words == ["rows"]:
        return judged(line, (0,), rb" errors 0$")
    copies.keep_input("book")
    return judged(line, (0,), rb"^1 fine$", book_line.where)


COUNT = number("N", 0, 4_294_967_295)
DIGITS = re.compile("[0-9a-f]{64}", re.ASCII)
USAGE = "office audit [whole] [N HEX|NOTES] < EXPORT"


def hint(line, whole, note):
    """What is said of a text that is none for its size alone, or by the note that it is held against."""
    cause = line.split()[-1] if line.startswith(b"no ") else b""
    if cause == b"9" and note[0] == "0":
        return "the note has another seal of no filing than an aid office has"
    if cause == b"9":
        return f"the first {note[0]} filings aren't those of which the note was taken, or stand in another order or under other stamps"
    if cause == b"10":
        return f"the export has fewer filings than the {note[0]} of the note"
    return "audit takes 20,000 filings: audit whole takes as many as an office has" if cause == b"8" and not whole else ""


def note_in(words):
    """The count and the digits of a note that the words say, or that is the last one of a file; none where they say nothing."""
    if not words:
        return []
    if len(words) > 2:
        refuse(f"audit: `{words[2]}` is one word too many: {USAGE}", 2)
    if len(words) == 1 and words[0].isdecimal():
        refuse(f"audit wants HEX behind N, 64 digits in lower case; write ./{words[0]} for a file of that name: {USAGE}", 2)
    if len(words) == 1:
        return last_note(words[0])
    count, digits = words
    if COUNT.wrong(count):
        refuse(f"audit: `{count}` is {COUNT.wrong(count)}; N is {COUNT.says}: {USAGE}", 2)
    if not DIGITS.fullmatch(digits):
        refuse(f"audit: `{digits}` is no seal; HEX is 64 digits in lower case: {USAGE}", 2)
    return words


def last_note(path):
    """The words of the last note of a file, which names the most filings where notes are taken one behind the other."""
    if path.startswith("-") or not os.path.isfile(path):
        refuse(f"there is no file {path}: audit takes N HEX, or a file of notes, behind it: {USAGE}", 2)
    return seals.notes_of(path)[-1].split()[1:]


def audit(words):
    """The auditor, which has no journal: an export is checked, by itself or held against a note. 1 where it isn't right."""
    whole = words[:1] == ["whole"]
    note = note_in(words[whole:])
    status = judged([AUDIT, *["whole"] * whole, *note], (), rb"^yes ", lambda line: hint(line, whole, note))
    say_known(AUDITED, status, most=MOST_OF_WHOLE if whole else MOST_READ)
    return status


def clock():
    """Rows of clock-hour programs, which have no journal, are answered."""
    status = running.run([CLOCK], (), given=running.INPUT)
    say_known(AUDITED, status, most=MOST_OF_ROWS)
    return status
