"""A letter to a student about a withdrawal: what the sheet `withdrawal` says, in plain English, each figure with its box.

usage: office JOURNAL letter SCHOOL STUDENT YEAR TERM     the name is that of JOURNAL.ids.csv, where there is one
"""
import os
import re
import textwrap

from . import ids, seals
from .say import refuse

NAMES = {
    "unsub": "Direct Unsubsidized Loan", "sub": "Direct Subsidized Loan", "plus": "Direct PLUS Loan", "pell": "Federal Pell Grant",
    "fseog": "Supplemental Grant (FSEOG)", "teach": "TEACH Grant",
}
LOANS, GRANTS = ("unsub", "sub", "plus"), ("pell", "fseog", "teach")
HEAD = re.compile(r"withdrawal at \d+, number \d+: last day (\S+), determined ([^\s,]+)(?:, return due (\S+))?")
LINE = re.compile(r"([A-Z]|) ?\s*(\S.*?)\s{2,}(\S.*)")
UNEARNED = "dollars were not earned, and the school doesn't send them back (box Q)."
WIDTH = 78


class Worksheet:
    """The figures of a sheet: those of each program and of all by the box, or by the name of a line without one."""

    def __init__(self, lines):
        head = HEAD.fullmatch(lines[1]) if len(lines) > 3 else None
        if not head:
            refuse("the sheet of the withdrawal can't be read")
        self.last, self.determined, self.due = head.groups()
        programs, self.figures = lines[2].split(), {}
        for line in lines[3:]:
            box, name, figures = LINE.fullmatch(line).groups()
            figures = figures.split()
            self.figures[box or name] = dict(zip(programs if len(figures) > 1 else ["all"], figures))

    def all(self, name):
        """The figure of all programs."""
        return self.figures[name]["all"]

    def of(self, name, programs=tuple(NAMES)):
        """The programs of which a line has a figure above 0, each with it."""
        return {program: self.figures[name][program] for program in programs if is_above(self.figures[name][program])}

    @property
    def owes(self):
        """The grants of which the student owes something."""
        return self.of("owed, program by program", GRANTS)


def is_above(figure):
    """Whether a figure is above 0."""
    return figure.strip("0.") != ""


def list_of(figures, box):
    """A line for each program."""
    return [f"  {NAMES[program]:<44}{figure:>14}   {box}" for program, figure in figures.items()]


def paragraph(*sentences):
    """Sentences as lines of a page."""
    return [*textwrap.wrap(" ".join(filter(None, sentences)), WIDTH), ""]


def paid(sheet):
    """What was paid, and what else could have been."""
    could = sheet.of("could have been disbursed")
    yield from ["WHAT WAS PAID", *list_of(sheet.of("E"), "box E"), f"  {'in all':<44}{sheet.all('E'):>14}   box E", ""]
    if could:
        yield from ["and could have been paid:", *list_of(could, "not paid yet"), ""]


def earned(sheet):
    """How much of the term was completed, and what was earned."""
    yield "HOW MUCH OF IT YOU EARNED"
    yield from paragraph(
        f"The term has {sheet.all('days of the term')} days, and you completed {sheet.all('days completed')} of them: you earned {sheet.all('H')} "
        "percent of your aid (box H).",
        "Whoever completes more than 60 percent of a term has earned all of it." if sheet.all("H") == "100.0" else "",
        f"Of {sheet.all('G')} dollars (box G) that is {sheet.all('I')} (box I).",
        f"{sheet.all('K')} dollars of what was paid were not earned (box K)." if is_above(sheet.all("K")) else "All that was paid was earned.",
    )


def still_paid(sheet):
    """What may still be paid."""
    if is_above(sheet.all("J")):
        yield "WHAT MAY STILL BE PAID"
        yield from paragraph(
            f"You earned {sheet.all('J')} dollars more than was paid (box J), which may still be paid. The school writes to you about it. "
            f"A loan is paid only if you say that you want it. Paid since: {sheet.all('paid since')}.",
        )


def sent_back(sheet):
    """What the school sends back."""
    yield "WHAT THE SCHOOL SENDS BACK"
    if not is_above(sheet.all("O")):
        yield from paragraph("Nothing (box O).")
        return
    due = "" if sheet.due == "none" else f" by {sheet.due}"
    yield from paragraph(
        f"Your charges of the term were {sheet.all('L')} dollars (box L). {sheet.all('M')} percent of the aid were not earned (box M), and of the "
        f"charges that is {sheet.all('N')} dollars (box N). The school sends back the lesser of box K and box N{due}. You may owe the school what it "
        "sends back; it tells you by a bill of its own.",
    )
    yield from [*list_of(sheet.of("O"), "box O"), ""]


def owed(sheet):
    """What the student owes, and why."""
    yield "WHAT YOU OWE"
    loans, laid = sheet.of("Q", LOANS), sheet.of("Q", GRANTS)
    if loans:
        yield from paragraph(
            "Of your loans these parts were not earned and are yours to repay.",
            "You repay them under the terms of the loan, and needn't do anything now.",
        )
        yield from [*list_of(loans, "box Q"), ""]
    for program, figure in laid.items():
        half, owes = (sheet.figures[name][program] for name in ("half of both, of grants", "owed, program by program"))
        if program in sheet.owes:
            yield from paragraph(
                f"{NAMES[program]}: {figure} {UNEARNED} You may keep {half}, half of the grant. So you owe {owes}, of which you repaid "
                f"{sheet.figures['repaid since'][program]}. You still owe {sheet.figures['still owed'][program]}.",
            )
        else:
            yield from paragraph(
                f"{NAMES[program]}: {figure} {UNEARNED} You may keep {half}, half of the grant, and needn't repay 50 dollars or less. So you owe "
                "nothing of it.",
            )
    if not loans and not laid:
        yield from paragraph("Nothing (box Q).")


def by_when(sheet):
    """By when what is still owed has to be paid."""
    if is_above(sheet.all("still owed")):
        yield "BY WHEN"
        yield from paragraph(
            f"Within 45 days of the date of this letter pay {sheet.all('still owed')} dollars to the school, or make an arrangement with it or with "
            "the Department of Education to repay them. Until then you can go on having federal student aid. After that day you can't, until this is "
            "settled (34 CFR 668.22(h)(4)).",
        )


def page(sheet, known, school, student, year, term):
    """The lines of the letter."""
    name = f"{known.in_words(student)}, " if known.in_words(student) else ""
    yield f"To:     {name}student {student}"
    yield f"About:  your withdrawal from term {term} of the award year {year}-{(int(year) + 1) % 100:02}, school {school}"
    yield ""
    yield from paragraph(
        f"The last day that you attended was {sheet.last}, and on {sheet.determined} the school determined that you had withdrawn. Federal law says "
        "how much of your aid you had earned by then, what the school has to send back, and what you owe (34 CFR 668.22). The boxes are those of the "
        "Department of Education's worksheet; ask the school for yours. All figures are dollars.",
    )
    for part in (paid, earned, still_paid, sent_back, owed, by_when):
        yield from part(sheet)
    yield "WHOM TO ASK"
    yield f"The financial aid office of school {school}: ______________________________________"
    yield ""
    yield "Date ____________________   Signed ____________________________"


def letter(office, school, student, year, term):
    """Prints the letter on a withdrawal."""
    known = ids.read(office.journal) if os.path.isfile(ids.path_of(office.journal)) else ids.Known()
    lines = ids.text_of(office, ["withdrawal", school, student, year, term]).splitlines()
    sheet = Worksheet(seals.needed(lines, "the worksheet of the withdrawal"))
    if len(sheet.owes) > 1:
        refuse(
            f"student {student} owes of more than one grant: only box U of the Department's worksheet may be asked then, so write by hand",
        )
    for line in page(sheet, known, school, student, year, term):
        print(line)
    return 0
