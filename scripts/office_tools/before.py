"""Looks at rows before they are filed: names payments and awards that are on file already under another number."""
import functools
import os

from . import approval, columns, copies, intake, listing, sheet, twice
from .say import refuse, say

# A journal that can't be opened is told by the run that files.
TOLD_LATER = (6, 7)


def paid_again(journal, rows):
    """The rows that give again what is on file, with nothing asked where no row gives."""
    if not any(twice.moves(row) for row in rows):
        return []
    return twice.of_list(rows, listing.of_journal(journal))


def look(journal, rows, name=twice.plainly):
    """Says which rows give again. The status: 1 where some do, and that of a list that can't be had."""
    try:
        again = paid_again(journal, rows)
    except listing.NotListed as failed:
        if failed.status in TOLD_LATER:
            return 0
        say("what is on file can't be listed, so whether it is paid twice isn't known")
        return failed.status
    for sentence in twice.sentences(again, rows, name):
        say(sentence)
    return 1 if again else 0


def take_in(office, path, left="", is_dry=False):
    """Files the rows of a file, or tries them on a copy, and nothing where they pay twice and `--again` isn't said."""
    refuse_sheet(path)
    approval.look_at_names(office)

    def before(rows):
        status = look(office.journal, rows)
        if status:
            say("nothing was filed: where it is to be paid once more, say --again behind intake")
        return status

    after = functools.partial(approval.show_intake, office) if is_dry else None
    return intake.intake(office, path, left, is_dry, None if "--again" in office.flags else before, after, approval.is_alone(office.flags))


def try_intake(office, path, left=""):
    """Tries `intake` on a copy, and prints who gets what."""
    return take_in(office, path, left, True)


def refuse_sheet(path):
    """Refuses a spreadsheet in place of rows, once for all its lines."""
    if not os.path.isfile(path) or not os.access(path, os.R_OK):
        return
    names = columns.headings_in(sheet.text_of(copies.text_of(path)))
    if names:
        shown = ", ".join(names[:4]) + (", .." if names[4:] else "")
        refuse(
            f"{path} is a spreadsheet with headings ({shown}), and no row of it was filed: make rows of it by office rows KIND SCHOOL NUMBER "
            f"< {path}, and file these",
        )


def names_of(paths, counts):
    """How a row is named by its number among those of all files."""
    def name(number):
        for path, count in zip(paths, counts):
            if number <= count:
                return f"row {number}" if len(paths) == 1 else f"{path}, row {number}"
            number -= count
        return f"row {number}"
    return name


def try_rows(office, *paths):
    """Tries `file` or `desks` on a copy, and names rows that give again: 1 where some do."""
    if not paths:
        copies.needs_scratch("rows")
        paths = [copies.keep_input("rows")]
    status = office.file(copies.try_on_copy(office))
    if status > 1:
        return status
    files = [intake.rows_of(path) for path in paths]
    found = look(office.journal, [row for rows in files for row in rows], names_of(paths, list(map(len, files))))
    return status or (0 if found == 1 and office.lenient else found)
