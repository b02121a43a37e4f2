"""What is set for a journal, in a small file beside it."""
import os

from . import copies
from .say import refuse, say

STAMPS = "stamps required"


def path_of(journal):
    """Where the settings of a journal stand: beside the file itself, also where a link to it is said."""
    return f"{os.path.realpath(journal) if os.path.islink(journal) else journal}.settings"


def stamps_required(journal):
    """Whether a filing in this journal needs a stamp."""
    try:
        with open(path_of(journal), encoding="utf-8", errors="replace") as file:
            return STAMPS in file.read().splitlines()
    except FileNotFoundError:
        return False
    except OSError as error:
        refuse(f"{path_of(journal)} can't be read: {error.strerror}", 2)


def settings(office, *words):
    """Prints what is set, or sets whether filings need a stamp."""
    path = path_of(office.journal)
    if words:
        part = f"{path}.part"
        copies.Left.parts.append(part)
        try:
            with open(os.open(part, os.O_WRONLY | os.O_CREAT | os.O_TRUNC, 0o600), "w", encoding="ascii") as file:
                file.write(f"stamps {words[1]}\n")
            os.replace(part, path)
        except OSError as error:
            refuse(f"{path} can't be written: {error.strerror}", 5)
        copies.Left.parts.remove(part)
    print(f"stamps {'required' if stamps_required(office.journal) else 'optional'}")
    return 0


def look_at_stamp(office, command):
    """Refuses a filing without a stamp where one is required."""
    if not office.stamp and stamps_required(office.journal):
        refuse(
            f"a filing in {office.journal} needs a stamp: office {office.journal} at DAY CLERK {command} (office {office.journal} settings stamps "
            "optional lets it be)", 2,
        )


def say_unstamped(office):
    """Says that what is filed has no name and no day."""
    say(f"what this run files has no name and no day: office {office.journal} at DAY CLERK .. stamps it")
