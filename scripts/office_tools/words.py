"""The words of commands: what each one has to be, and the first that isn't."""
import datetime
import difflib
import re
from dataclasses import dataclass

FIRST_DAY = "1900-01-01"


@dataclass(frozen=True)
class Argument:
    """A word behind a command: its name in a usage, what it may be in words, and a function that says what is wrong with one, or nothing."""
    name: str
    says: str
    wrong: object
    may_miss: bool = False
    most: int = 1           # so many may stand there

    @property
    def usage(self):
        """How a usage shows it."""
        shown = f"{self.name}.." if self.most > 1 else self.name
        return f"[{shown}]" if self.may_miss else shown


def number(name, low, high):
    """A whole number of this range, in its one spelling."""
    def wrong(word):
        if re.fullmatch(r"0|[1-9][0-9]{0,17}", word, re.ASCII) and low <= int(word) <= high:
            return ""
        return "past its limit" if re.fullmatch(r"0|[1-9][0-9]*", word, re.ASCII) else "no whole number"

    return Argument(name, f"{low} to {high}", wrong)


def choice(*names):
    """One of some words."""
    return Argument("|".join(names), " or ".join(names), lambda word: "" if word in names else "none of these")


def wrong_day(word):
    """What is wrong with a day."""
    try:
        right = re.fullmatch(r"[0-9]{4}-[0-9]{2}-[0-9]{2}", word, re.ASCII) and datetime.date.fromisoformat(word)
    except ValueError:
        return "no day of the calendar"
    return "" if right and word >= FIRST_DAY else "no day"


def wrong_clerk(word):
    """What is wrong with a clerk's name."""
    if not word:
        return "empty"
    if re.search(r"\s", word):
        return "no clerk's name: a clerk's name has no blank"
    if len(word.encode("utf-8", "surrogateescape")) > 32:
        return "too long for a clerk's name"
    if word.startswith("-"):
        return "no clerk's name: a clerk's name doesn't begin with a hyphen"
    return "" if re.fullmatch(r"[A-Za-z0-9._-]+", word, re.ASCII) else "no clerk's name: it has another sign"


def path(name, may_miss=False, most=1):
    """A file."""
    def wrong(word):
        return f"none: write ./{word} for a file of that name" if word.startswith("-") else ""

    return Argument(name, "a path that doesn't begin with -", wrong, may_miss, most)


def rest(name, says):
    """The words of another command."""
    return Argument(name, says, lambda word: "", most=99)


def optional(argument):
    """The same, where it may miss."""
    return Argument(argument.name, argument.says, argument.wrong, True)


SCHOOL, SOME_SCHOOL = number("SCHOOL", 0, 999_999), number("SCHOOL", 1, 999_999)
STUDENT, YEAR, TERM = number("STUDENT", 1, 999_999_999_999), number("YEAR", 2000, 2099), number("TERM", 1, 8)
NUMBER, ROUND_NUMBER = number("NUMBER", 1, 999_999_999_999), number("NUMBER", 1, 999_999_000_000)
DAY = Argument("DAY", "as 2025-09-01, 1900-01-01 to 9999-12-31", wrong_day)
CLERK = Argument("CLERK", "1 to 32 letters, digits, `.`, `_` and `-`, the first no `-`", wrong_clerk)


def first_wrong(name, arguments, words):
    """What is wrong with the words behind a command, or nothing."""
    waiting = list(words)
    for argument in arguments:
        if not waiting and not argument.may_miss:
            return f"{name} wants {argument.name}, {argument.says}"
        taken, waiting = waiting[: argument.most], waiting[argument.most :]
        for word in taken:
            if argument.wrong(word):
                return f"{name}: `{word}` is {argument.wrong(word)}; {argument.name} is {argument.says}"
    if waiting:
        return f"{name}: `{waiting[0]}` is one word too many"
    return ""


def near(word, names):
    """The name that a word may have been meant to be, as a question, or nothing."""
    found = difflib.get_close_matches(word, names, 1)
    return f"; is it {found[0]}?" if found else ""
