"""The table of commands: the words of each, what it is for, and what runs it. Help, completion, the man page and the judging of words go by it."""
from dataclasses import dataclass

from . import amending, approval, asking, before, copies, explain, guide, ids, installing, letter, lint, plot, program, reconcile, rows, seals, serving, settings, show, tables
from .program import AID, AUDIT, CLOCK, LOANS, SHEET, WORK
from .words import CLERK, DAY, NUMBER, ROUND_NUMBER, SCHOOL, SOME_SCHOOL, STUDENT, TERM, YEAR, Argument, choice, number, optional, path, rest

NAMES = ("--names", "shows the id and the name of each student, of JOURNAL.ids.csv"),
NO_NAMES = ("--names", "is refused, since an export goes to an auditor as it is"),


@dataclass(frozen=True)
class Command:
    """A command: its words, what it is for, and the function that runs it, on an office or, without a journal, on the words behind."""
    name: str
    run: object
    arguments: tuple
    purpose: str
    example: str
    input: str = ""         # what is read from standard input
    desk: str = ""          # the desk of the program that these very words are handed to
    files: bool = False     # whether it files into the journal
    copy: bool = False      # whether it runs on a copy of it
    flags: tuple = ()       # words with hyphens that may stand behind, each with what it does

    @property
    def usage(self):
        """Its words."""
        given = f"< {self.input}" if self.input else ""
        return " ".join(filter(None, [self.name, *(argument.usage for argument in self.arguments), given]))

    def fits(self, words):
        """Whether there are as many words behind it as it takes."""
        least = sum(not argument.may_miss for argument in self.arguments)
        return least <= len(words) <= sum(argument.most for argument in self.arguments)


def filed(office, *_):
    """Files what the program files."""
    return office.file()


def read(office, *_):
    """Reads on a copy."""
    return office.read_only()


def sheet(office, *_):
    """A sheet of a copy."""
    return office.sheet()


def filing(name, arguments, purpose, example, given="", desk=AID):
    """A command that files."""
    return Command(name, filed, arguments, purpose, example, given, desk, files=True)


def reading(name, arguments, purpose, example, run=read, flags=NAMES):
    """A command that the program runs on a copy."""
    return Command(name, run, arguments, purpose, example, desk=SHEET if run is sheet else AID, copy=True, flags=flags)


def own(name, run, arguments, purpose, example, copy=True, **more):
    """A command of the script alone."""
    return Command(name, run, arguments, purpose, example, copy=copy, **more)


AGAIN = ("--again", "files also what is on file under another number"),
TABLE = ("--table", "prints the table of who gets what alone"), ("--csv", "prints it as comma-separated values"), *NAMES
ROWS, FILES, BOOK = path("ROWS.csv"), path("ROWS.csv", most=16), path("BOOK.toml")
A_WORD = lambda word: ""        # nothing is wrong with any
A_COPY, A_NEW, A_COPY_OR_NOTES = Argument("COPY", "a file", A_WORD), Argument("NEW", "a new file", A_WORD), Argument("COPY|NOTES", "a file", A_WORD)
PLACE, OF_TERM = (SCHOOL, STUDENT, YEAR, TERM), (SOME_SCHOOL, YEAR, TERM)
EXPORT = (
    Argument("whole", "of up to 1,000,000 filings and 1 GiB, by the index of the office", A_WORD, True),
    Argument("N HEX|NOTES", "a note of a seal, N 0 to 4294967295 and HEX 64 digits in lower case, or a file of notes, of which the last one counts", A_WORD, True),
)
FUND = SCHOOL, YEAR, TERM, number("AMOUNT", 1, 99_999_999), choice("level", "quarter"), ROUND_NUMBER
MADE_UP = number("SEED", 0, 999_999_999_999), number("STUDENTS", 1, 20_000)
SERVER = number("PORT", 1, 65_535), number("WORKERS", 1, 16), number("SESSIONS", 1, 1_000_000)
TRIED = rest("COMMAND", "file, intake, book, fund, desks, generate or amend with its words, or need STUDENT YEAR < APPLY.csv")
STAMPED = DAY, CLERK, rest("COMMAND", "a command with its words")
THEN = number("POSITION", 1, 4_294_967_295), rest("SHEET", "a sheet, or report, with its words")
REPORTS = {
    "standing": "where each student with an application in the year stands", "awards": "what each student has of each program in each term",
    "returns": "what withdrawals return", "lifetime": "the lifetime use of each student", "stamps": "when each filing was filed, and by whom",
}
SEALS = {"seal": "the seal that names all filings, to be noted elsewhere", "seals": "the seal of each front of them"}
YEARLY = ("standing", "awards", "returns", "export")


def report(which, purpose, flags=NAMES):
    """A report of the office."""
    of_year = which in YEARLY
    return reading(f"report {which}", (YEAR,) * of_year, purpose, f"report {which}{' 2025' * of_year}", flags=flags)


def report_as_csv(which, purpose):
    """The same as comma-separated values."""
    of_year = which in YEARLY
    run = lambda office, *year: tables.csv(office, which, *year)
    return own(f"csv {which}", run, (YEAR,) * of_year, f"{purpose}, as CSV", f"csv {which}{' 2025' * of_year}", flags=NAMES)


def set_stamps(office, word):
    """Sets whether a filing needs a stamp."""
    return settings.settings(office, "stamps", word)


# Of an office in a journal. A stamp may stand in front of each: `at DAY CLERK`.
ON_JOURNAL = [
    Command("found", copies.found, (), "founds an office there", "found", desk=AID),
    filing("book", (NUMBER,), "files a year book under school 0 and this number", "book 1 < examples/2025.toml", "BOOK.toml"),
    filing("file", (), "files rows; 1 where one isn't on file", "file < examples/year.csv", "ROWS.csv"),
    own(
        "intake", before.take_in, (ROWS, path("LEFT.csv", may_miss=True)), "the same of a file; LEFT gets rows not on file",
        "intake examples/year.csv left.csv", copy=False, files=True, flags=AGAIN,
    ),
    filing("desks", (FILES,), "files 1 to 16 files at once", "desks examples/first.csv examples/year.csv"),
    filing("fund", FUND, "awards a fund of FSEOG", "fund 110 2025 1 600 level 50"),
    filing("generate", MADE_UP, "files a made-up year, to try it with", "generate 7 20 < examples/2025.toml", "BOOK.toml"),
    Command("serve", serving.serve, SERVER, "answers HTTP on 127.0.0.1 (docs/HTTP.md)", "serve 8080 4 1000000", desk=AID, files=True),
    own("dry", None, (TRIED,), "tries a command that files, on a copy", "dry file < examples/year.csv", flags=(*AGAIN, *TABLE)),
    own("at", None, STAMPED, "stamps what it files with day and name", "at 2025-09-01 brown file < examples/year.csv", copy=False),
    own("upgrade", copies.upgrade, (path("OLD"),), "founds an office of what OLD (version 1) holds", "upgrade old.journal", copy=False),
    own(
        "amend", amending.amend, (path("NEW"), number("NUMBER", 1, 999_000_000_000)), "copies it with corrections (docs/KEEPING.md)",
        "at 2026-02-12 brown amend new.journal 900 < corrections.csv", copy=False, input="CORRECTIONS.csv",
    ),
    own("settings", settings.settings, (), "what is set", "settings", copy=False),
    own(
        "settings stamps", set_stamps, (choice("required", "optional"),), "sets whether a filing needs a stamp", "settings stamps required",
        copy=False,
    ),
    reading("quote", PLACE, "the greatest Pell payment in whole dollars", "quote 110 5001 2025 1", asking.quote),
    own("why", asking.why, PLACE, "that quote, and why not one dollar more", "why 120 5001 2025 1", desk=AID),
    *(report(which, purpose) for which, purpose in REPORTS.items()),
    *(report(which, purpose, ()) for which, purpose in SEALS.items()),
    report("export", "all filings, for an auditor", NO_NAMES),
    *(report_as_csv(which, purpose) for which, purpose in REPORTS.items()),
    reading("list", (), "what was filed, each filing as a row", "list", sheet),
    reading("student", (STUDENT,), "all about one student", "student 5001", sheet),
    reading("need", (STUDENT, YEAR), "how an index and its award came about", "need 5001 2025", sheet),
    reading("review", (STUDENT, YEAR), "all of a student's year, for whoever reviews it", "review 5001 2025", sheet),
    reading("quotes", OF_TERM, "what may be paid to each student of a term", "quotes 110 2025 1", sheet),
    reading("payments", OF_TERM, "what moved in a term", "payments 120 2025 2", sheet),
    reading("withdrawal", (SOME_SCHOOL, STUDENT, YEAR, TERM), "the worksheet of a withdrawal", "withdrawal 120 5001 2025 2", sheet),
    reading("due", (DAY, SOME_SCHOOL), "what is to be sent back; 1 where it is late", "due 2026-03-23 120", sheet),
    reading("returns", (SOME_SCHOOL, YEAR), "what came of the returns of a year", "returns 120 2025", sheet),
    reading("book show", (YEAR,), "the year's book on file, as the text that files it", "book show 2025", sheet, ()),
    reading("upto", THEN, "a sheet as it was then (docs/SHEETS.md)", "upto 10 quotes 110 2025 1", sheet),
    own("letter", letter.letter, (SOME_SCHOOL, STUDENT, YEAR, TERM), "a letter to a student who withdrew", "letter 120 5001 2025 2"),
    own("lint", lint.lint_office, (), "names filings that look wrong, or are paid twice", "lint < examples/year.csv", input="ROWS.csv"),
    own(
        "rows", rows.run_office, (Argument("WORD", "the words of rows", A_WORD, True, 9),), "makes rows of a sheet's CSV, in which ids may stand",
        "rows pay 110 600 < sheet.csv", copy=False, input="SHEET.csv",
    ),
    own("ids", ids.check, (), "checks the ids and names in JOURNAL.ids.csv", "ids", copy=False),
    own("next", tables.next_number, (SCHOOL,), "the number of the school's next row", "next 110"),
    own("backup", copies.backup, (A_COPY,), "copies the office, and opens the copy", "backup copy.journal"),
    own("since", seals.since, (A_COPY_OR_NOTES,), "whether all that a copy or notes of seals name stands", "since copy.journal"),
    own("changes", amending.changes, (path("OLD"),), "what differs between OLD and this office; 1 where something does", "changes old.journal"),
    own("salvage", copies.salvage, (A_NEW,), "makes an office of what stands before damage", "salvage saved.journal"),
]


def seals_of(desk):
    """The commands that tell the seals of a desk's filings."""
    told = [Command(f"report {which}", read, (), purpose, f"report {which}", desk=desk, copy=True) for which, purpose in SEALS.items()]
    first = Argument("REPORT", "report seal or report seals", A_WORD, False, 2)
    return [
        *told,
        Command("upto", read, (THEN[0], first), "either as it was then", "upto 3 report seal", desk=desk, copy=True),
        Command("since", seals.since_of_desk, (Argument("NOTES", "a file", A_WORD),), "whether all that notes of seals name stands", "since notes.txt", copy=True),
    ]


OF_LOANS = [
    Command("found", copies.found, (), "founds a loan office there", "found", desk=LOANS),
    filing("file", (), "files rows", "file < examples/loans.csv", "ROWS.csv", LOANS),
    filing("desks", (FILES,), "files 1 to 16 files at once", "desks examples/loans.csv", desk=LOANS),
    *seals_of(LOANS),
]
OF_ROUND = choice("101", "102"), YEAR, ROUND_NUMBER
OF_WORK = [
    Command("found", copies.found, (), "founds a work-study office there", "found", desk=WORK),
    filing("file", (), "files rows", "file < examples/work.csv", "ROWS.csv", WORK),
    Command(
        "round", approval.work_round, OF_ROUND, "awards the rest of a fund", "round 101 2025 10 < examples/work-round.csv", "STUDENTS.csv", WORK,
        files=True, flags=TABLE,
    ),
    Command(
        "dry round", approval.dry_round, OF_ROUND, "tries a round, on a copy", "dry round 101 2025 10 < examples/work-round.csv", "STUDENTS.csv",
        copy=True, flags=TABLE,
    ),
    *seals_of(WORK),
]
OTHER_DESKS = {LOANS: (OF_LOANS, "loan office", ""), WORK: (OF_WORK, "work-study office", ", a round under further numbers")}

# Without a journal.
TOOLS = [
    Command(
        "help", guide.help_on, (Argument("COMMAND", "a command", A_WORD, True, 2),), "all words, or those of a command with an example",
        "help report awards",
    ),
    Command("--version", lambda words: program.version(), (), "which version, commit and program this is", "--version"),
    Command("demo", lambda words: asking.demo(), (), "files a worked year into an office that goes", "demo"),
    Command("check", asking.check, (choice("rows", "book"),), "judges rows or a book; 1 on an error", "check rows < examples/year.csv", "FILE"),
    Command(
        "explain", explain.run, (path("ROWS.csv", may_miss=True),), "says refusals, errors and faults in words",
        "explain examples/year.csv < lines.txt", "LINES",
    ),
    Command("lint", lint.run, (), "names filings that look wrong; 1 where some do", "lint < examples/year.csv", "ROWS.csv"),
    Command(
        "rows", rows.run, tuple(Argument(name, "", A_WORD, True) for name in ("KIND", "SCHOOL", "NUMBER")), "rows of a sheet; --template too",
        "rows pay 110 600 < sheet.csv", "SHEET.csv",
    ),
    Command(
        "book-row", amending.book_row, (number("REASON", 1, 7), number("REFERENCE", 0, 999_999_999_999), NUMBER), "the row that corrects a book",
        "book-row 1 0 1 < examples/2025.toml", "BOOK.toml",
    ),
    Command("show", show.run, (BOOK, path("BEFORE.toml", may_miss=True)), "prints a year book in words and units", "show examples/2026.toml"),
    Command(
        "plot", plot.run, (choice("standing", "awards", "returns", "lifetime"), optional(YEAR), path("PICTURE.svg", may_miss=True)),
        "draws a report, in text where PICTURE is -", "plot awards 2025 - < awards.txt", "REPORT",
    ),
    Command(
        "reconcile", reconcile.run, (path("LEDGER.csv"),), "compares a ledger with payments or awards", "reconcile ledger.csv < payments.csv",
        "PAYMENTS",
    ),
    Command(
        "pay-rows", tables.pay_rows, (SOME_SCHOOL, YEAR, TERM, NUMBER), "makes rows that pay these", "pay-rows 110 2025 1 600 < quotes.csv",
        "QUOTES",
    ),
    Command("carry", tables.carry, (NUMBER,), "makes rows of prior use for the next office", "carry 100 < lifetime.txt", "LIFETIME"),
    Command(AUDIT, asking.audit, EXPORT, "checks an export (docs/AUDIT.md)", "audit < export.txt", "EXPORT"),
    Command(CLOCK, lambda words: asking.clock(), (), "answers rows of clock-hour programs", "clock < rows.csv", "ROWS.csv"),
    Command(LOANS, None, (path("JOURNAL"), rest("COMMAND", "found, file, desks, report, upto or since")), "the Direct Loan desk (docs/DESKS.md)", "loans loans.journal found"),
    Command(WORK, None, (path("JOURNAL"), rest("COMMAND", "found, file, round or dry round")), "the work-study fund (docs/DESKS.md)", "work work.journal found"),
    Command("completion", guide.completion, (choice("bash", "zsh"),), "prints what completes these words in a shell", "completion bash > office.bash"),
    Command("man", guide.man, (), "prints this as a manual page", "man > office.1"),
    Command("install", installing.install, (path("PREFIX"),), "puts all of this under a folder, as PREFIX/bin/office", "install ~/.local"),
]
# Tools that say themselves what is wrong with their words.
JUDGE_THEMSELVES = (AUDIT, "lint", "rows", "show", "plot", "reconcile", "pay-rows", "carry")


def table_of(commands):
    """The commands by name."""
    return {command.name: command for command in commands}


def first_words(commands):
    """The first words of some commands."""
    return list(dict.fromkeys(command.name.split()[0] for command in commands))
