"""The words of commands: what is refused, and that the program refuses the same."""
import os
import subprocess
import tempfile
import unittest

from office_tools import dispatch, guide
from office_tools.commands import ON_JOURNAL, TOOLS, table_of
from office_tools.program import AID, FIRST_WORDS, SHEET, front
from office_tools.words import CLERK, DAY, NUMBER, ROUND_NUMBER, SCHOOL, SOME_SCHOOL, STUDENT, TERM, YEAR, first_wrong, near

# Words by the limits of docs/FILINGS.md, docs/ANSWERS.md and docs/SHEETS.md: those that are right, and those that aren't.
LIMITS = [
    (SCHOOL, "0 110 999999", "1000000 -1 01 +1 1.0 x"), (SOME_SCHOOL, "1 999999", "0 1000000"), (STUDENT, "1 999999999999", "0 1000000000000 05001"),
    (YEAR, "2000 2025 2099", "1999 2100 25 02025 2025-26"), (TERM, "1 8", "0 9 01"), (NUMBER, "1 999999999999", "0 1000000000000"),
    (ROUND_NUMBER, "1 999999000000", "0 999999000001"), (DAY, "1900-01-01 2024-02-29 9999-12-31", "1899-12-31 2025-02-29 2025-9-1 25-09-01 20250901 2025-09-01x"),
    (CLERK, "brown Smith-2 a.b_c " + "x" * 32, "-b b/c " + "x" * 33 + " r\u00e9n\u00e9"),
]
GOOD = {
    "SCHOOL": "110", "STUDENT": "5001", "YEAR": "2025", "TERM": "1", "NUMBER": "50", "AMOUNT": "600", "level|quarter": "level", "SEED": "7", "STUDENTS": "3", "POSITION": "4",
}


class Limits(unittest.TestCase):
    """Each argument takes what the pages say, and no more."""

    def test_each(self):
        for argument, right, wrong in LIMITS:
            for word in right.split():
                self.assertEqual(argument.wrong(word), "", f"{argument.name} {word}")
            for word in [*wrong.split(), "", " ", f" {right.split()[0]}", f"{right.split()[0]}\n", "\u0661"]:
                self.assertNotEqual(argument.wrong(word), "", f"{argument.name} {word!r}")

    def test_sentences(self):
        self.assertEqual(first_wrong("report awards", (YEAR,), []), "report awards wants YEAR, 2000 to 2099")
        self.assertEqual(first_wrong("list", (), ["x"]), "list: `x` is one word too many")
        self.assertIn("a clerk's name has no blank", first_wrong("at", (DAY, CLERK), ["2025-09-01", "b b"]))
        self.assertEqual(near("flie", ["file", "found"]), "; is it file?")
        self.assertEqual(near("zzz", ["file", "found"]), "")


class SameAsProgram(unittest.TestCase):
    """The program ends with 2 exactly where the table finds words of its commands wrong."""

    def tries(self, command):
        """Words that are right, and those in which one is changed, misses or is too many."""
        right = [GOOD.get(argument.name, "1") for argument in command.arguments]
        yield right
        yield [*right, "1"]
        for at in range(len(right)):
            yield right[:at]
            for word in ["0", "x", "01", "1000000000000", "9", "-1", "1999", "2100", "", "1 "]:
                yield [*right[:at], word, *right[at + 1 :]]

    def compare(self, desk, *others):
        """Runs each try of a desk's commands, but for these others, on an office that is founded."""
        table = table_of(ON_JOURNAL)
        names = [command.name for command in ON_JOURNAL if command.desk == desk and command.name not in others]
        with tempfile.TemporaryDirectory() as folder:
            path = os.path.join(folder, "journal")
            subprocess.run([os.environ["OFFICE_PROGRAM"], path, "found"], stdout=subprocess.DEVNULL, check=True, timeout=60)
            for name in names:
                for words in self.tries(table[name]):
                    line = [os.environ["OFFICE_PROGRAM"], *front(desk, path), *name.split(), *words]
                    ended = subprocess.run(line, stdin=subprocess.DEVNULL, capture_output=True, timeout=60)
                    wrong = first_wrong(name, table[name].arguments, words)
                    self.assertEqual(ended.returncode == 2, bool(wrong), f"{name} {words}: {ended.returncode}, {wrong!r}")

    def test_office(self):
        self.compare(AID, "found", "serve", "desks", "why")

    def test_sheets(self):
        self.compare(SHEET, "upto")

    def test_front(self):
        """An aid journal that is named like a first word, or like a flag, is told apart from it."""
        for word in [*FIRST_WORDS, "-j"]:
            self.assertEqual(front(AID, word), [f"./{word}"])
        for path in ["./loans", "books/work", "/sheet", "loans.journal"]:
            self.assertEqual(front(AID, path), [path])
        self.assertEqual([front(SHEET, path) for path in ("sheet", "-j")], [["sheet", "sheet"], ["sheet", "./-j"]])


class Guide(unittest.TestCase):
    """Help, the manual and completion are of the table."""

    def test_help_has_each_command(self):
        text = guide.help_text()
        for command in [*ON_JOURNAL, *TOOLS]:
            for word in command.name.split():
                self.assertRegex(text, rf"(?<![a-z]){word}(?![a-z])")

    def test_examples_are_right(self):
        """The words of each example are those of its command, which may stand behind a stamp."""
        for command in ON_JOURNAL:
            words = command.example.split(" < ")[0].split()
            if command.name != "at" and words[0] == "at":
                words = words[3:]
            found, behind = dispatch.find(words, table_of(ON_JOURNAL))
            self.assertEqual((found.name, first_wrong(found.name, found.arguments, behind)), (command.name, ""))

    def test_desks(self):
        """Each command is of a desk that there is."""
        for command in ON_JOURNAL:
            self.assertIn(command.desk, ("", AID, SHEET))


if __name__ == "__main__":
    unittest.main()
