"""Where a book's first error stands: the specimen with one fault each, whose line is counted by hand."""
import os
import sys
import unittest

sys.dont_write_bytecode = True
TOP = os.path.dirname(os.path.dirname(os.path.dirname(os.path.abspath(__file__))))
sys.path.insert(0, os.path.join(TOP, "scripts"))
from office_tools import book_line, year_book

with open(os.path.join(TOP, "examples", "2025.toml"), encoding="utf-8") as file:
    BOOK = file.read()


def line(text):
    """The number of the specimen's first line of this text."""
    return BOOK.split("\n").index(text) + 1


class Lines(unittest.TestCase):
    def told(self, old, new, number, there, says):
        """The sentence on the specimen with one change. What the error is, the judge of books says, which was written apart."""
        data = BOOK.replace(old, new, 1).encode()
        with self.assertRaises(year_book.NotABook) as found:
            year_book.read(data)
        sentence = book_line.sentence(data, found.exception.line)
        self.assertIn(f"line {number}, `{there}`: ", sentence)
        self.assertIn(says, sentence)

    def test_no_toml(self):
        self.told("maximum = 7395", "maximum = 7,395", 6, "maximum = 7,395", "expected newline")
        self.told("[percent]", "[percent", line("[percent]"), "[percent", "")
        self.told("minimum = 740", "minimum = 99999999999999999999", 7, "minimum = 99999999999999999999", "more than 64 bits")

    def test_a_missing_field(self):
        self.told("minimum = 740\n", "", 5, "[pell]", "field 4, pell.minimum, isn't there")
        self.assertEqual(book_line.sentence(BOOK.replace("form = 1\n", "").encode(), "1 book 2 1"), "field 1, form, isn't there")

    def test_of_another_kind(self):
        self.told("minimum = 740", 'minimum = "740"', 7, 'minimum = "740"', "field 4, pell.minimum, isn't of its kind")
        self.told("maximum = 7395", "maximum = 7395.0", 6, "maximum = 7395.0", "field 3")
        self.told("alaska = [18210, ", "alaska = [", line("alaska_extra = 6430") - 1, "alaska = [24640, 31070, 37500, 43930, 50360, 56790, 63220]", "field 14, poverty.alaska")

    def test_out_of_range(self):
        self.told("year = 2025", "year = 25", 3, "year = 25", "field 2, year, is out of its range")
        self.told("minimum = 740", "minimum = 7400", 7, "minimum = 7400", "field 4")

    def test_in_a_table(self):
        rows = [at for at, text in enumerate(BOOK.split("\n"), 1) if text == "[[bracket]]"]
        at, last = rows[1], BOOK.split("\n")[rows[1] : rows[1] + 3]
        rate = next(text for text in last if text.startswith("rate"))
        data = BOOK.split("\n")
        data[at + last.index(rate)] = "rate = 20000"
        self.assertEqual(
            book_line.sentence("\n".join(data).encode(), "1 book 4 55"), f"line {at + last.index(rate) + 1}, `rate = 20000`: field 55, bracket.rate, is out of its range")
        self.assertIn(f"line {at}, `[[bracket]]`: row 2 of bracket", book_line.sentence(BOOK.encode(), "1 book 5 3 2"))

    def test_an_unknown_key(self):
        self.told("minimum = 740", "minimum = 740\nminimun = 740", 8, "minimun = 740", "pell.minimun is no key of a book")
        self.told("[pell]", "[pel]\nx = 1\n[pell]", 5, "[pel]", "pel is no key")
        self.assertEqual(book_line.places("a.b = 1\n[[t]]\n'c d' = 2\n[[t]]\n x=3\n"), {"a.b": 1, "t 1": 2, "t 1.c d": 3, "t 2": 4, "t 2.x": 5})

    def test_no_error_of_a_book(self):
        for answer in ["1 fine", "1 0 accepted 1 noted", "1 0 refused 11 1 2025", "fault usage"]:
            self.assertIsNone(book_line.sentence(BOOK.encode(), answer))

    def test_what_has_no_line(self):
        self.assertEqual(book_line.sentence(b"form = 1\nyear = 2025\n", "1 book 2 3"), "field 3, pell.maximum, isn't there")
        # an array that ends with a comma in front of its end in a table of one line is TOML of 1.1, which the office reads
        self.assertEqual(book_line.sentence(b"form = 1\nage = [{ from = 1,\n }]\n", "1 book 4 44"), "line 2, `age = [{ from = 1,`: field 44, age.from, is out of its range")
        self.assertEqual(book_line.sentence(b"form = 1\n", "1 book 1"), "the text is no TOML")
        self.assertIn("UTF-8", book_line.sentence(b"form = 1\n# \xff\n", "1 book 1"))


if __name__ == "__main__":
    unittest.main()
