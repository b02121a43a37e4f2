"""Texts: control characters, reply lines in words, tables, rows that are left, and what became of a run."""
import tempfile
import time
import unittest

from office_tools import explain, filing, intake, lint, say, sheet, tables, year_book


class Visible(unittest.TestCase):
    """No control character reaches a terminal."""

    def test_each(self):
        for text, want in [
            ("plain, r\u00e9n\u00e9", "plain, r\u00e9n\u00e9"), ("\x1b[2J", r"\x1b[2J"), ("a\nb\tc", r"a\x0ab\x09c"), ("\x7f\x9b", r"\x7f\x9b"), ("\udc9b\udcff", r"\x9b\xff"),
            ("\u202eabc", r"\u202eabc"), ("", ""),
        ]:
            self.assertEqual(say.visible(text), want)
        self.assertEqual(say.visible("a\nb\x1b", "\n"), "a\nb\\x1b")


class Looked(unittest.TestCase):
    """What no rule of the office holds of a payment: the annual limits of loans (34 CFR 685.203) and of TEACH (34 CFR 686.21)."""

    def test_limits(self):
        for program, most in [("sub", 5_500), ("unsub", 20_500), ("teach", 4_000)]:
            for cents, found in [("00", 0), ("01", 1)]:
                self.assertEqual(len(lint.looks_wrong("pay", "110", "1", "5001", "2025", "1", program, f"{most}.{cents}")), found, (program, cents))


class Explained(unittest.TestCase):
    """Rows and columns as the office counts them, and numbers in words."""

    def test_columns(self):
        for row, want in [("a,b", ["a", "b"]), ('"a,b",c', ["a,b", "c"]), ('"a""b"', ['a"b']), ("", [""]), (",", ["", ""]), ('"x\ny",z', ["x\ny", "z"])]:
            self.assertEqual(explain.columns_of(row), want)

    def test_rows(self):
        with tempfile.NamedTemporaryFile() as file:
            for data, want in [
                (b"a,b\r\n\r\nc\n", ["a,b", "c"]), (b'\xef\xbb\xbf"a\n\nb",c\nd', ['"a\n\nb",c', "d"]), (b'a\n"b\nc\n', ["a"]), (b"", []),
                # a quote that isn't closed, in front of many lines: they are looked at once
                (b"a\n" + b'"b\n' + 200_000 * b"some more\n", ["a"]),
            ]:
                file.seek(0)
                file.truncate()
                file.write(data)
                file.flush()
                began = time.monotonic()
                self.assertEqual(explain.rows_of(file.name), want)
                self.assertLess(time.monotonic() - began, 20)

    def test_amounts(self):
        # days are counted from 1900-01-01, units of which 100,000 are an award
        for number, unit, want in [
            (114500, "cents", "1145.00 dollars"), (5, "cents", "0.05 dollars"), (1000, "dollars", "1000 dollars"), (631136, "units", "631.136 percent of an award"),
            (0, "day", "1900-01-01"), (59, "day", "1900-03-01"), (46259, "day", "2026-08-27"), (7, "position", "filing 7"), (7, "", "7"), (10**15, "day", str(10**15)),
        ]:
            self.assertEqual(explain.amount(number, unit), want)

    def test_lines(self):
        explainer = explain.Explainer(["school,0,1,110,2,12", "pay,110,6,5001,2025,1,pell,1145"])
        self.assertEqual(explainer.sentences("1 0 accepted 1 noted"), [])
        self.assertEqual(explainer.sentences("2 error 8 3")[:2], ["row 2: pay,110,6,5001,2025,1,pell,1145", "Column 8, cents (dollars and cents, 0.00 to 999999.99): `1145`."])
        self.assertEqual(explainer.sentences("desk 4 2 error 8 3"), explainer.sentences("2 error 8 3"))
        self.assertEqual(explainer.sentences(f"2 error 8 {'9' * 5000}"), [])
        self.assertEqual(explainer.sentences("1 book 6 007")[0], "The key 007.")


class Tables(unittest.TestCase):
    """A text is whole where its last line counts the others."""

    def test_whole(self):
        self.assertEqual(tables.whole_lines("a b\nrows 1\n"), [["a", "b"]])
        for text in ["", "rows 1\n", "a b\nrows 1", "a b\n", "rows 0\na\n", "a\nrows 01\n"]:
            self.assertIsNone(tables.whole_lines(text))


class Left(unittest.TestCase):
    """A row that is left is read as the same row again."""

    def test_rows(self):
        for row, want in [(["a", "b"], "a,b\n"), (["a,b"], '"a,b"\n'), (["a\rb"], '"a\rb"\n'), (["a\nb", 'c"d'], '"a\nb","c""d"\n'), ([""], '""\n'), (["", "x"], ",x\n")]:
            self.assertEqual(intake.row_text(row), want)


class Answers(unittest.TestCase):
    """What became of a run, by its lines."""

    class Office:
        """As much of an office as the counts need."""
        journal = "books.journal"

    def counts(self, text):
        """The counts of a text, and the status by it."""
        filed = filing.Filed(self.Office())
        for line in text.encode().splitlines():
            filed.take(line)
        return {name.decode(): count for name, count in filed.counts.items() if count}, filed

    def test_lines(self):
        for text, want in [
            ("1 0 accepted 1 noted\n2 1 again 1 noted", {"accepted": 1, "again": 1}), ("1 0 refused 12 7 0\n2 error 1 1", {"refused": 1, "error": 1}),
            ("desk 1 1 0 accepted 1 noted\ndesk 2 1 error 0 2\nadmitted 1 1 1", {"accepted": 1, "error": 1}), ("accepted 92\nrefused 3\npell 40511.00", {"accepted": 92, "refused": 3}),
            ("left 500", {}), ("fault disk 5", {}), ("desk 1 4 fault disk 5", {}), ("1 book 4 4", {}),
        ]:
            self.assertEqual(self.counts(text)[0], want, text)

    def test_rows_counted(self):
        # an empty line is no row, a field in quotes may hold line ends, and each of CR, LF and both ends a row
        for data, want in [(b"", 0), (b"a\n\nb", 2), (b'"a\nb",c\n', 1), (b"a\rb\r\nc", 3), (b"\xef\xbb\xbf\n", 0)]:
            self.assertEqual(filing.count_rows(data), want)


class Numbers(unittest.TestCase):
    """Cells and books of thousands of digits, or of values deep in one another, are told as bad ones."""

    def test_cells(self):
        for read in (sheet.whole, sheet.amount):
            with self.assertRaises(sheet.Bad):
                read("9" * 5000)
        self.assertEqual((sheet.whole("$1,145"), sheet.amount("1,145.5")), ("1145", "1145.50"))

    def test_books(self):
        for text in ["a = " + "[" * 9000 + "]" * 9000, "a = " + "9" * 5000, f"[{'.'.join(['a'] * 9000)}]"]:
            with self.assertRaises(year_book.NotABook):
                year_book.read(text.encode())


if __name__ == "__main__":
    unittest.main()
