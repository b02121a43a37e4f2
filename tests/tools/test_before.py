"""What is looked at before rows are filed: headings in place of rows, rows of several files, and input that is kept."""
import io
import os
import sys
import unittest
from unittest import mock

sys.dont_write_bytecode = True
sys.path.insert(0, os.path.join(os.path.dirname(os.path.dirname(os.path.dirname(os.path.abspath(__file__)))), "scripts"))
from office_tools import before, columns, copies


class Headings(unittest.TestCase):
    def test_sheets(self):
        for text in ["Student ID,Award Year\n5001,2025-26\n", "\nstudent;year;x\n", "sep=;\nStudent;Term\n", "#student\tTerm\t#Name\n", "Kind,School,Number\npay,1,2\n", '"Student ID", Term ,\n']:
            self.assertNotEqual(columns.headings_in(text), [], text)
        self.assertEqual(columns.headings_in("Student ID, Term ,,Note\n"), ["Student ID", "Term", "Note"])

    def test_rows(self):
        for text in ["", "\n\n", "pay,110,6,5001,2025,1,pell,1.00\n", "enrol,student,year\n", "loan,1,2\n", "student\n", "Ann,Bob\n", "apply;student;year\n"]:
            self.assertEqual(columns.headings_in(text), [], text)


class Names(unittest.TestCase):
    def test_of_files(self):
        name = before.names_of(["a.csv", "b.csv", "c.csv"], [2, 0, 1])
        self.assertEqual([name(number) for number in (1, 2, 3)], ["a.csv, row 1", "a.csv, row 2", "c.csv, row 1"])
        self.assertEqual(before.names_of(["a.csv"], [3])(3), "row 3")


class Kept(unittest.TestCase):
    """As much as the program reads of its input, and a byte more, so that it says itself that there is too much."""

    def kept(self, data, most):
        """The file that is kept of an input."""
        before, held = os.dup(0), mock.Mock(buffer=io.BytesIO(data))
        try:
            with mock.patch.object(sys, "stdin", held), mock.patch.object(copies, "MOST_INPUT", most), mock.patch.object(copies, "PIECE", 3):
                path = copies.keep_input("kept")
            return copies.text_of(path), os.read(0, 100)
        finally:
            os.dup2(before, 0)
            os.close(before)
            copies.clean()
            copies.Left.folder = None

    def test_lengths(self):
        for data, kept in [(b"", b""), (b"0123456789", b"0123456789"), (b"0123456789a", b"0123456789a"), (b"0123456789ab", b"0123456789a")]:
            self.assertEqual(self.kept(data, 10), (kept, kept))


if __name__ == "__main__":
    unittest.main()
