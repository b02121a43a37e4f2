"""Ids and names of students, by hand."""
import os
import sys
import unittest

sys.dont_write_bytecode = True
sys.path.insert(0, os.path.join(os.path.dirname(os.path.dirname(os.path.dirname(os.path.abspath(__file__)))), "scripts"))
from office_tools import ids


def known(*lines):
    """The students of some lines."""
    return ids.Known((at, dict(zip(ids.COLUMNS, line))) for at, line in enumerate(lines, 2))


class Files(unittest.TestCase):
    def test_either_way(self):
        students = known(("5001", "A00200001", "Ann Lee"), ("5002", "b-7", ""))
        self.assertEqual(students.wrong, [])
        self.assertEqual([students.number_of(cell) for cell in ("A00200001", "a00200001", "B-7", "5001", "9")], ["5001", "5001", "5002", "5001", "9"])
        self.assertEqual([students.in_words(number) for number in ("5001", 5002, "9")], ["A00200001 Ann Lee", "b-7", ""])

    def test_bad_lines(self):
        for line, says in [
            (("x", "A1", ""), "`x` is no number"), (("0", "A1", ""), "no number"), (("01", "A1", ""), "no number"), (("1000000000000", "A1", ""), "no number"), (("", "A1", ""), "no number"),
            (("1", "", ""), "`` is no id"), (("1", "123", ""), "`123` is no id"), (("1", "A 1", ""), "no id"), (("1", "A,1", ""), "no id"), (("1", "A" * 41, ""), "no id"), (("1", "A1", "Ann\nLee"), "more than one line"),
        ]:
            students = known(line)
            self.assertEqual((len(students.wrong), students.by_number, students.by_id), (1, {}, {}), line)
            self.assertIn(says, students.wrong[0])

    def test_doubled(self):
        students = known(("1", "A1", "x"), ("1", "A2", "y"), ("2", "a1", "z"), ("3", "A2", "x"))
        self.assertEqual(students.wrong, ["line 3: number 1 is in line 2 already", "line 4: id a1 is in line 2 already"])
        self.assertEqual(students.in_words("3"), "A2 x")


class Lines(unittest.TestCase):
    STUDENTS = known(("5", "A5", "Ann, the first"), ("7", "B7", ""))

    def named(self, words, *lines):
        """The lines with ids and names."""
        return ids.named(words[0], words, list(lines), self.STUDENTS)

    def test_reports(self):
        self.assertEqual(self.named(["report", "awards", "2025"], "   110            5 1 pell   1.00", "   110 9 1 pell 1.00", "rows 2"),
                         ["   110            5 1 pell   1.00  A5 Ann, the first", "   110 9 1 pell 1.00", "rows 2"])
        self.assertEqual(self.named(["report", "standing", "2025"], "  7 A 1 nothing 0 0.00 0", "rows 1"), ["  7 A 1 nothing 0 0.00 0  B7", "rows 1"])
        self.assertEqual(self.named(["report", "stamps"], "5 2025-01-01 brown", "rows 1"), ["5 2025-01-01 brown", "rows 1"])

    def test_lists(self):
        lines = ["1 1970-01-01 - book,0,1,5 noted", "2 1970-01-01 - school,0,2,5,2,12 noted", "3 1970-01-01 - prior,0,3,5,100 noted", "rows 3", "sealed 3 " + "5" * 64]
        self.assertEqual(self.named(["list"], *lines), [*lines[:2], lines[2] + "  A5 Ann, the first", *lines[3:]])

    def test_values(self):
        self.assertEqual(self.named(["csv", "awards", "2025"], "year,school,student", "2025,110,5", "2025,110,9"), ["year,school,student,id,name", '2025,110,5,A5,"Ann, the first"', "2025,110,9,,"])
        self.assertEqual(self.named(["csv", "stamps"], "position,day,clerk", "5,x,"), ["position,day,clerk", "5,x,"])

    def test_one_student(self):
        self.assertEqual(self.named(["need", "5", "2025"], "x"), ["student 5: A5 Ann, the first", "x"])
        self.assertEqual(self.named(["withdrawal", "110", "7", "2025", "1"], "x"), ["student 7: B7", "x"])


if __name__ == "__main__":
    unittest.main()
