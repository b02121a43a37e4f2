"""What gives again, by hand: payments, loans and awards beside filings and beside rows in front."""
import os
import sys
import unittest

sys.dont_write_bytecode = True
sys.path.insert(0, os.path.join(os.path.dirname(os.path.dirname(os.path.dirname(os.path.abspath(__file__)))), "scripts"))
from office_tools import listing, twice


def pay(number, cents="100.00", student="1", term="1", school="110", program="pell", kind="pay"):
    """A payment, or what takes one back."""
    return [kind, school, str(number), student, "2025", term, program, cents]


def numbers(rows, filed):
    """The rows that give again, by their numbers, each with the number of what it is like."""
    entries = [listing.Entry(at, "2025-09-01", "-", tuple(row), ("noted",)) for at, row in enumerate(filed, 1)]
    return [(one.number, one.gift.row[2]) for one in twice.of_list(rows, entries)]


class OnFile(unittest.TestCase):
    def test_another_number(self):
        self.assertEqual(numbers([pay(7)], [pay(6)]), [(1, "6")])

    def test_what_differs(self):
        for other in [pay(7, "100.01"), pay(7, student="2"), pay(7, term="2"), pay(7, school="120"), pay(7, program="unsub")]:
            self.assertEqual(numbers([other], [pay(6)]), [], other)

    def test_its_own_number(self):
        self.assertEqual(numbers([pay(6)], [pay(6)]), [])
        self.assertEqual(numbers([pay(6), pay(7)], [pay(6), pay(7)]), [])
        # a number of another filing is refused
        self.assertEqual(numbers([pay(6)], [pay(5), pay(6, "50.00")]), [])

    def test_the_first_is_named(self):
        self.assertEqual(numbers([pay(9)], [pay(6), pay(7)]), [(1, "6")])

    def test_no_filings(self):
        rows = [[], [""], ["pay"], pay(7)[:-1], pay(7, "x"), pay(7, "²"), pay(7, "9" * 5000), ["loan", "110", "7", "1"], ["school", "0", "1", "110", "2", "12"]]
        self.assertEqual(numbers(rows, [pay(6)]), [])

    def test_loans_and_awards(self):
        lend = ["lend", "110", "1", "5", "2025", "sub", "900.00"]
        award = ["award", "110", "1", "5", "2025", "900"]
        again = [["lend", "110", "2", *lend[3:]], ["award", "110", "2", *award[3:]]]
        self.assertEqual(numbers(again, [lend, award]), [(1, "1"), (2, "1")])
        self.assertEqual(numbers(again, [lend, award, ["cancel", "110", "3", *lend[3:]], ["release", "110", "4", *award[3:]]]), [])


class TakenBack(unittest.TestCase):
    def test_all_of_it(self):
        self.assertEqual(numbers([pay(8)], [pay(6), pay(7, kind="adjust")]), [])

    def test_in_parts(self):
        self.assertEqual(numbers([pay(9)], [pay(6), pay(7, "60.00", kind="adjust"), pay(8, "40.00", kind="adjust")]), [])

    def test_lowered(self):
        filed = [pay(6), pay(7, "30.00", kind="adjust")]
        self.assertEqual(numbers([pay(8)], filed), [(1, "6")])
        self.assertEqual(numbers([pay(8, "70.00")], filed), [(1, "6")])
        self.assertEqual(numbers([pay(8, "30.00")], filed), [])

    def test_one_of_two(self):
        self.assertEqual(numbers([pay(9)], [pay(6), pay(7), pay(8, kind="adjust")]), [(1, "6")])

    def test_of_this_very_amount(self):
        # 50.00 takes back number 7, and leaves number 6 and number 8 as they are
        filed = [pay(6), pay(7, "50.00"), pay(8), pay(9, "50.00", kind="adjust")]
        self.assertEqual(numbers([pay(10, "50.00"), pay(11)], filed), [(2, "6")])

    def test_another_term(self):
        self.assertEqual(numbers([pay(8)], [pay(6), pay(7, term="2", kind="adjust")]), [(1, "6")])

    def test_by_a_row_in_front(self):
        self.assertEqual(numbers([pay(7, kind="adjust"), pay(8)], [pay(6)]), [])
        # the same row on file was counted as it was filed
        self.assertEqual(numbers([pay(7, kind="adjust"), pay(9)], [pay(6), pay(7, kind="adjust"), pay(8)]), [(2, "8")])


class InFront(unittest.TestCase):
    def test_a_row_in_front(self):
        self.assertEqual(numbers([pay(6), pay(7), pay(8)], []), [(2, "6"), (3, "6")])


class Words(unittest.TestCase):
    def test_ranges(self):
        self.assertEqual(twice.ranges([3, 1, 2, 7, 9, 10, 9]), "1 to 3, 7, 9 to 10")
        self.assertEqual(twice.ranges([]), "")

    def sentences(self, rows, filed):
        """What is said."""
        entries = [listing.Entry(at, "2025-09-01", "-", tuple(row), ("noted",)) for at, row in enumerate(filed, 1)]
        return twice.sentences(twice.of_list(rows, entries), rows)

    def test_one_row(self):
        self.assertEqual(self.sentences([pay(7)], [pay(6)]), ["row 1: student 1, year 2025, term 1, pell, 100.00: on file already, under number 6 of school 110 (at 1)"])
        self.assertEqual(self.sentences([pay(6), pay(7)], []), ["row 2: student 1, year 2025, term 1, pell, 100.00: in row 1 already, under number 6"])
        self.assertIn("(at 1, lowered from 100.00)", self.sentences([pay(8)], [pay(6), pay(7, "30.00", kind="adjust")])[0])

    def test_a_whole_sheet(self):
        filed = [pay(number, student=str(number)) for number in (6, 7, 8)] + [pay(6, student="1", school="120")]
        rows = [[row[0], row[1], f"90{row[2]}", *row[3:]] for row in filed]
        want = "the 4 payments and awards of these rows are all on file already, under the numbers 6 to 8 of school 110; 6 of school 120"
        self.assertEqual(self.sentences(rows, filed), [want])
        self.assertEqual(self.sentences([*rows, ["enrol", "110", "5", "1", "2025", "1", "12"]], filed), [want])
        self.assertEqual(len(self.sentences([*rows, pay(99, student="99")], filed)), 4)

    def test_many(self):
        filed = [pay(number, student=str(number)) for number in range(1, 31)]
        rows = [pay(100 + int(row[2]), student=row[3]) for row in filed] + [pay(99, student="99")]
        self.assertEqual((len(self.sentences(rows, filed)), self.sentences(rows, filed)[-1]), (21, "10 more rows are on file already"))


class Many(unittest.TestCase):
    def test_one_student(self):
        # of 30,000 rows each asks for its own amount alone: beside all those in front it would take minutes
        rows = [pay(number, f"{number}.00") for number in range(1, 30_001)]
        self.assertEqual(numbers([*rows, pay(30_001, "30000.00")], [pay(30_002, "7.50")]), [(30_001, "30000")])

    def test_lowered_twice(self):
        filed = [pay(6), pay(7, "30.00", kind="adjust"), pay(8, "20.00", kind="adjust")]
        self.assertEqual(numbers([pay(9, "70.00")], filed), [])
        self.assertEqual(numbers([pay(9, "50.00")], filed), [(1, "6")])
        self.assertEqual(numbers([pay(9)], filed), [(1, "6")])


class Lists(unittest.TestCase):
    def test_entries(self):
        lines = ["1 1970-01-01 - book,0,1,2025 noted\n", "2 2025-09-01 brown pay,110,6,5001,2025,1,pell,1145.00 paid 1145.00 50000\n", "rows 2\n", "sealed 2 " + "0f" * 32 + "\n"]
        book, payment = listing.entries(lines)
        self.assertEqual((book.row, payment.position, payment.clerk, payment.outcome[0]), (("book", "0", "1", "2025"), 2, "brown", "paid"))
        for cut in [lines[:2], lines[:3], lines[1:], [*lines[:2], "rows 3\n", lines[3]], [*lines[:3], lines[3][:-5]], [*lines[:3], lines[3].replace("2", "3", 1)],
                    [*lines, lines[3]], [*lines[:2], *lines[3:]], []]:
            with self.assertRaises(listing.NotListed):
                list(listing.entries(cut))


if __name__ == "__main__":
    unittest.main()
