"""Tables of who gets what, by hand."""
import os
import sys
import unittest

sys.dont_write_bytecode = True
sys.path.insert(0, os.path.join(os.path.dirname(os.path.dirname(os.path.dirname(os.path.abspath(__file__)))), "scripts"))
from office_tools import amounts, approval, listing

ROWS = [
    ("originate,110,1,5,2025,10000", "noted"), ("pay,110,2,5,2025,1,pell,1000.00", "paid 1000.00 50000"), ("pay,120,2,5,2025,1,unsub,900.00", "paid 900.00 50000"),
    ("adjust,110,3,5,2025,1,pell,250.50", "noted"), ("pay,110,4,5,2025,2,unsub,2000.00", "paid 2900.00 50000"),
    ("withdraw,110,5,5,2025,2,2026-01-30,2026-02-05,0.00,0.00,0.00,0.00,0.00,0.00,0.00", "returned 34.7 400.00 51.44 0.00"),
    ("repay,110,6,5,2025,2,pell,49.50", "noted"), ("pay,110,7,5,2025,1,fseog,100.00", "paid 100.00 50000"), ("pay,110,8,6,2026,1,plus,0.05", "paid 0.05 0"),
    ("cost,110,9,5,2025,12000", "noted"), ("pay,110,10,5,2025,1,plus,1.00", "paid 1.00 50000"),
]


def entries():
    """The filings of a list."""
    return [listing.Entry(at, "2025-09-01", "-", tuple(row.split(",")), tuple(outcome.split())) for at, (row, outcome) in enumerate(ROWS, 1)]


def lines(*answers):
    """Reply lines."""
    return [answer.encode() for answer in answers]


class Payments(unittest.TestCase):
    def test_what_is_left_of_the_cost(self):
        found = approval.payments(entries(), {2, 3, 5, 8})
        self.assertEqual([one.cells() for one in found], [
            ("5", "110", "2025", "1", "pell", "1000.00", "1000.00", "9000.00"),
            # no cost of attendance is on file there
            ("5", "120", "2025", "1", "unsub", "900.00", "900.00", "-"),
            # 10000 less 1000 less 2000, with 250.50 taken back
            ("5", "110", "2025", "2", "unsub", "2000.00", "2900.00", "7250.50"),
            # the school returned 400 and the student repaid 49.50
            ("5", "110", "2025", "1", "fseog", "100.00", "100.00", "7600.00"),
        ])

    def test_what_is_left_of_a_changed_cost(self):
        # 12000 less 1000, 2000, 100 and 1, with 250.50 taken back, 400 returned and 49.50 repaid
        self.assertEqual([one.cells()[7] for one in approval.payments(entries(), {8, 11})], ["7600.00", "9599.00"])

    def test_of_a_fund(self):
        found = approval.of_fund(approval.payments(entries(), {2, 8}), lines("1 1 accepted 2 paid 1000.00 5", "2 2 accepted 8 paid 100.00 5", "left 7"))
        self.assertEqual([one.left for one in found], [10700, 700])
        self.assertEqual(approval.of_fund([], lines("left 7")), [])

    def test_accepted(self):
        answers = lines("1 18 accepted 19 paid 600.00 78221", "2 19 again 12 noted", "3 19 refused 54 2 1", "4 error 0 2", "5 19 accepted 20 noted", "left 0", "")
        self.assertEqual(approval.accepted(answers), {19, 20})


class Tables(unittest.TestCase):
    def test_text(self):
        found = approval.payments(entries(), {2, 3, 8, 9})
        text = list(approval.table_lines(found, "the fund", ["2 rows aren't filed"]))
        self.assertEqual(text[0].split(), list(approval.HEADING))
        self.assertEqual([line.split()[0] for line in text[1:5]], ["5", "5", "5", "6"])
        self.assertEqual(text[5:9], ["total pell: 1000.00 in 1", "total unsub: 900.00 in 1", "total fseog: 100.00 in 1", "total plus: 0.05 in 1"])
        self.assertEqual(text[10], "2 rows aren't filed")
        self.assertTrue(text[-1].startswith("Approved by ____") and "Date ____" in text[-1])
        self.assertEqual({len(line) for line in text[:5]}, {sum(approval.WIDTHS) + 7})

    def test_amounts(self):
        self.assertEqual([amounts.cents(each) for each in ("0.00", "1145.00", "0.05")], [0, 114500, 5])
        self.assertEqual([amounts.money(each) for each in (0, 5, 100, 123456, -5, -250)], ["0.00", "0.05", "1.00", "1234.56", "-0.05", "-2.50"])


if __name__ == "__main__":
    unittest.main()
