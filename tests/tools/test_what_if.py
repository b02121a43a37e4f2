"""What has to be adjusted before a correction, and worksheets side by side, by hand."""
import os
import sys
import unittest

sys.dont_write_bytecode = True
sys.path.insert(0, os.path.join(os.path.dirname(os.path.dirname(os.path.dirname(os.path.abspath(__file__)))), "scripts"))
from office_tools import listing, what_if

APPLY = ["apply", "110", "30", "5", "2025", "2"]
FILED = ["school,0,2,110,2,12", "calendar,110,1,2025,1,0,x,y,0", "calendar,110,2,2025,2,0,x,y,0", "calendar,110,3,2025,3,1,x,y,0", "calendar,120,40,2025,1,0,x,y,0"]
PAID = [
    "11 1970-01-01 - 110 6 2025 1 pay pell 1000.00 1000.00 50000", "12 1970-01-01 - 110 7 2025 2 pay pell 900.00 900.00 50000",
    "13 1970-01-01 - 110 8 2025 2 adjust pell -100.00 800.00 50000", "14 1970-01-01 - 110 9 2025 3 pay pell 500.00 500.00 50000",
    "15 1970-01-01 - 110 10 2025 1 pay unsub 70.00 70.00 50000", "16 1970-01-01 - 110 11 2024 1 pay pell 7.00 7.00 50000",
    "17 1970-01-01 - 110 12 2025 1 sent pell 3.00 2026-03-20 4711", "rows 7",
]


def terms(*more):
    """What was paid."""
    found = what_if.Terms(APPLY, (listing.Entry(at, "", "-", tuple(row.split(",")), ()) for at, row in enumerate(FILED, 1)))
    found.take([*more, *PAID])
    return found


class Adjusting(unittest.TestCase):
    def test_what_was_paid(self):
        found = terms()
        self.assertEqual((found.nets, found.extra, found.places()), (
            {("110", "1"): 100_000, ("110", "2"): 80_000, ("110", "3"): 50_000}, {("110", "2025", "3")}, [("110", "1"), ("110", "2"), ("110", "3")]))
        self.assertEqual((found.next["110"], found.next["120"], found.other), (31, 41, "999999999999"))

    def test_one_term(self):
        found = terms()
        self.assertTrue(found.settle(80_000, 70_000, 1000))
        self.assertEqual(list(map(",".join, found.rows())), ["adjust,110,31,5,2025,2,pell,100.00"])
        self.assertTrue(found.settle(100_000, 99_999, 1000))
        self.assertEqual(list(map(",".join, found.rows())), ["adjust,110,31,5,2025,1,pell,0.01", "adjust,110,32,5,2025,2,pell,100.00"])

    def test_main_terms(self):
        found = terms()
        # the last main term first
        self.assertTrue(found.settle(180_000, 90_000, 1000))
        self.assertEqual(found.adjust, {("110", "2"): 80_000, ("110", "1"): 10_000})

    def test_the_year(self):
        found = terms()
        self.assertTrue(found.settle(230_000, 170_000, 1000))
        self.assertEqual({place: amount for place, amount in found.adjust.items() if amount}, {("110", "3"): 50_000, ("110", "2"): 10_000})

    def test_the_lifetime(self):
        found = terms()
        # 10,000 units are a tenth of an award of 1,000 dollars
        self.assertTrue(found.settle(610_000, 600_000, 1000))
        self.assertEqual({place: amount for place, amount in found.adjust.items() if amount}, {("110", "3"): 10_000})

    def test_a_withdrawal(self):
        found = terms("17 1970-01-01 - 110 12 2025 2 withdraw returned 34.7 65.30 51.44 0.00")
        self.assertFalse(found.settle(80_000, 70_000, 1000))
        self.assertTrue(found.settle(180_000, 100_000, 1000))
        self.assertEqual(found.adjust[("110", "1")], 80_000)


class Sheets(unittest.TestCase):
    def test_side_by_side(self):
        old = ["title: formula A", "application at 8", "parents", "   income    10", "   cash    5", " = award: calculated    7"]
        new = ["title: formula A", "application at 9", "parents", "   income    11", " = award: minimum    7", "   more    1"]
        lines = [line.split() for line in what_if.beside(what_if.figures(old), what_if.figures(new))]
        self.assertEqual(lines, [
            ["in", "force", "new"], ["title:", "formula", "A"], ["parents"], ["income", "10", "11", "<--"], ["cash", "5", "<--"], ["=", "award:", "calculated", "7", "<--"],
            ["=", "award:", "minimum", "7", "<--"], ["more", "1", "<--"],
        ])

    def test_the_award(self):
        self.assertEqual(what_if.award_of(["x", "   Scheduled Award: calculated     2290", "   final Student Aid Index   5"]), 2290)

    def test_refusals(self):
        self.assertEqual(what_if.refusal("1 18 refused 93 114500 85500"), (93, 114500, 85500))
        self.assertIsNone(what_if.refusal("1 18 accepted 19 index A 5 calculated 5"))


if __name__ == "__main__":
    unittest.main()
