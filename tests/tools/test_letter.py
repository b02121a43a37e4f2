"""Letters on withdrawals, of sheets whose figures were worked by hand (34 CFR 668.22)."""
import contextlib
import io
import os
import sys
import unittest

sys.dont_write_bytecode = True
sys.path.insert(0, os.path.join(os.path.dirname(os.path.dirname(os.path.dirname(os.path.abspath(__file__)))), "scripts"))
from office_tools import ids, letter

PROGRAMS = list(letter.NAMES)
MANY = [("E", "disbursed, net"), ("", "could have been disbursed"), ("G", "both"), ("O", "the school returns"), ("Q", "laid on the student"),
        ("", "half of both, of grants"), ("", "owed, program by program"), ("", "repaid since"), ("", "still owed"), ("", "paid since"), ("", "net now")]
ONE = [("", "days of the term"), ("", "days completed"), ("H", "percent earned"), ("I", "earned"), ("J", "post-withdrawal amount"), ("K", "unearned"),
       ("L", "institutional charges"), ("M", "percent unearned"), ("N", "unearned part of the charges")]


def text(due="2026-03-22", **figures):
    """The words of the letter on a sheet, in one line: figures by box or by the first word of a line, a number or one by program."""
    lines = ["Return of funds: student 5, school 110, award year 2025, term 1", f"withdrawal at 9, number 8: last day 2026-01-30, determined 2026-02-05" + (f", return due {due}" if due else ""), " ".join(PROGRAMS) + " all"]
    for box, name in MANY:
        found = figures.get(box or name.split()[0].strip(","), {})
        each = [found.get(program, 0) for program in PROGRAMS]
        lines.append(f"{box or ' '} {name:<30}" + "".join(f"{figure:>11.2f}" for figure in [*each, sum(each)]))
    for box, name in ONE:
        lines.append(f"{box or ' '} {name:<30}{figures.get(box or name.split()[-1], '0.00'):>40}")
    return " ".join(" ".join(letter.page(letter.Worksheet(lines), ids.Known([(2, {"number": "5", "id": "A5", "name": "Ann"})]), "110", "5", "2025", "1")).split())


class Letters(unittest.TestCase):
    def test_a_grant_is_owed(self):
        # 40 of 100 days: of 2,000 dollars 800 are earned, and 1,200 aren't; charges of 500 return 300
        said = text(term="100", completed="40", H="40.0", I="800.00", K="1200.00", L="500.00", M="60.0", N="300.00", E={"pell": 2000}, G={"pell": 2000},
                    O={"pell": 300}, Q={"pell": 900}, half={"pell": 1000}, owed={"pell": 0})
        for words in ["To: A5 Ann, student 5", "of the award year 2025-26, school 110", "Federal Pell Grant 2000.00 box E", "100 days, and you completed 40", "you earned 40.0 percent of your aid (box H)",
                      "Of 2000.00 dollars (box G) that is 800.00 (box I)", "1200.00 dollars of what was paid were not earned (box K)", "300.00 dollars (box N)", "by 2026-03-22", "Federal Pell Grant 300.00 box O",
                      "900.00 dollars were not earned", "You may keep 1000.00, half of the grant, and needn't repay 50 dollars or less. So you owe nothing of it."]:
            self.assertIn(words, said)
        for words in ["BY WHEN", "MAY STILL BE PAID", "Loan"]:
            self.assertNotIn(words, said)

    def test_what_is_still_owed(self):
        said = text(Q={"pell": 1200}, half={"pell": 1000}, owed={"pell": 200}, repaid={"pell": 50}, still={"pell": 150})
        self.assertIn("So you owe 200.00, of which you repaid 50.00. You still owe 150.00.", said)
        self.assertIn("BY WHEN Within 45 days of the date of this letter pay 150.00 dollars to the school", said)

    def test_the_lesser(self):
        # of charges of 1,000 dollars 60 percent are 600, and 300 weren't earned: the school sends back these 300
        said = text(K="300.00", L="1000.00", M="60.0", N="600.00", O={"pell": 300})
        for words in ["Your charges of the term were 1000.00 dollars (box L). 60.0 percent", "of the charges that is 600.00 dollars (box N)", "Federal Pell Grant 300.00 box O"]:
            self.assertIn(words, said)

    def test_loans(self):
        said = text(Q={"unsub": 100, "plus": 7}, due="none", O={"sub": 3})
        self.assertIn("You repay them under the terms of the loan, and needn't do anything now. Direct Unsubsidized Loan 100.00 box Q Direct PLUS Loan 7.00 box Q", said)
        self.assertIn("the lesser of box K and box N. You", said)

    def test_all_is_earned(self):
        said = text(due="", H="100.0", G={"pell": 10}, E={"pell": 4}, J="6.00", could={"pell": 6}, paid={"pell": 2})
        for words in ["more than 60 percent of a term has earned all of it", "All that was paid was earned.", "SENDS BACK Nothing (box O).", "WHAT YOU OWE Nothing (box Q).",
                      "You earned 6.00 dollars more than was paid (box J)", "Paid since: 2.00.", "WHAT WAS PAID Federal Pell Grant 4.00 box E in all 4.00 box E and could have been paid: Federal Pell Grant 6.00 not paid yet"]:
            self.assertIn(words, said)

    def test_no_sheet(self):
        for lines in [[], ["none"], ["a", "b", "c", "d"]]:
            with self.assertRaises(SystemExit), contextlib.redirect_stderr(io.StringIO()):
                letter.Worksheet(lines)


if __name__ == "__main__":
    unittest.main()
