"""Headings and years of a sheet, by hand."""
import os
import sys
import unittest

sys.dont_write_bytecode = True
sys.path.insert(0, os.path.join(os.path.dirname(os.path.dirname(os.path.dirname(os.path.abspath(__file__)))), "scripts"))
from office_tools import columns, sheet

KINDS = columns.read()


def column(kind, told):
    """The column that a heading is."""
    return columns.fits(kind, KINDS[kind], told)


class Headings(unittest.TestCase):
    def test_exact_names(self):
        for kind, of_kind in KINDS.items():
            for name in columns.names_of(kind, of_kind):
                self.assertEqual((column(kind, name), column(kind, f" {name.replace('_', ' ').title()} ")), (name, name))

    def test_other_names(self):
        for kind, told, name in [
            ("enrol", "Credit Hours", "credits"), ("enrol", "Hours", "credits"), ("pay", "Amount", "cents"), ("adjust", "Dollars", "cents"),
            ("originate", "COA", "cost"), ("withdraw", "LDA", "last"), ("withdraw", "Date of Determination", "determined"),
            ("cost", "Cost of Attendance", "cost"), ("sent", "Amount", "cents"), ("sent", "Date Sent", "day"),
            ("calendar", "Last Day", "last"), ("calendar", "Break 8 last", "break_8_last"), ("pay", "Aid Year", "year"), ("pay", "Student ID", "student"),
        ]:
            self.assertEqual(column(kind, told), name, (kind, told))

    def test_of_no_other_kind(self):
        for kind, told in [
            ("apply", "Credit Hours"), ("apply", "Hours"), ("apply", "Amount"), ("apply", "Dollars"), ("originate", "Credits"), ("calendar", "LDA"), ("prior", "Award Year"),
            ("enrol", "Cost"), ("pay", "Last Day"), ("pay", "Break 1 first"), ("calendar", "Break 9 first"), ("pay", "Name"), ("pay", "Amounts"), ("enrol", "credit"),
            ("sent", "Last Day"), ("pay", "Date Sent"),
        ]:
            self.assertIsNone(column(kind, told), (kind, told))

    def test_a_name_is_one_column(self):
        for kind, of_kind in KINDS.items():
            words = [word for name in columns.names_of(kind, of_kind) for word in [name, *columns.others(kind, name)]]
            self.assertEqual(len(words), len(set(words)), kind)


class Years(unittest.TestCase):
    def test_plainly_said(self):
        for cell, year in [("2025-26", "2025"), ("2025/26", "2025"), ("2025-2026", "2025"), ("2099-00", "2099")]:
            for is_ours in (True, False):
                for means in (None, "begins", "ends"):
                    self.assertEqual(sheet.said_year(cell, is_ours, means), year)

    def test_a_plain_year(self):
        self.assertEqual(sheet.said_year("2026", True, None), "2026")
        self.assertEqual([sheet.said_year("2026", is_ours, "ends") for is_ours in (True, False)], ["2025", "2025"])
        self.assertEqual([sheet.said_year("2026", is_ours, "begins") for is_ours in (True, False)], ["2026", "2026"])
        with self.assertRaisesRegex(sheet.Asked, "2025-26 or 2026-27.*--year-ends, by which it is 2025-26.*--year-begins, by which it is 2026-27"):
            sheet.said_year("2026", False, None)

    def test_no_century(self):
        for is_ours in (True, False):
            with self.assertRaisesRegex(sheet.Asked, "write 2025-26"):
                sheet.said_year("25-26", is_ours, None)
            self.assertEqual([sheet.said_year("25-26", is_ours, means) for means in ("begins", "ends")], ["2025", "2025"])

    def test_no_years(self):
        for cell in ["2025-27", "2025-25", "25-27", "25", "x", "2025-2027", "202526", "12025"]:
            for means in (None, "begins", "ends"):
                with self.assertRaises(sheet.Bad):
                    sheet.said_year(cell, True, means)


if __name__ == "__main__":
    unittest.main()
