"""Sheets to fill in: what stands in them, and the rows that are made of them."""
import os
import re
import sys
import unittest

sys.dont_write_bytecode = True
TOP = os.path.dirname(os.path.dirname(os.path.dirname(os.path.abspath(__file__))))
sys.path.insert(0, os.path.join(TOP, "scripts"))
from office_tools import columns, template

KINDS = columns.read()
# HEA 480: an application's amounts, those of the student and those of the parents.
AMOUNTS = """agi ira interest ira_untaxed pension foreign grants credits work_study tax earned_first earned_second support cash investments business""".split()


class Templates(unittest.TestCase):
    def test_each_kind(self):
        for kind in KINDS:
            names, ranges, example = template.lines(kind)
            self.assertEqual({len(names), len(ranges), len(example)}, {len(names)}, kind)
            self.assertEqual(names[:3], ["#", "school", "number"])
            for name in names[1:]:
                self.assertEqual(columns.fits(kind, KINDS[kind], name), name)

    def test_ranges(self):
        names, ranges, _ = template.lines("apply")
        of = dict(zip(names, ranges))
        self.assertEqual((of["family"], of["married"]), ("a whole number, 1 to 30", "1 for yes, 0 for no"))
        self.assertEqual(of["parent_tax"], "a whole number, -99999999 to 99999999; empty is 0")
        self.assertEqual(of["year"], "an award year, as 2025-26")

    def test_empty_is_nothing(self):
        found = {(kind, column.name) for kind, of_kind in KINDS.items() for column in of_kind if columns.is_nothing_where_empty(kind, column)}
        self.assertEqual(found, {("apply", f"{side}{name}") for side in ("", "parent_") for name in AMOUNTS})

    def test_notes(self):
        self.assertEqual([template.is_note(cells) for cells in ({"#": "# range"}, {"#": ""}, {"#Name": "# 1"}, {"student": "#"})], [True, False, False, False])


if __name__ == "__main__":
    unittest.main()
