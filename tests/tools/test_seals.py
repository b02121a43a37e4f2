"""The line of a seal, and notes of them, by hand."""
import contextlib
import io
import os
import sys
import tempfile
import unittest

sys.dont_write_bytecode = True
sys.path.insert(0, os.path.join(os.path.dirname(os.path.dirname(os.path.dirname(os.path.abspath(__file__)))), "scripts"))
from office_tools import seals, tables

LINE = "sealed 18 d35f528348bad3e0a53647fb2b439ef3cc00f1ff4cc9a8ec584b01e6313d9ba9"


class Lines(unittest.TestCase):
    def test_lines(self):
        for line in [LINE, LINE.replace("18", "0"), LINE.replace("18", "1000000")]:
            self.assertTrue(seals.is_line(line), line)
        for line in ["", "sealed 18", LINE[:-1], f"{LINE}0", f"{LINE}\n", f" {LINE}", LINE.replace("18", "018"), LINE.replace("18", "+1"), LINE.replace("18", ""), LINE.replace("f5", "F5"), LINE.replace("18", "\u0661")]:
            self.assertFalse(seals.is_line(line), line)

    def test_without(self):
        for lines, want in [([], []), ([LINE], []), (["none", LINE], ["none"]), (["a", "b"], ["a", "b"]), ([LINE, "a"], [LINE, "a"]), (["a\n", f"{LINE}\n"], ["a\n"])]:
            self.assertEqual(seals.without(lines), want)

    def test_needed(self):
        self.assertEqual(seals.needed(["a", LINE], "it"), ["a"])
        for lines in [[], ["a"], [LINE, "a"], [LINE[:-1]]]:
            said = io.StringIO()
            with self.assertRaises(SystemExit) as ended, contextlib.redirect_stderr(said):
                seals.needed(lines, "the worksheet")
            self.assertEqual((ended.exception.code, said.getvalue()), (1, "office: the worksheet was cut short, for the line of its seal is missing: run it again\n"))

    def test_a_text_that_was_cut(self):
        for text, want in [(f"1 x\nrows 1\n{LINE}\n", [["1", "x"]]), ("1 x\nrows 1\n", [["1", "x"]]), (f"1 x\nrows 1\n{LINE[:20]}", None), (f"1 x\n{LINE}\n", None), (f"rows 0\n{LINE}\n{LINE}\n", None)]:
            self.assertEqual(tables.whole_lines("".join(seals.without(text.splitlines(True)))), want, text)


class Notes(unittest.TestCase):
    def notes(self, data):
        """The notes of a file with these bytes, or what is said of them."""
        said = io.StringIO()
        with tempfile.NamedTemporaryFile() as file:
            file.write(data)
            file.flush()
            try:
                with contextlib.redirect_stderr(said):
                    return seals.begins_as_journal(file.name), seals.notes_of(file.name)
            except SystemExit as ended:
                return ended.code, said.getvalue().replace(file.name, "NOTES")

    def test_notes(self):
        other = LINE.replace("18", "19")
        self.assertEqual(self.notes(f"{LINE}\n{other}\n".encode()), (False, [LINE, other]))
        self.assertEqual(self.notes(b""), (2, "office: NOTES is empty: it is no copy of a journal, and has no note\n"))
        for data, says in [
            (f"{LINE}\n{other}".encode(), "line 2: this note has no line end, and the next one would join it: end it by: echo >> NOTES"), (LINE.encode(), "line 1: this note has no line end"),
            (f"\ufeff{LINE}\n".encode(), "line 1: this begins with a byte-order mark"), (f"{LINE}\n".encode("utf-16"), "line 1: this begins with a byte-order mark"),
        ]:
            status, said = self.notes(data)
            self.assertEqual((status, says in said), (2, True), data)
        for data, line in [(f"{LINE}{LINE}\n", 1), ("x" * 1000, 1), ("\n", 1), (f"{LINE}\n" + "x" * 1000, 2), (f"{LINE}\n\n", 2), (f"{LINE}\r\n", 1), (f"{LINE}\n{LINE}\nrows 2\n", 3), (f"{LINE}\n{LINE[:40]}", 2), (f"{LINE}\u00e9\n", 1), (f"{LINE}\r{LINE}\n", 1)]:
            status, said = self.notes(data.encode())
            self.assertEqual((status, said.startswith(f"office: NOTES, line {line}: this is no note")), (2, True), data)

    def test_no_file(self):
        for read in (seals.begins_as_journal, seals.notes_of):
            with self.assertRaises(SystemExit) as ended, contextlib.redirect_stderr(io.StringIO()) as said:
                read("/nowhere")
            self.assertEqual((ended.exception.code, said.getvalue()), (5, "office: /nowhere can't be read: No such file or directory\n"))

    def test_a_journal(self):
        with tempfile.NamedTemporaryFile() as file:
            for data, want in [(b"", False), (b"\1", True), (b"\0AIDPELL1", True), (b"sealed 1", False)]:
                file.truncate(0)
                file.seek(0)
                file.write(data)
                file.flush()
                self.assertEqual(seals.begins_as_journal(file.name), want, data)


if __name__ == "__main__":
    unittest.main()
