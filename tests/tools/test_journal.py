"""Where a journal's end is one that no run leaves."""
import os
import tempfile
import unittest

from office_tools import journal
from rows import AT_BROWN, BROWN, FILINGS, GREEN, PLAIN, file_ahead, file_of, old_file_of, record

HEAD = bytes.fromhex("01 4149445045 4c4c31 02000000 000000")
# A loan office's limits, a borrower and a loan, as docs/DESKS.md has their columns, and a work-study fund: without stamps.
LOANS = [bytes([101 + at]) + bytes(4) + (at + 1).to_bytes(8, "little") + bytes(30) for at in range(3)]


def file_without_stamps(payloads):
    """A journal of another desk."""
    return HEAD + b"".join(b"\1" + len(each).to_bytes(4, "little") + each for each in payloads) + b"\0"


class HurtGates(unittest.TestCase):
    """`hurt_gate` over files that are made by hand."""

    def setUp(self):
        self.folder = tempfile.TemporaryDirectory()
        self.addCleanup(self.folder.cleanup)

    def path(self, data, name="journal"):
        """A file with these bytes."""
        path = os.path.join(self.folder.name, name)
        with open(path, "wb") as file:
            file.write(data)
        return path

    def gates(self, data):
        """The places of the gates of a whole file."""
        found = [16]
        while data[found[-1]] == 1:
            found.append(found[-1] + 5 + int.from_bytes(data[found[-1] + 1 : found[-1] + 5], "little"))
        return found

    def test_whole_files(self):
        """An office of any length, of any version and of any desk is whole, and so is what was written ahead behind it."""
        for count in range(4):
            for data in [file_of(count), file_of(count, [BROWN, GREEN]), old_file_of(count), file_ahead(count), file_without_stamps(LOANS[:count])]:
                self.assertIsNone(journal.hurt_gate(self.path(data)))

    def test_each_gate(self):
        """Each gate that is closed or harmed in front of another filing is found; the last filing's, closed, reads as one written ahead."""
        for data in [file_of(3), file_of(3, [BROWN, GREEN]), old_file_of(3), file_without_stamps(LOANS)]:
            *gates, last, end = self.gates(data)
            for gate in gates:
                self.assertEqual(journal.hurt_gate(self.path(data[:gate] + b"\0" + data[gate + 1 :])), gate)
            for gate in [*gates, last, end]:
                for byte in (b"\2", b"\xff"):
                    self.assertEqual(journal.hurt_gate(self.path(data[:gate] + byte + data[gate + 1 :])), gate)
            self.assertIsNone(journal.hurt_gate(self.path(data[:last] + b"\0" + data[last + 1 :])))

    def test_bytes_behind(self):
        """So many bytes may stand behind the closed gate, and not one more."""
        data = file_of(3)
        self.assertIsNone(journal.hurt_gate(self.path(data + bytes(journal.MOST_BEHIND))))
        self.assertEqual(journal.hurt_gate(self.path(data + bytes(journal.MOST_BEHIND + 1))), len(data) - 1)
        self.assertEqual(journal.MOST_BEHIND, 8_192 + 4 + 1 + 4_096)

    def test_torn_ends(self):
        """No part of a record that was written ahead is taken for damage, nor what is left of an older one behind it."""
        data = file_of(1)
        ahead = record(FILINGS[1], BROWN) + b"\0"
        for start in range(len(ahead)):
            for end in range(start, len(ahead) + 1):
                self.assertIsNone(journal.hurt_gate(self.path(data + ahead[start:end])))
            self.assertIsNone(journal.hurt_gate(self.path(data + record(FILINGS[2], PLAIN) + b"\0" + ahead[start:] + bytes(64))))

    def test_what_the_program_refuses(self):
        """Of what is no journal, or is cut in the middle of a record, the program itself says so."""
        data = file_of(3)
        for other in [b"", b"notes", data[:16], data[:40], data[:-1], b"\0" + data[1:], data[:17] + b"\xff" * 8]:
            self.assertIsNone(journal.hurt_gate(self.path(other)))
        self.assertIsNone(journal.hurt_gate(os.path.join(self.folder.name, "none")))
        self.assertIsNone(journal.hurt_gate(self.folder.name))

    def test_a_run_meanwhile(self):
        """A copy in which a gate was closed is whole where a run has opened it since."""
        data = file_of(3)
        gate = self.gates(data)[1]
        copy = self.path(data[:gate] + b"\0" + data[gate + 1 :], "copy")
        self.assertIsNone(journal.hurt_gate(copy, self.path(data)))
        self.assertEqual(journal.hurt_gate(copy, copy), gate)
        with open(copy, "rb") as file:
            self.assertTrue(journal.is_left_so(file, len(data)))

    def test_stamps(self):
        """A stamp is a day and a clerk's name, as the words of a run say them."""
        self.assertEqual(AT_BROWN[2].encode(), bytes.fromhex(BROWN.replace(" ", ""))[5:])
        payload = bytes.fromhex(FILINGS[0].replace(" ", ""))
        for stamp, right in [(PLAIN, True), (BROWN, True), ("6c4f0000 01 2d", False), ("6c4f0000 05 62726f77", False), ("ffffff7f 01 62", False)]:
            self.assertEqual(journal.is_stamped(bytes.fromhex(stamp.replace(" ", "")) + payload), right)


if __name__ == "__main__":
    unittest.main()
