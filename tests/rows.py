"""Three rows, the file that keeps their filings, and the text that answers them."""

ROWS = b"school,0,1,110,2,12\nprior,0,2,5001,550000\nprior,0,3,5002,1\n"
HEADER = "01 4149445045 4c4c31 02000000 000000"
# The stamp of a run that says none, and those of runs that say one.
PLAIN = "00000000 00"
BROWN = "6c4f0000 05 62726f776e"
GREEN = "04500000 05 677265656e"
AT_BROWN, AT_GREEN = ["at", "2025-09-01", "brown"], ["at", "2026-01-31", "green"]
FILINGS = [
    "02 00000000 0100000000000000 6e000000 02 0c",
    "04 00000000 0200000000000000 8913000000000000 70640800",
    "04 00000000 0300000000000000 8a13000000000000 01000000",
]


def record(filing, stamp):
    """A filing under a stamp, behind the length of both."""
    payload = bytes.fromhex(stamp + filing)
    return len(payload).to_bytes(4, "little") + payload


def file_of(count, stamps=()):
    """The file of an office with the filings of so many rows, in front under these stamps, and the others under the plain one."""
    stamps = [*stamps, *[PLAIN] * len(FILINGS)]
    records = [b"\1" + record(*each) for each in zip(FILINGS[:count], stamps)]
    return bytes.fromhex(HEADER) + b"".join(records) + b"\0"


def old_file_of(count):
    """The same file in the version before, which has no stamps."""
    records = [b"\1" + record(filing, "") for filing in FILINGS[:count]]
    return bytes.fromhex(HEADER)[:9] + b"\1" + bytes.fromhex(HEADER)[10:] + b"".join(records) + b"\0"


def file_ahead(count):
    """The same with the next row's record written ahead, behind a closed gate, where one follows."""
    return file_of(count) + b"".join(record(filing, PLAIN) + b"\0" for filing in FILINGS[count : count + 1])


def answers(count):
    """The text of the rows where the filings of so many of them stand already."""
    again = b"".join(b"%d %d again %d noted\n" % (row, count, row) for row in range(1, count + 1))
    return again + b"".join(b"%d %d accepted %d noted\n" % (row, row - 1, row) for row in range(count + 1, len(FILINGS) + 1))


def fronts(text):
    """The fronts of a text, by whole lines, and the text at last."""
    lines = text.splitlines(keepends=True)
    return [b"".join(lines[:count]) for count in range(len(lines) + 1)]
