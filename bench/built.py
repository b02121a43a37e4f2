"""The programs of this repository, as they are built, and what a disk's sync costs."""
import os
import statistics
import sys
import tempfile
import time

TOP = os.path.dirname(os.path.dirname(os.path.abspath(__file__)))


def crates_below(crate):
    """A crate and all that it stands on, by crates.txt."""
    with open(os.path.join(TOP, "crates.txt")) as file:
        lines = [line.partition("#")[0].partition(":") for line in file]
    below = {name.split()[0]: stands_on.split() for name, colon, stands_on in lines if colon}
    found, waiting = set(), [crate]
    while waiting:
        name = waiting.pop()
        if name in below and name not in found:
            found.add(name)
            waiting += below[name]
    return found


def changed(crate):
    """When a source of a crate was changed last."""
    folders = [os.path.join(TOP, "crates", crate, part) for part in ("src", "specs", "proofs")]
    paths = [os.path.join(above, name) for folder in folders for above, _, names in os.walk(folder) for name in names]
    return max(map(os.path.getmtime, paths))


def program_of(crate):
    """The path of a crate's program. Where it isn't built, or is older than one of its sources, the script ends and says what to
    build: a program is built by its proof, which no script begins unasked."""
    path = os.path.join(TOP, "crates", crate, "out", crate)
    if not os.access(path, os.X_OK) or max(map(changed, crates_below(crate))) > os.path.getmtime(path):
        sys.exit(f"{sys.argv[0]}: the program isn't built, or is older than its sources: call `rt run` in crates/{crate}")
    return path


def older_program(words):
    """The path behind `--beside`, which with its path leaves the words: an older program to be run in turns with the built one."""
    if "--beside" not in words[:-1]:
        return None
    at = words.index("--beside")
    path = os.path.abspath(words[at + 1])
    del words[at : at + 2]
    if not os.access(path, os.X_OK):
        sys.exit(f"{sys.argv[0]}: {path} is no program")
    return path


def lone_sync(above):
    """The microseconds that a sync of one byte inside a file of this folder takes, the middle of 150."""
    with tempfile.TemporaryFile(dir=above) as file:
        os.pwrite(file.fileno(), bytes(8192), 0)
        os.fsync(file.fileno())
        times = []
        for at in range(150):
            start = time.monotonic()
            os.pwrite(file.fileno(), b"\1", at)
            os.fdatasync(file.fileno())
            times.append(time.monotonic() - start)
        return 1e6 * statistics.median(times)
