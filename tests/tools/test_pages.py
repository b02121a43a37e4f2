"""What pages cite: each crate and each file in backticks is there, and what scripts make of pages is as they make it now."""
import os
import re
import subprocess
import sys
import unittest

TOP = os.path.dirname(os.path.dirname(os.path.dirname(os.path.abspath(__file__))))
# A crate's file in backticks or below crates/, with or without its ending, and a file of the repository.
IN_CRATE = re.compile(r"(?<![\w/.-])(?:crates/)?([a-z]\w*)/((?:src|specs|proofs|must-fail)(?:/[\w/]+(?:\.\w+)?)?)")
ELSEWHERE = re.compile(r"(?<![\w/.-])((?:docs|scripts|tests|bench|examples)/[\w./-]*\w)")
# Words of other things that look so: what the text of an example names, or what a run makes.
MADE = {"docs/minutes.tsv"}


def pages():
    """Each page with its path."""
    for name in ["README.md", *sorted(f"docs/{it}" for it in os.listdir(os.path.join(TOP, "docs")) if it.endswith(".md"))]:
        with open(os.path.join(TOP, name), encoding="utf-8") as file:
            yield name, file.read()


def is_there(path):
    """Whether a file or a folder has this path, or a source without its ending."""
    return any(os.path.exists(os.path.join(TOP, path + end)) for end in ("", ".rt", ".antt"))


class Pages(unittest.TestCase):
    """What the pages cite is there."""

    def test_files_of_crates(self):
        for name, text in pages():
            for crate, path in IN_CRATE.findall(text):
                with self.subTest(page=name, path=f"{crate}/{path}"):
                    self.assertTrue(is_there(f"crates/{crate}/{path}"))

    def test_other_files(self):
        for name, text in pages():
            for path in ELSEWHERE.findall(text):
                with self.subTest(page=name, path=path):
                    self.assertTrue(path in MADE or is_there(path))

    def test_crates(self):
        """A word in backticks with the beginning of a layer's names is a crate, or a word of the sources."""
        crates = os.listdir(os.path.join(TOP, "crates"))
        begins = {it.partition("_")[0] + "_" for it in crates if "_" in it}
        named = {word: name for name, text in pages() for word in re.findall(r"`([a-z]+_\w+)`", text) if word.startswith(tuple(begins))}
        left = {it for it in named if it not in crates}
        for folder, _, files in os.walk(os.path.join(TOP, "crates")):
            for file in files if left else ():
                if file.endswith((".rt", ".antt")):
                    with open(os.path.join(folder, file), encoding="utf-8") as source:
                        left -= set(re.findall(r"\w+", source.read()))
        self.assertEqual({it: named[it] for it in left}, {})

    def test_what_scripts_make(self):
        made = subprocess.run([sys.executable, "scripts/make_crates.py", "--check"], cwd=TOP, capture_output=True, text=True)
        self.assertEqual((made.returncode, made.stdout), (0, ""))
        made = subprocess.run([sys.executable, "scripts/make_filings.py"], cwd=TOP, capture_output=True, text=True)
        self.assertTrue(dict(pages())["docs/FILINGS.md"] == made.stdout)


if __name__ == "__main__":
    unittest.main()
