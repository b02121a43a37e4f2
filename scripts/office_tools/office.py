"""One command on a journal: what stands in front of it, which desk of the program takes it, and how its status is told."""
import os
import sys

from . import copies, filing, journal, running
from .program import AID, SHEET, front
from .say import STATUSES, refuse, say, say_known, visible

READS = ("file", "round", "book", "generate")       # commands that read standard input


def is_late(text):
    """Whether a sheet of what is due has a return that is late."""
    return any(line.split(b",")[1] != b"0" for line in text.splitlines()[1:])


class Office:
    """A journal, and the words of a command on it."""

    def __init__(self, path, words, desk=AID, stamp=(), options=None):
        self.journal, self.words, self.desk, self.stamp = path, words, desk, list(stamp)
        self.options, self.flags = options, []
        self.stands = "is answered again"
        self.takes_stamp = self.salvages = desk == AID

    @property
    def cut(self):
        """Whether what stands behind a hurt gate may be cut off."""
        return bool(self.options and self.options.cut)

    @property
    def lenient(self):
        """Whether a run in which not all stands may end with 0."""
        return bool(self.options and self.options.lenient)

    def line(self, words, path=None):
        """The words of the program: the desk, the journal, or a copy, then the stamp, and these."""
        return [*front(self.desk, path or self.journal), *self.stamp, *words]

    def run(self, words, path=None, out=None, given=None, take=None, keeps_on=False):
        """The status of the program on these words, with the stamp in front, and on a copy where its path is said."""
        line = self.line(words, path)
        journal, command = len(line) - len(words) - len(self.stamp) - 1, len(line) - len(words)
        files = range(command + 1, len(line)) if words[:1] in (["desks"], ["upgrade"]) else (command + 1,) if words[:1] in (["amend"], ["changes"]) else ()
        return running.run(line, (journal, *files), given, out, take=take, keeps_on=keeps_on)

    def say_status(self, status, path=None):
        """A sentence on a status of the program, with the path of the journal, or another one, and the next step."""
        path = path or self.journal
        if status == 7 and self.salvages:
            say(f"{STATUSES[7].format(journal=path)}, or see office {path} salvage NEW (docs/ANSWERS.md, status 7)")
        else:
            say_known(STATUSES, status, journal=path, stands=self.stands)

    def file(self, copy=None):
        """Runs a command that files, on a copy where one is said. 1 where the program's status is 0 and something isn't on file."""
        if copy is None:
            self.refuse_hurt(self.journal)
        reads = self.words[0] in READS
        filed = filing.Filed(self, copy is None and self.takes_stamp and not self.stamp)
        if running.is_told():
            filed.total = filing.rows_told(self.words)
            running.State.tells = filed.progress
        if self.words[0] in ("book", "generate"):
            copies.keep_input("book")
        status = self.run(self.words, copy, given=running.INPUT if reads else None, take=filed.take)
        self.say_status(status)
        return status or filed.status(self.lenient)

    def plainly(self, copy):
        """Runs the command on a copy, and ends as the program does."""
        status = self.run(self.words, copy)
        self.say_status(status)
        return status

    def refuse_hurt(self, path):
        """Refuses to run on a journal in which more stands behind the closed gate than a run leaves, for the program would cut it off."""
        hurt = self.hurt(path)
        if hurt is not None:
            self.say_hurt(hurt, path)
            raise SystemExit(7)

    def hurt(self, path=None):
        """The place of such a gate, or nothing."""
        return None if self.cut else journal.hurt_gate(path or self.journal)

    def say_hurt(self, place, path=None):
        """The line and the sentence on a journal with such a gate."""
        path = path or self.journal
        salvage = f", or see office {path} salvage NEW" if self.salvages else ""
        self.write(b"fault damaged %d\n" % place)
        say(
            f"{path} is damaged at its byte {place}: more stands behind the gate there than a run leaves, and a run would cut it off. It was "
            f"left as it is: take the last copy{salvage}; --cut in front of the command cuts (docs/ANSWERS.md, status 7)"
        )

    def write(self, text):
        """Hands on a text of the program. 4 where it can't be written."""
        try:
            sys.stdout.flush()
            while text:
                text = text[os.write(1, text):]
        except BrokenPipeError:
            return 4
        except OSError as error:
            say(f"the text can't be written: {error.strerror}")
            return 4
        return 0

    def hand_on(self, path):
        """Hands on a text of the program that stands in a file."""
        with open(path, "rb") as file:
            while piece := file.read(copies.PIECE):
                if self.write(piece):
                    return 4
        return 0

    def read_only(self, take=None):
        """Runs a command that only reads on a copy, and prints its text. Without room for a copy or the text it runs on the journal, and `take`
        gets each line as it comes. Of a journal with a gate that was harmed it would tell a shorter office: it is refused."""
        self.refuse_hurt(self.journal)
        status, text = copies.NO_COPY, None
        if os.path.isfile(self.journal) and copies.scratch("copy"):
            status, text = copies.run_on_copy(self, self.journal, self.words)
        if status == copies.NO_COPY:
            status = self.run(self.words, take=take)
        elif status == 4:
            status = self.run(self.words, copies.scratch("copy"), take=take)
        elif self.hand_on(text):
            return 4
        self.say_status(status)
        return status

    def sheet(self):
        """A sheet of a copy. 1 where there is nothing to tell of these names, or there are fewer filings, and where a return is late."""
        self.desk, self.stamp = SHEET, []
        behind, lines = self.words[2:] if self.words[0] == "upto" else self.words, []
        status = self.read_only(lines.append if behind[0] == "due" else None)
        if status:
            return status
        path = copies.scratch("text")
        text = b"\n".join(lines) if lines else copies.text_of(path) if path and os.path.exists(path) else b""
        if text.split(b"\n", 1)[0] == b"none" and self.words[0] != "due":
            refuse(f"there is nothing in {self.journal} to tell of these names, or it has fewer filings", 1)
        if behind[0] == "review" and text.split(b"\n", 2)[1:2] == [b"== Year book"]:
            refuse(f"there is no application of student {behind[1]} for {behind[2]} in {self.journal}, or in so many of its filings", 1)
        return 1 if behind[0] == "due" and is_late(text) else 0

    def needs(self, words, desk=None):
        """The text of a command on a copy, whose status has to be 0. A journal with a gate that was harmed is refused."""
        self.refuse_hurt(self.journal)
        if desk:
            self.desk, self.stamp = desk, []
        status, text = copies.needs_copy(self, words)
        if status:
            print(visible(text.decode("utf-8", "replace"), "\n"), end="", file=sys.stderr)
            self.say_status(status)
            raise SystemExit(status)
        return text.decode("ascii", "replace")
