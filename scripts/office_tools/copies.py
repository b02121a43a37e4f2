"""Copies: of a run, which go with it, and those that are kept."""
import contextlib
import hashlib
import os
import shutil
import sys
import tempfile
import time

from . import journal
from .say import UPGRADED, refuse, say, say_known

NO_COPY = 100
TRIES = 3
PIECE = 1 << 20
MOST_INPUT = 1 << 24    # what the program reads at most


class Left:
    """What a run leaves to nobody: its folder, and files that aren't whole."""
    folder = None
    parts = []


def clean():
    """Lets all that go."""
    for part in Left.parts:
        with contextlib.suppress(OSError):
            os.remove(part)
    if Left.folder:
        shutil.rmtree(Left.folder, ignore_errors=True)


def scratch(name):
    """A path in the folder of this run alone, or nothing where there is no room for one."""
    if Left.folder is None:
        try:
            Left.folder = tempfile.mkdtemp(dir=os.environ.get("TMPDIR") or "/tmp")
        except OSError:
            return None
    return os.path.join(Left.folder, name)


def needs_scratch(name):
    """The same, and a sentence where there is no room."""
    path = scratch(name)
    if path is None:
        refuse("there is no room for temporary files: name another folder by TMPDIR", 5)
    return path


def opened_alone(path, flags):
    """A new file, or one that is emptied, for its owner alone."""
    return os.fdopen(os.open(path, os.O_WRONLY | os.O_CREAT | flags, 0o600), "wb")


def keep_input(name):
    """Keeps standard input, as much as the program reads of it and a byte more, in a file of this run, which is read in its place from then
    on. The path, or nothing where there is no room for a file."""
    path, left = scratch(name), MOST_INPUT + 1
    if path:
        with open(path, "wb") as file:
            while left and (piece := sys.stdin.buffer.read(min(PIECE, left))):
                file.write(piece)
                left -= len(piece)
        with open(path, "rb") as file:
            os.dup2(file.fileno(), 0)
    return path


def copy_to(path, target, flags=os.O_TRUNC):
    """Copies a journal. A copy is an office at any time, also while another run writes. Whether it could be made. What memory alone has of
    the journal, since a device lost it, is let go first, as a run of the program does: it isn't on file."""
    try:
        with open(path, "rb") as source, opened_alone(target, flags) as copy:
            os.fsync(source.fileno())
            os.posix_fadvise(source.fileno(), 0, 0, os.POSIX_FADV_DONTNEED)
            shutil.copyfileobj(source, copy, PIECE)
    except OSError:
        return False
    return True


def sum_of(path):
    """The sha256 of a file."""
    with open(path, "rb") as file:
        return hashlib.file_digest(file, "sha256").hexdigest()


def sync(path):
    """Waits until what stands at a path is on the disk."""
    held = os.open(path, os.O_RDONLY)
    try:
        os.fsync(held)
    finally:
        os.close(held)


def folder_of(path):
    """The folder of a file."""
    return os.path.dirname(path) or "."


def text_of(path):
    """The bytes of a file."""
    with open(path, "rb") as file:
        return file.read()


def tries(run):
    """The status of a run on a copy, which is taken again where it was taken in the middle of a write."""
    for at in range(TRIES):
        status = run()
        if status != 7 or at == TRIES - 1:
            return status
        time.sleep(1)


def run_on_copy(office, path, words):
    """Runs the program on a copy, and gathers its text. The status, and where the text is."""
    copy, text = scratch("copy"), scratch("text")

    def once():
        if not copy_to(path, copy):
            return NO_COPY
        try:
            with open(text, "wb") as file:
                return office.run(words, copy, out=file)
        except OSError:
            return NO_COPY

    return tries(once), text


def refuse_unread(path):
    """Says why a file can't be read, where it can't."""
    try:
        open(path, "rb").close()
    except OSError as error:
        refuse(f"{path} can't be read: {error.strerror}: mend its rights, or those of its folder", 5)


def refuse_copy(path):
    """Says that no copy could be made: the file can't be read, or there is no room."""
    refuse_unread(path)
    refuse(f"{path} can't be copied to {Left.folder}: see to its room, or name another folder by TMPDIR", 5)


def needs_copy(office, words, path=None):
    """The same of a file that has to be copied: the status and the text."""
    path = path or office.journal
    needs_scratch("copy")
    if not os.path.isfile(path):
        refuse(f"{path} is no file that can be copied", 5)
    status, text = run_on_copy(office, path, words)
    if status == NO_COPY:
        refuse_copy(path)
    return status, text_of(text)


def try_on_copy(office):
    """A copy on which something is tried. What is refused of a journal with a gate that was harmed isn't tried either."""
    copy = needs_scratch("copy")
    if not os.path.isfile(office.journal):
        refuse(f"{office.journal} is no file that can be copied", 5)
    office.refuse_hurt(office.journal)
    if not copy_to(office.journal, copy):
        refuse_copy(office.journal)
    return copy


def is_there(path):
    """Whether anything stands at a path."""
    return os.path.lexists(path)


def part_of(path, what):
    """The name that a file has until it is whole, where there is none of that name."""
    if is_there(f"{path}.part"):
        refuse(f"{path}.part is there already, of {what} that wasn't finished: move it away first", 2)
    return f"{path}.part"


def name_new(part, path):
    """Names a whole file, where there is none of that name."""
    try:
        os.link(part, path)
    except FileExistsError:
        refuse(f"{path} is there already, and no copy is written over: name another file", 2)
    except OSError:
        os.rename(part, path)
        return
    os.remove(part)


def backup(office, path):
    """A copy that was opened, each filing of which was judged, and its seal."""
    if is_there(path):
        refuse(f"{path} is there already, and no copy is written over: name another file", 2)
    part = part_of(path, "a copy")
    if not os.path.isfile(office.journal):
        refuse(f"{office.journal} is no file that can be copied", 5)
    text, flags = needs_scratch("text"), [os.O_EXCL]
    Left.parts.append(part)

    def once():
        if not copy_to(office.journal, part, flags.pop() if flags else os.O_TRUNC):
            refuse_unread(office.journal)
            refuse(f"{part} can't be written: see to its folder and its room", 5)
        hurt = None if office.cut else journal.hurt_gate(part, office.journal)
        with open(text, "wb") as file:
            if hurt is None:
                return office.run(["report", "seal"], part, out=file)
            file.write(b"fault damaged %d\n" % hurt)
            return 7

    status = tries(once)
    if status:
        Left.parts.remove(part)
        office.write(text_of(text))
        say(f"{part} doesn't open, and is kept as it is")
        return status
    sync(part)
    name_new(part, path)
    sync(folder_of(path))
    print(f"{os.path.getsize(path)} bytes, sha256 {sum_of(path)}, {text_of(text).decode().strip()}")
    return 0


def first_difference(path, copy, size):
    """The place of the first of so many bytes in which two files differ, from 1, and whether the first file ends there. Nothing where none does."""
    at = 0
    with open(path, "rb") as one, open(copy, "rb") as other:
        while at < size:
            want = other.read(min(PIECE, size - at))
            got = one.read(len(want))
            if got != want:
                same = next((place for place, (a, b) in enumerate(zip(got, want)) if a != b), len(got))
                return (at + same, True) if same == len(got) else (at + same + 1, False)
            at += len(want)
    return None


def since(office, path):
    """Whether the bytes of a copy, up to its closed gate, stand at the front of the journal, and the seal of the copy."""
    if not os.path.isfile(path):
        refuse(f"there is no file {path}: name a copy that backup made, or notes of seals", 2)
    if not os.path.isfile(office.journal):
        refuse(f"{office.journal} is no file that can be read", 5)
    office.refuse_hurt(path)
    status, text = needs_copy(office, ["report", "seal"], path)
    if status:
        office.write(text)
        office.say_status(status, path)
        return status
    size = os.path.getsize(scratch("copy")) - 1
    found = first_difference(office.journal, scratch("copy"), size)
    if found is None:
        print(f"the {size} bytes of {path} stand in {office.journal}")
    else:
        place, is_end = found
        print(f"{office.journal} has other bytes than {path}: " + (f"it ends behind byte {place}" if is_end else f"the first is byte {place}"))
    print(text.decode(), end="")
    return 0 if found is None else 1


def salvage(office, path):
    """What stands before the damage, as an office of its own."""
    if is_there(path):
        refuse(f"{path} is there already: name another file", 2)
    status, text = needs_copy(office, ["report", "lifetime"])
    hurt = journal.hurt_gate(office.journal) if status == 0 else None
    if status == 0 and hurt is None:
        refuse(f"{office.journal} isn't damaged: it opens", 2)
    if status not in (0, 7):
        office.write(text)
        office.say_status(status)
        return status
    place = hurt if status == 0 else int(text.split()[2])
    if place == journal.HEAD:
        refuse(f"{office.journal} has no filing before its byte 16: its first one is damaged, or it is another desk's journal", 7)
    try:
        with open(scratch("copy") if status else office.journal, "rb") as source, opened_alone(path, os.O_EXCL) as file:
            Left.parts.append(path)
            file.write(source.read(place) + b"\0")
    except OSError:
        refuse(f"{path} can't be written", 5)
    status = office.run(["file"], path)
    if status:
        refuse(f"what stands before the byte {place} doesn't open", status)
    sync(path)
    Left.parts.remove(path)
    print(f"what stands before the byte {place} is in {path}")
    return 0


def may_be_founded(path):
    """Whether the program founds an office in what stands at a path: nothing, too few bytes for one, or a founding that didn't end."""
    if not is_there(path):
        return True
    if not os.path.isfile(path) or not os.access(path, os.R_OK):
        return False
    with open(path, "rb") as file:
        front = file.read(18)
    return len(front) < 17 or len(front) == 17 and front[0] != 1


def look_before_found(path):
    """Refuses to found over what isn't left of a founding that was stopped."""
    if not os.path.isfile(path) or not os.access(path, os.R_OK):
        return
    with open(path, "rb") as file:
        front = file.read(18)
    is_left = not front or front[0] == 0 or front[0] == 1 and len(front) == 17
    if len(front) < 18 and not is_left:
        refuse(f"{path} has {len(front)} bytes, which founding would write over: move it away first", 6)


def found(office, *_):
    """Makes the file of a new office for its owner alone, and founds the office. Other words leave no file."""
    path = office.journal
    look_before_found(path)
    made = not is_there(path)
    if made:
        try:
            opened_alone(path, os.O_EXCL).close()
        except OSError:
            made = False
    status = office.run(office.words)
    if status == 2 and made:
        os.remove(path)
    office.say_status(status)
    return status


def upgrade(office, old):
    """Copies a journal of version 1 into an office that is founded in a new file, which has its name once all of it is there."""
    new = office.journal
    if not (os.path.isfile(old) and os.access(old, os.R_OK)):
        refuse(f"{old} is no file that can be read: mend the path, or its rights", 2)
    if is_there(new) and os.path.samefile(new, old):
        refuse(f"{new} is the old journal itself: name a new file in front of upgrade", 2)
    look_before_found(new)
    office.refuse_hurt(old)
    if not may_be_founded(new):
        status = office.run(office.words)
        say_known(UPGRADED, status, new=new, old=old)
        return status
    part, was_there = part_of(new, "an upgrade"), is_there(new)
    try:
        opened_alone(part, os.O_EXCL).close()
    except OSError as error:
        refuse(f"{part} can't be written: {error.strerror}; mend that, and run it again; {old} is as it was", 5)
    Left.parts.append(part)
    status = office.run(office.words, part)
    if status == 0:
        # what was there as the run began holds no office
        os.replace(part, new) if was_there else name_new(part, new)
        sync(folder_of(new))
        return 0
    if not say_known(UPGRADED, status, new=new, old=old):
        office.say_status(status)
    return status
