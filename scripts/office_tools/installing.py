"""Puts the program, the scripts, the pages, the manual page and what shells complete under a folder."""
import contextlib
import io
import os
import shutil
import tempfile

from . import TOP, guide, program
from .say import refuse, say

# What goes along from the top of the checkout.
ALONG = ["LICENSE", "README.md", "docs", "examples", "office", os.path.join("scripts", "nightly"), os.path.join("scripts", "seal.py"), os.path.join("scripts", "office_tools")]
LINK = os.path.join("..", "lib", "office", "office")
# What is printed into a file, and the file's place below the prefix.
TEXTS = [
    (guide.man, [], "share/man/man1/office.1"),
    (guide.completion, ["bash"], "share/bash-completion/completions/office"),
    (guide.completion, ["zsh"], "share/zsh/site-functions/_office"),
]


def printed(command, words):
    """What a command prints."""
    with contextlib.redirect_stdout(io.StringIO()) as text:
        command(words)
    return text.getvalue()


def put_program(folder):
    """Copies the program: a proved one into programs/, and any other into programs/unproved/."""
    source = program.place()
    if not source:
        refuse(f"{program.NAME} can't be built here, so nothing was installed", 1)
    proved = program.is_proved()
    target = os.path.join(folder, program.INSTALLED, "" if proved else program.UNPROVED, program.NAME)
    os.makedirs(os.path.dirname(target), exist_ok=True)
    shutil.copy2(source, target)
    if not proved:
        say(f"{program.NAME} isn't proved, and stands in {program.UNPROVED}/: run rt ci and install again")


def put_tree(folder):
    """Makes the folder of all that `office` needs."""
    for name in ALONG:
        source, target = os.path.join(TOP, name), os.path.join(folder, name)
        os.makedirs(os.path.dirname(target), exist_ok=True)
        if os.path.isdir(source):
            shutil.copytree(source, target, ignore=shutil.ignore_patterns("__pycache__"))
        else:
            shutil.copy2(source, target)
    put_program(folder)
    with open(os.path.join(folder, program.RELEASE), "w", encoding="utf-8") as file:
        file.write(program.release() + "\n")


def look_at(place, link):
    """Refuses a prefix at which something else has these names."""
    if os.path.lexists(place) and not os.path.isfile(os.path.join(place, program.RELEASE)):
        refuse(f"{place} is there and wasn't installed by this: name another PREFIX, or move it away", 1)
    if os.path.lexists(link) and not (os.path.islink(link) and os.readlink(link) == LINK):
        refuse(f"{link} is there and wasn't installed by this: name another PREFIX, or move it away", 1)


def put_in_place(place):
    """Makes the folder, whole before it has its name. An older one that it takes the place of goes, or has its name again."""
    os.makedirs(os.path.dirname(place), exist_ok=True)
    work = tempfile.mkdtemp(prefix=".office-", dir=os.path.dirname(place))
    fresh, old = os.path.join(work, "new"), os.path.join(work, "old")
    try:
        os.makedirs(fresh)
        put_tree(fresh)
        if os.path.lexists(place):
            os.rename(place, old)
        try:
            os.rename(fresh, place)
        except OSError:
            if os.path.lexists(old):
                os.rename(old, place)
            raise
    finally:
        shutil.rmtree(work, ignore_errors=True)


def install(words):
    """Makes PREFIX/lib/office with all of it, and PREFIX/bin/office that leads there."""
    prefix = os.path.realpath(words[0])
    place, link = os.path.join(prefix, "lib", "office"), os.path.join(prefix, "bin", "office")
    look_at(place, link)
    try:
        put_in_place(place)
        for command, behind, path in TEXTS:
            path = os.path.join(prefix, path)
            os.makedirs(os.path.dirname(path), exist_ok=True)
            with open(path, "w", encoding="utf-8") as file:
                file.write(printed(command, behind))
        if not os.path.lexists(link):
            os.makedirs(os.path.dirname(link), exist_ok=True)
            os.symlink(LINK, link)
    except OSError as error:
        refuse(f"{error.filename or prefix}: {error.strerror}; not all was installed", 5)
    print(f"{link}\n{place}")
    return 0
