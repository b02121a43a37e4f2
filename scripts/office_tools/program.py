"""The proved program: where it is, how its words begin, and what runs in its place where it isn't built."""
import functools
import os
import shutil
import subprocess

from . import TOP
from .say import refuse, say

NAME = "aid_office"
# The variable that names another build of it.
NAMED = "OFFICE_PROGRAM"
# Its first word is that of a desk with a journal behind it, or of what has no journal; else it is the journal of an aid office.
AID, SHEET, LOANS, WORK = "aid", "sheet", "loans", "work"
AUDIT, CLOCK = "audit", "clock"
FIRST_WORDS = (SHEET, LOANS, WORK, AUDIT, CLOCK)
SOURCES = (".rt", ".antt")
VERSION = "1.0"
# Of what was installed: the folder of the program, that of one without proof in it, and the file that says of what it was made.
INSTALLED, UNPROVED, RELEASE = "programs", "unproved", "release.txt"


def front(desk, path):
    """The words in front of those of a command on a journal."""
    if desk != AID:
        return [desk, written(path)]
    return [f"./{path}" if path in FIRST_WORDS else written(path)]


def written(path):
    """A path as a word that is no flag."""
    return f"./{path}" if path.startswith("-") else path


def named():
    """The build that the environment names."""
    return os.environ.get(NAMED, "")


def is_installed():
    """Whether this is what was installed, and no checkout."""
    return os.path.isdir(os.path.join(TOP, INSTALLED))


def built():
    """The path of the proved program, which may not be there."""
    return os.path.join(TOP, INSTALLED, NAME) if is_installed() else os.path.join(TOP, "crates", NAME, "out", NAME)


def installed_unproved():
    """The path of one that was installed without proof, which may not be there."""
    return os.path.join(TOP, INSTALLED, UNPROVED, NAME)


@functools.cache
def newest_source():
    """When the sources were changed last."""
    newest = os.path.getmtime(os.path.join(TOP, "crates.txt"))
    for folder, folders, files in os.walk(os.path.join(TOP, "crates")):
        folders[:] = [each for each in folders if each != "out"]
        for file in files:
            if file.endswith(SOURCES):
                newest = max(newest, os.lstat(os.path.join(folder, file)).st_mtime)
    return newest


def is_built():
    """Whether the proved program is there, and no source is newer."""
    path = built()
    return os.path.isfile(path) and os.access(path, os.X_OK) and (is_installed() or newest_source() <= os.path.getmtime(path))


def is_proved():
    """Whether what runs is the proved program."""
    return not named() and is_built()


def kept_build(*words):
    """The path that scripts/unproved_build prints, or nothing."""
    script = os.path.join(TOP, "scripts", "unproved_build")
    try:
        ended = subprocess.run([script, *words, NAME], stdin=subprocess.DEVNULL, stdout=subprocess.PIPE, stderr=subprocess.DEVNULL, cwd=TOP)
    except OSError:
        return ""
    return ended.stdout.decode("utf-8", "surrogateescape").strip() if ended.returncode == 0 else ""


@functools.cache
def place():
    """The path of what runs: the build that is named, the proved program, or a kept build without proof, which is made where there is none.
    Nothing where the sources have to be run."""
    if named():
        return named()
    if is_built():
        return built()
    if os.path.isfile(installed_unproved()):
        return installed_unproved()
    if not shutil.which("rt"):
        refuse("the program isn't built, and there is no rt to build it or to run its sources", 127)
    path = kept_build("--at")
    if path:
        return path
    say(
        "what runs isn't proved, since the program isn't built or is older than its sources; rt ci proves and builds it. Its sources are "
        "compiled once, in one to two minutes, and every further command runs that build"
    )
    path = kept_build()
    if not path:
        say("they couldn't be compiled, so each command runs the sources: it prints its text when it ends, after one minute to four")
    return path


def whole_path(path):
    """A path as it is from any folder."""
    folder = os.path.dirname(path) or "."
    return os.path.join(os.path.realpath(folder), os.path.basename(path)) if os.path.isdir(folder) else path


def line_of(words, paths=()):
    """What starts the program on these words, of which those at these places are paths, and the folder in which it runs."""
    path = place()
    if path:
        return [path, *words], None
    return ["rt", "try", "--", *(whole_path(word) if at in paths else word for at, word in enumerate(words))], os.path.join(TOP, "crates", NAME)


def release():
    """The version, and the commit of the checkout where it has one."""
    installed = os.path.join(TOP, RELEASE)
    if os.path.isfile(installed):
        with open(installed, encoding="utf-8") as file:
            return file.read().strip()
    git = lambda *words: subprocess.run(["git", "-C", TOP, *words], stdin=subprocess.DEVNULL, stdout=subprocess.PIPE, stderr=subprocess.DEVNULL).stdout
    commit = git("rev-parse", "--short=12", "HEAD").decode().strip() if shutil.which("git") else ""
    changed = " with changes" if commit and git("status", "--porcelain", "--untracked-files=no") else ""
    return f"office {VERSION}, commit {commit}{changed}" if commit else f"office {VERSION}"


def state():
    """What runs, and whether it is proved."""
    from .copies import sum_of
    if named():
        return f"{named()}, which {NAMED} names, sha256 {sum_of(named())}"
    if is_built():
        return f"{built()}, proved, sha256 {sum_of(built())}"
    path = installed_unproved() if os.path.isfile(installed_unproved()) else kept_build("--at")
    if path:
        return f"{path}, not proved, sha256 {sum_of(path)}"
    return "not built; rt ci proves and builds it, and until then its sources are run without their proof"


def version():
    """Which version this is, of which commit, and what runs, of which toolchain."""
    print(release())
    print(f"{NAME}: {state()}")
    if shutil.which("rt"):
        print(subprocess.run(["rt", "version"], stdin=subprocess.DEVNULL, stdout=subprocess.PIPE).stdout.decode("utf-8", "surrogateescape"), end="")
    return 0
