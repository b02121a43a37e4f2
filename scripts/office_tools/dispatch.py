"""Which words go where: takes what stands in front of a command, judges its words by the table, and runs it."""
import fcntl
import os
import time
from dataclasses import dataclass

from . import amending, approval, before, copies, ids, running, settings, what_if
from .commands import JUDGE_THEMSELVES, ON_JOURNAL, OTHER_DESKS, TOOLS, first_words, table_of
from .office import Office
from .say import refuse, say
from .words import CLERK, DAY, first_wrong, near, number, rest

SECONDS = number("SECONDS", 1, 86_400)
OTHER_NAMES = {"-h": "help", "--help": "help", "version": "--version"}
TRIED = ("file", "book", "fund", "desks", "generate", "quote", "report", "intake", "need", "amend")
# What is tried in another way than it is run.
TRIALS = {
    "intake": before.try_intake, "file": before.try_rows, "desks": before.try_rows, "fund": approval.dry_fund, "need": what_if.dry_need,
    "amend": amending.try_amend,
}
SHEETS = ("list", "student", "need", "review", "quotes", "payments", "withdrawal", "due", "returns", "book", "report")


@dataclass
class Options:
    """What stands in front of a command."""
    lenient: bool = False
    cut: bool = False
    wait: int = 0


def options_in(words, options):
    """Takes the options in front of some words, and returns the rest."""
    while words[:1] in (["--lenient"], ["--cut"], ["--wait"]):
        name, *words = words
        if name == "--wait":
            if not words or SECONDS.wrong(words[0]):
                refuse(f"--wait wants SECONDS, {SECONDS.says}: office --wait 60 JOURNAL COMMAND", 2)
            options.wait, words = int(words[0]), words[1:]
        else:
            setattr(options, name[2:], True)
    return words


def look_at(path, command):
    """Refuses a path that is none, and one at which the program would make an empty file in vain."""
    if path.startswith("-"):
        refuse(f"a path may not begin with -: write ./{path} for a file of that name", 2)
    if os.path.exists(path) or command in ("found", "upgrade"):
        return
    if path in first_words(ON_JOURNAL):
        refuse(f"JOURNAL comes first: office JOURNAL {path}", 2)
    question = near(path, first_words(TOOLS)) if os.path.basename(path) == path and "." not in path else ""
    refuse(f"there is no file {path}: mend the path, or found an office there by: office {path} found{question}", 2)


def find(words, table):
    """The command of some words, and the words behind it."""
    for size in (2, 1):
        command = table.get(" ".join(words[:size])) if len(words) >= size else None
        if command:
            return command, words[size:]
    return None, words


def wrong_name(words, table, front):
    """What is said of words that are no command of a table."""
    names = first_words(table.values())
    if not words:
        return f"a command is missing: {front}COMMAND; office help has all"
    kinds = [name.split()[1] for name in table if name.startswith(f"{words[0]} ")]
    if kinds:
        found = f"`{words[1]}` is none of these" if len(words) > 1 else f"one of these is missing behind {words[0]}"
        return f"{found}: {front}{words[0]} {'|'.join(kinds)}"
    return f"there is no command {words[0]}{near(words[0], names)}; office help has all"


def refuse_wrong(office, command, behind, front):
    """Refuses words of a command that aren't right, with the one usage that fits, and the line of the program where it would have them."""
    wrong = first_wrong(command.name, command.arguments, behind)
    nested = {"dry": TRIED, "upto": SHEETS}.get(command.name)
    if not wrong and nested:
        words = behind[len(command.arguments) - 1 :]
        inner, inside = find(words, table_of(ON_JOURNAL))
        if words[0] not in nested:
            wrong = f"{command.name} takes {', '.join(nested)}, and not {words[0]}"
        elif inner is None:
            wrong = wrong_name(words, table_of(ON_JOURNAL), f"{front}{command.name} ..").rpartition(": ")[0]
        else:
            front, command, behind = f"{front}{' '.join([command.name, *behind[: len(command.arguments) - 1]])} ", inner, inside
            wrong = first_wrong(command.name, command.arguments, behind)
    if wrong:
        if command.desk and (command.name != "why" or command.fits(behind)):
            office.write(b"fault usage\n")
        refuse(f"{wrong}: {front}{command.usage}", 2)


def wait_for(path, seconds):
    """Waits for a journal that another run holds, so many seconds at most."""
    end, told = time.monotonic() + seconds, False
    while seconds and os.path.isfile(path):
        with open(path, "rb") as file:
            try:
                fcntl.flock(file, fcntl.LOCK_EX | fcntl.LOCK_NB)
                return
            except BlockingIOError:
                if time.monotonic() >= end:
                    return
        if not told:
            say(f"another run holds {path}; this one waits up to {seconds} seconds for it")
            told = True
        time.sleep(0.1)


def try_on_copy(office, words):
    """Tries a command on a copy of which nothing stays."""
    office.words = words
    if words[0] in TRIALS:
        return TRIALS[words[0]](office, *words[1:])
    copy = copies.try_on_copy(office)
    return office.plainly(copy) if words[0] in ("quote", "report") else office.file(copy)


def without_flags(office, command, words):
    """The words behind a command without its flags, which the office keeps."""
    known = [name for name, _ in command.flags] if command else []
    office.flags = [word for word in words if word in known]
    office.words = [word for word in office.words if word not in office.flags]
    return [word for word in words if word not in known]


def split_stamp(words, options):
    """The stamp in front of some words, what is wrong with it, and the words behind it."""
    if words[:1] != ["at"]:
        return [], "", words
    wrong = first_wrong("at", (DAY, CLERK, rest("COMMAND", "a command with its words")), words[1:])
    return words[:3], wrong, options_in(words[3:], options)


def on_journal(words, options):
    """Runs a command of an office."""
    path, words = words[0], options_in(words[1:], options)
    stamp, wrong, words = split_stamp(words, options)
    look_at(path, words[0] if words else "")
    table, front = table_of(ON_JOURNAL), "office JOURNAL "
    command, behind = find(words, table)
    if command and command.name == "dry":
        words = [words[0], *options_in(behind, options)]
        behind = words[1:]
    office = Office(path, words, stamp=stamp, options=options)
    behind = without_flags(office, command, behind)
    if not wrong and command and command.name == "upgrade" and stamp:
        wrong = "upgrade takes no stamp"
    if wrong:
        office.write(b"fault usage\n")
        refuse(f"{wrong}: {front}{'at DAY CLERK COMMAND..' if command is None or command.name != 'upgrade' else command.usage}", 2)
    if command is None or command.name == "at":
        if not any(name.startswith(f"{''.join(words[:1])} ") and not of.desk for name, of in table.items()):
            office.write(b"fault usage\n")
        if stamp and find(words[1:], table)[0]:
            refuse(f"at: `{words[0]}` is no command: a clerk's name has no blank: {front}at DAY CLERK COMMAND..", 2)
        refuse(wrong_name(words, table, front), 2)
    refuse_wrong(office, command, behind, front)
    return run_on_journal(office, command, behind, options)


def run_on_journal(office, command, behind, options):
    """Runs a command of an office whose words are right."""
    path = office.journal
    if command.files:
        settings.look_at_stamp(office, command.name)
        running.State.files = f"what is on file in {path} stands: run the same again"
    if command.name == "upgrade":
        running.State.files = f"{behind[0]} is as it was: run the same again"
    if command.name == "amend":
        running.State.files = f"{path} is as it was: run the same again"
    if command.files or command.name in ("found", "upgrade", "amend"):
        wait_for(path, options.wait)
    if command.name != "serve":
        running.say_at_work(path)
    if command.name == "dry":
        return try_on_copy(office, behind)
    if "--names" in office.flags:
        return ids.show(office, office.words)
    return command.run(office, *behind)


def other_desk(desk, words, options):
    """Runs a command of a desk with a journal of its own."""
    commands, what, again = OTHER_DESKS[desk]
    front = f"office {desk} JOURNAL "
    words = options_in(words, options)
    if not words:
        refuse(f"{desk} wants JOURNAL and a command: {front}{'|'.join(first_words(commands))} ..", 2)
    path, words = words[0], options_in(words[1:], options)
    if path.startswith("-"):
        refuse(f"a path may not begin with -: write ./{path} for a file of that name", 2)
    office = Office(path, words, desk, options=options)
    command, behind = find(words, table_of(commands))
    if command is None:
        refuse(wrong_name(words, table_of(commands), front), 2)
    behind = without_flags(office, command, behind)
    wrong = first_wrong(command.name, command.arguments, behind)
    if wrong:
        refuse(f"{wrong}: {front}{command.usage}", 2)
    if command.files and not os.path.exists(path):
        refuse(f"there is no file {path}: mend the path, or found a {what} there by: office {desk} {path} found", 2)
    if command.files:
        running.State.files = f"what is on file in {path} stands: run the same again{again}"
    wait_for(path, options.wait)
    running.say_at_work(path)
    return command.run(office, *behind)


def run(words):
    """Runs the command of some words, and returns its status."""
    options = Options()
    words = options_in(list(words), options) or ["help"]
    name, behind = OTHER_NAMES.get(words[0], words[0]), words[1:]
    if name in OTHER_DESKS:
        return other_desk(name, behind, options)
    tool = table_of(TOOLS).get(name)
    if tool is None:
        return on_journal(words, options)
    wrong = "" if name in JUDGE_THEMSELVES else first_wrong(name, tool.arguments, behind)
    if wrong:
        refuse(f"{wrong}: office {tool.usage}", 2)
    if name in ("demo", "check", "audit", "clock"):
        running.say_at_work(name)
    return tool.run(behind)
