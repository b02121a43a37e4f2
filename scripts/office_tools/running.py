"""A run of the program: its text streams through untouched, and a signal ends it and leaves nothing behind."""
import os
import signal
import subprocess
import sys
import threading
import time

from . import program
from .say import say

STOPS = {signal.SIGHUP: 129, signal.SIGINT: 130, signal.SIGTERM: 143}
EVERY = 10          # seconds between two sentences on a terminal
PIECE = 1 << 16
INPUT = object()    # standard input as it is


class Stopped(SystemExit):
    """A signal ended the run."""


class State:
    """What a signal has to know: the program that runs, whether it is being started, the signal that came meanwhile, and what a run that
    files says where it is stopped."""
    child = None
    starts = False
    late = 0
    files = ""
    tells = None        # a function that says how far the work is


def on_signal(number, _frame):
    """Hands the signal on to the program, and ends the run once that has ended. While the program is being started, the signal waits."""
    if State.starts:
        State.late = number
        return
    for each in STOPS:
        signal.signal(each, signal.SIG_IGN)
    if State.child and State.child.poll() is None:
        State.child.send_signal(number)
    raise Stopped(STOPS[number])


def take_late_signal():
    """Acts on a signal that came while the program was being started."""
    number, State.late = State.late, 0
    if number:
        on_signal(number, None)


def take_signals():
    """Signals that aren't ignored from the start end the run in order."""
    for each in STOPS:
        if signal.getsignal(each) != signal.SIG_IGN:
            signal.signal(each, on_signal)


def is_told():
    """Whether somebody at a terminal is told how far the work is."""
    return sys.stderr.isatty()


def say_at_work(what):
    """On a terminal says every ten seconds that the work on this goes on, and how far it is."""
    def watch():
        seconds = 0
        while True:
            time.sleep(EVERY)
            seconds += EVERY
            say(f"at work on {what} for {seconds} seconds{f'; {State.tells()}' if State.tells else ''}")

    if is_told():
        threading.Thread(target=watch, daemon=True).start()


def lines_in(text, take):
    """Hands each whole line of some bytes to this function, and returns the rest."""
    *lines, rest = text.split(b"\n")
    for line in lines:
        take(line)
    return rest


def stream(pipe, take, keeps_on):
    """Writes what comes to standard output as it comes, and hands on each line. 4 where it can't be written; then the rest is read to its
    end where the run keeps on, and else not."""
    rest, status = b"", 0
    while piece := os.read(pipe, PIECE):
        rest = lines_in(rest + piece, take)
        while piece and not status:
            try:
                piece = piece[os.write(1, piece):]
            except OSError:
                status = 4
        if status and not keeps_on:
            return status
    return status


def ended(child):
    """The status of a program that has ended, as a shell has it."""
    status = child.wait()
    return status if status >= 0 else 128 - status


def run(words, paths=(0,), given=None, out=None, quiet=False, take=None, keeps_on=False):
    """The status of the program on these words, of which those at these places are paths. `given` is its input, else none; `out` a file
    that gets its text, and else standard output does, while `take` gets each line. A quiet one's standard error is left out."""
    given = subprocess.DEVNULL if given is None else None if given is INPUT else given
    line, folder = program.line_of(words, paths)
    sys.stdout.flush()
    State.starts = True
    try:
        State.child = child = subprocess.Popen(
            line, cwd=folder, stdin=given, stdout=subprocess.PIPE if take else out, stderr=subprocess.DEVNULL if quiet else None,
        )
    except OSError as error:
        say(f"{line[0]} can't be run: {error.strerror}")
        return 127 if isinstance(error, FileNotFoundError) else 126
    finally:
        State.starts = False
    if not take:
        return finish(child)
    with child.stdout as pipe:
        try:
            take_late_signal()
            status = stream(pipe.fileno(), take, keeps_on)
        except Stopped:
            stream(pipe.fileno(), take, True)
            finish(child)
            raise
    return finish(child) or status


def finish(child):
    """The status of the program once it has ended, also where a signal comes meanwhile."""
    try:
        take_late_signal()
        return ended(child)
    except Stopped:
        ended(child)
        raise
