"""Runs the words of the script `office`, and says in a sentence where a text can't be read or written, as on a full disk.

usage: python3 -I -B scripts/office_tools WORDS..     from any folder: what lies there isn't imported
"""
import contextlib
import os
import signal
import sys

# Until the run takes signals, Ctrl-C ends it as any program, without words of Python's own.
if signal.getsignal(signal.SIGINT) == signal.default_int_handler:
    signal.signal(signal.SIGINT, signal.SIG_DFL)
# the folder of the package, where its path was run
sys.path[0] = os.path.dirname(os.path.dirname(os.path.abspath(__file__)))
OLDEST = (3, 11)


def fill_streams():
    """A stream that is closed becomes one that takes and gives nothing, so that no file that is opened gets its number."""
    for number, flags in enumerate((os.O_WRONLY, os.O_RDONLY, os.O_WRONLY)):
        try:
            os.fstat(number)
        except OSError:
            os.open(os.devnull, flags)
    sys.stdin = sys.stdin or open(0, closefd=False)
    sys.stdout = sys.stdout or open(1, "w", closefd=False)
    sys.stderr = sys.stderr or open(2, "w", closefd=False)


def flushed(run, words):
    """The status of the words, once their text is written."""
    try:
        status = run(words)
    except SystemExit as ended:
        status = ended.code
    sys.stdout.flush()
    return status


def main():
    """Runs the words, lets go of what the run needed, and ends with its status."""
    if sys.version_info < OLDEST:
        sys.exit("office: Python 3.11 or later is needed, and python3 is older")
    fill_streams()
    from office_tools import copies, dispatch, running, say
    running.take_signals()
    try:
        status = flushed(dispatch.run, sys.argv[1:])
    except BrokenPipeError:
        status = 141
    except OSError as error:
        say.say(f"the text can't be read or written: {error.strerror}; mend that, and run it again")
        status = 4
    finally:
        copies.clean()
    if status == 130 and running.State.files:
        say.say(f"stopped; {running.State.files}")
    # what couldn't be written isn't written again
    with contextlib.suppress(OSError):
        sys.stderr.flush()
    os._exit(status or 0)


if __name__ == "__main__":
    main()
