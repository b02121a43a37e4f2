"""The server: the script becomes the program, so that a signal reaches it."""
import os
import signal

from . import program, settings
from .say import refuse, say


def serve(office, *_):
    """Becomes the server."""
    _, port, workers, sessions = office.words
    if not program.place():
        refuse("a server needs the built program, since a run of the sources ends after a minute: rt ci proves and builds it", 127)
    office.refuse_hurt(office.journal)
    stamp = f", files at {office.stamp[1]} by {office.stamp[2]}" if office.stamp else ""
    say(
        f"opens {office.journal} and serves it on http://127.0.0.1:{port} by {workers} workers for {sessions} connections each{stamp}, "
        f"in process {os.getpid()}; kill {os.getpid()} ends it, and what was answered stands"
    )
    if not office.stamp:
        settings.say_unstamped(office)
    line, _ = program.line_of(office.line(office.words))
    for each in (signal.SIGPIPE, signal.SIGXFSZ):
        signal.signal(each, signal.SIG_DFL)
    try:
        os.execvp(line[0], line)
    except OSError as error:
        refuse(f"{line[0]} can't be run: {error.strerror}", 127)
