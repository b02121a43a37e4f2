"""The memory that a program takes."""
import os
import subprocess
import time

LOOKS = 5


def peak(words, given=None):
    """The most memory that a program held, in kB, read while it waits to print: the pipe is full. The program reads files alone,
    so that it sleeps only there."""
    reading, writing = os.pipe()
    os.set_blocking(writing, False)
    try:
        while True:
            os.write(writing, bytes(4096))
    except BlockingIOError:
        os.set_blocking(writing, True)
    process = subprocess.Popen(words, stdin=given, stdout=writing)
    asleep = 0
    while asleep < LOOKS:
        time.sleep(0.1)
        if process.poll() is not None:
            raise ChildProcessError(f"{' '.join(words)} ended before it waited")
        asleep = asleep + 1 if told(process, "State") == "S" else 0
    most = int(told(process, "VmHWM"))
    process.kill()
    process.wait()
    os.close(reading)
    os.close(writing)
    return most


def told(process, name):
    """The first word that the system tells of a process under a name."""
    with open(f"/proc/{process.pid}/status") as status:
        return next((line.split()[1] for line in status if line.startswith(f"{name}:")), None)
