"""Processes that end with this one, and folders in which one of them works at a time."""

import contextlib
import fcntl
import os
import signal
import subprocess
import sys


def say(text):
    print(f"fabcommit: {text}", file=sys.stderr, flush=True)


def end_by_signals():
    """Has a signal that ends this process run what cleans up."""
    for number in (signal.SIGTERM, signal.SIGHUP, signal.SIGINT):
        signal.signal(number, lambda *_: sys.exit(130))


class Running:
    """Runs processes, by threads too, each in a group of its own, and ends those that are left."""

    def __init__(self):
        self.begun, self.is_ended = set(), False

    def run(self, words, **how):
        """The status of a process, and all that it said."""
        how = {"stdin": subprocess.DEVNULL, "stdout": subprocess.PIPE, "stderr": subprocess.STDOUT, "start_new_session": True, **how}
        with subprocess.Popen([*map(str, words)], text=True, errors="replace", **how) as process:
            self.begun.add(process)
            if self.is_ended:
                self.end()
            with self.ending():
                said = process.communicate()[0]
            self.begun.discard(process)
        return process.returncode, said

    def end(self):
        self.is_ended = True
        for process in [*self.begun]:
            with contextlib.suppress(ProcessLookupError):
                os.killpg(process.pid, signal.SIGKILL)

    @contextlib.contextmanager
    def ending(self):
        """Ends all processes where what is done meanwhile fails or is interrupted, before somebody waits for them."""
        try:
            yield
        except BaseException:
            self.end()
            raise


@contextlib.contextmanager
def alone(folder, others):
    """Gives whether nobody else was at work in the folder; else it says so and waits. A killed process lets go too."""
    held = os.open(folder, os.O_RDONLY)
    try:
        fcntl.flock(held, fcntl.LOCK_EX | fcntl.LOCK_NB)
        is_first = True
    except BlockingIOError:
        say(f"{others}; waiting for its end")
        fcntl.flock(held, fcntl.LOCK_EX)
        is_first = False
    try:
        yield is_first
    finally:
        os.close(held)
