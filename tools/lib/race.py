"""Runs of the program side by side: each in a process group of its own, with a limit, and killed with all it started.

A Race starts tasks, tells which have ended, and on leaving kills what still runs, whatever the reason for leaving.
"""
import ctypes
import os
import signal
import subprocess
import tempfile
import time
from collections import namedtuple

# words: what the program is called with. text: its standard input. tag: whatever the caller wants to know it by.
Task = namedtuple("Task", "words text tag")

# status: the program's, or None where the limit ended it. seconds: how long it ran.
Ended = namedtuple("Ended", "task status output seconds")

DIE_WITH_PARENT = 1  # PR_SET_PDEATHSIG
STOPPING = (signal.SIGINT, signal.SIGTERM, signal.SIGHUP, signal.SIGALRM)


LIBRARY = ctypes.CDLL(None)


def dying_with(parent):
    """What a child does first: on Linux it is killed where its parent is, even by a signal that can't be caught."""
    def tie():
        if hasattr(LIBRARY, "prctl"):
            LIBRARY.prctl(DIE_WITH_PARENT, signal.SIGKILL)
            if os.getppid() != parent:
                os._exit(1)
    return tie


class Run:
    """One task under way."""

    def __init__(self, program, task, folder, seconds):
        self.task, self.began = task, time.monotonic()
        self.until = self.began + seconds
        self.output = tempfile.TemporaryFile(dir=folder)
        with tempfile.TemporaryFile(dir=folder) as source:
            source.write(task.text)
            source.seek(0)
            self.process = subprocess.Popen([program, *task.words], stdin=source, stdout=self.output, stderr=subprocess.DEVNULL,
                                            start_new_session=True, preexec_fn=dying_with(os.getpid()))

    def over(self, now):
        return self.process.poll() is not None or now >= self.until

    def kill(self):
        """Kills what is left of the group."""
        try:
            os.killpg(self.process.pid, signal.SIGKILL)
        except (ProcessLookupError, PermissionError):
            pass

    def end(self):
        """Kills what is left of the group, and tells how it ended."""
        status = self.process.poll()
        self.kill()
        self.process.wait()
        self.output.seek(0)
        output = b"" if status is None else self.output.read()
        self.output.close()
        return Ended(self.task, status, output, time.monotonic() - self.began)


class Race:
    """A place for runs: `with Race(program) as race`."""

    def __init__(self, program):
        self.program, self.running = program, []

    def __enter__(self):
        self.folder = tempfile.TemporaryDirectory(prefix="scott-auto-")
        return self

    def __exit__(self, *_):
        """Leaves nothing behind; a signal waits until that is done."""
        before = signal.pthread_sigmask(signal.SIG_BLOCK, STOPPING)
        for run in self.running:
            run.kill()
        while self.running:
            self.running.pop().end()
        self.folder.cleanup()
        signal.pthread_sigmask(signal.SIG_SETMASK, before)

    def start(self, task, seconds):
        self.running.append(Run(self.program, task, self.folder.name, seconds))

    def ended(self):
        """The runs that have ended or reached their limits since the last call."""
        now = time.monotonic()
        over = [run for run in self.running if run.over(now)]
        self.running = [run for run in self.running if run not in over]
        return [run.end() for run in over]

    def alone(self, task, seconds):
        """One run to its end, beside whatever else runs."""
        run = Run(self.program, task, self.folder.name, seconds)
        self.running.append(run)
        while not run.over(time.monotonic()):
            time.sleep(0.01)
        self.running.remove(run)
        return run.end()
