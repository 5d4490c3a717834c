"""Runs of the program in which a call to the system fails that wouldn't have: an allocation, a read, a write, the start of a
thread. tools/lib/refuse.c, which stands between the program and the C library then, is compiled into a folder of its own.

    with Refuser() as refuser:
        refuser.run([program, "check"], text, kind="read", at=3, piece=1)    the third read fails; each moves one byte
        refuser.calls([program, "check"], text)                              how many calls of each kind a run makes
"""
import os
import shutil
import subprocess
import tempfile

import calls
from testing import Skipped

SOURCE = os.path.join(os.path.dirname(os.path.abspath(__file__)), "refuse.c")
KINDS = ("allocation", "read", "write", "thread")


def compiler():
    return next(filter(None, map(shutil.which, ("cc", "clang", "gcc"))), None)


class Refuser:
    """The compiled library; it goes with its folder at the end."""

    def __init__(self):
        if not compiler():
            raise Skipped("there is no C compiler")
        self.folder = tempfile.mkdtemp(prefix="scott-refuse-")
        self.library = os.path.join(self.folder, "refuse.so")
        subprocess.run([compiler(), "-shared", "-fPIC", "-O1", "-o", self.library, SOURCE, "-ldl"], check=True)

    def __enter__(self):
        return self

    def __exit__(self, *_):
        shutil.rmtree(self.folder, ignore_errors=True)

    def settings(self, kind="allocation", at=0, piece=0, told=None):
        """The environment of a run in which that call fails, and none where `at` is 0."""
        asked = {"LD_PRELOAD": self.library, "REFUSE": kind, "REFUSE_AT": str(at), "REFUSE_PIECE": str(piece)}
        return dict(os.environ, **asked, **({"REFUSE_TOLD": told} if told else {}))

    def run(self, words, text, seconds=calls.SECONDS, **asked):
        """Status, standard output and standard error, as of `calls.answer`."""
        try:
            return calls.run(words, text, seconds, env=self.settings(**asked))
        except subprocess.TimeoutExpired:
            return calls.NO_END, b"", b""

    def calls(self, words, text, **asked):
        """How many calls of each kind a run makes."""
        with tempfile.NamedTemporaryFile(dir=self.folder) as told:
            self.run(words, text, told=told.name, **asked)
            return dict(zip(KINDS, map(int, told.read().split())))
