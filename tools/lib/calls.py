"""Calls of the program: what it is given, what it answers, and whether that is what a case wants."""
import contextlib
import os
import signal
import subprocess
from concurrent.futures import ThreadPoolExecutor
from typing import List, NamedTuple, Tuple

SECONDS = 120

# what stands for a program that had not ended by then
NO_END = "no end after %d seconds" % SECONDS

# the status of refused words; standard error then gets what is wrong with them, behind the program's name
WORDS_REFUSED = 4
NAMED = b"scott: "


class Case(NamedTuple):
    """A call of the program and what is wanted of it."""

    name: str
    words: List[str]
    text: bytes
    status: int
    wanted: bytes


def run(words, text=b"", seconds=SECONDS, stderr=subprocess.PIPE, **how):
    """Status, standard output and standard error of a command; with whatever it started it is ended where it takes longer, or this call is broken off."""
    how = {"stdin": subprocess.PIPE, "stdout": subprocess.PIPE, "stderr": stderr, "start_new_session": True, **how}
    started = subprocess.Popen(words, **how)
    try:
        told, said = started.communicate(text, timeout=seconds)
    except BaseException:
        with contextlib.suppress(OSError):
            os.killpg(started.pid, signal.SIGKILL)
        started.communicate()
        raise
    return started.returncode, told, said


def answer(program, words, text):
    """Status, standard output and standard error of one call; the status of a program that doesn't end is NO_END."""
    try:
        return run([program] + words, text)
    except subprocess.TimeoutExpired:
        return NO_END, b"", b""


def difference(wanted, told):
    """Where two texts differ first, in a line."""
    lines = wanted.split(b"\n"), told.split(b"\n")
    for number, (one, other) in enumerate(zip(*lines), 1):
        if one != other:
            return "line %d is %r, wanted %r" % (number, shortened(other), shortened(one))
    return "%d lines, wanted %d" % (len(lines[1]) - 1, len(lines[0]) - 1)


def shortened(line):
    text = line.decode(errors="replace")
    return text if len(text) <= 80 else text[:77] + "..."


def fault(case, told):
    """Why a case's answer isn't the one wanted, or None."""
    status, text, complaint = told
    if status != case.status:
        return "%s: status %s, wanted %s" % (case.name, status, case.status)
    if text != case.wanted:
        return "%s: %s" % (case.name, difference(case.wanted, text))
    if complaint and not (status == WORDS_REFUSED and complaint.startswith(NAMED)):
        return "%s: standard error isn't empty: %r" % (case.name, shortened(complaint))
    return None


def faults(program, cases) -> Tuple[int, List[str]]:
    """How many cases are answered as wanted, and why the others aren't; as many at once as there are processors."""
    with ThreadPoolExecutor(os.cpu_count() or 1) as pool:
        told = pool.map(lambda case: fault(case, answer(program, case.words, case.text)), cases)
        found = [it for it in told if it]
    return len(cases) - len(found), found
