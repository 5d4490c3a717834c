"""Reading what a user wrote: a problem with lists, or clauses alone; and the program's own words where it is refused."""
import os
import re
import subprocess
from collections import namedtuple

from language import COMMANDS, MOST_BYTES, ProblemReader, Refused
from race import dying_with

# The words of a call that refuses what is no problem, and does next to nothing with what is one.
JUDGE = ("model", "--size", "1", "--nodes", "1")
REFUSED = re.compile(r"input refused at byte (\d+): (.+)")
HEAD, TAIL = b"list(usable).\n", b"\nend_of_list.\n"

# text: a whole problem as the program takes it. shift: how many bytes stand in it before the user's.
Source = namedtuple("Source", "problem text shift")


class ClauseReader(ProblemReader):
    """Clauses without lists, up to the end of the text."""

    def items(self, *stops):
        while self.kind != "end":
            self.input_clause("usable")
        return self.problem


def has_commands(data):
    """Whether the text begins as a problem with commands and lists does: a command's word and an open parenthesis."""
    try:
        reader = ProblemReader(data[:MOST_BYTES])
        first = reader.text
        reader.advance()
        return first == "" or first in COMMANDS and reader.text == "("
    except Refused:
        return False


def place_of(data, byte):
    """Line and column, from 1, of a byte."""
    before = data[:byte]
    return before.count(b"\n") + 1, byte - (before.rfind(b"\n") + 1) + 1


def read_source(data):
    """The problem that the bytes spell, or Refused with the place in them."""
    if has_commands(data):
        return Source(ProblemReader(data).items(), data, 0)
    return Source(ClauseReader(data).items(), HEAD + data + TAIL, len(HEAD))


def asked(program, text, seconds):
    """What the program says of a text: its byte and kind where it is refused, else None."""
    done = subprocess.run([program, *JUDGE], input=text, stdout=subprocess.PIPE, stderr=subprocess.DEVNULL, timeout=seconds,
                          preexec_fn=dying_with(os.getpid()))
    told = REFUSED.match(done.stdout.decode(errors="replace")) if done.returncode == 3 else None
    return told and Refused(int(told.group(1)), told.group(2))


def refusal(program, data, seconds):
    """The program's own refusal of the user's bytes, or None where it takes them."""
    if has_commands(data):
        return asked(program, data, seconds)
    fault = asked(program, HEAD + data + TAIL, seconds)
    if fault and fault.place > len(HEAD) + len(data):
        fault = asked(program, HEAD + data, seconds)
    return fault and Refused(min(fault.place - len(HEAD), len(data)), fault.kind)


def shown(data, byte, width=100):
    """The line of a byte, with a mark below the byte; of a long line the part about it."""
    start = data.rfind(b"\n", 0, byte) + 1
    end = data.find(b"\n", byte)
    line = data[start:len(data) if end < 0 else end]
    first = max(0, byte - start - width // 2)
    part = line[first:first + width]
    plain = "".join(chr(it) if 32 <= it < 127 else " " if it in b"\t\r" else "?" for it in part)
    return "%s\n%s^" % (plain, " " * (byte - start - first))
