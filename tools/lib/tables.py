"""The table of stored cases, crates/cases/stdin, and the stored run of a program.

The table is a list of parts, each behind `== ` at the begin of a line and up to the line feed before the next one; `== end`
ends it. A row is two parts: the words, ` : ` and a remark, and the text; then the status, and what is wanted. Where the
status is 3 a mark `@` stands in the text at the byte that must be told, and what is wanted is the kind of the fault.
"""
import os

from calls import Case

HEAD = b"== "
MARK = b"@"
REFUSED = 3

# first words of the table alone, which the program hasn't
OWN_WORDS = ("reprint", "gated")


def parts(table):
    """What stands behind each head up to the next, but for `end`."""
    if not table.startswith(HEAD):
        raise ValueError("a table begins with '== '")
    front, end, _ = table[len(HEAD) :].partition(b"\n== end\n")
    if not end:
        raise ValueError("a table ends with '== end'")
    return front.split(b"\n" + HEAD)


def row(asked, told):
    """The case of a row's two parts."""
    line, _, text = asked.partition(b"\n")
    words, _, remark = line.partition(b" : ")
    status, _, wanted = told.partition(b"\n")
    if int(status) == REFUSED:
        front, _, behind = text.partition(MARK)
        text, wanted = front + behind, b"input refused at byte %d: %s" % (len(front), wanted)
    return Case(remark.decode(), words.decode().split(" ") if words else [], text, int(status), wanted + b"\n")


def cases_of(table):
    """The cases of a table, but for those whose first word is the table's own."""
    found = parts(table)
    rows = [row(*pair) for pair in zip(found[::2], found[1::2])]
    return [it for it in rows if not it.words or it.words[0] not in OWN_WORDS]


def read(path):
    """The cases of a table's file."""
    with open(path, "rb") as file:
        return cases_of(file.read())


def stored_run(folder):
    """The stored run of a program: the files args (a word a line), stdin, stdout and status beside its sources."""

    def held(name, otherwise):
        path = os.path.join(folder, name)
        if not os.path.exists(path):
            return otherwise
        with open(path, "rb") as file:
            return file.read()

    words = held("args", b"").decode().splitlines()
    return Case("stored run", words, held("stdin", b""), int(held("status", b"0")), held("stdout", b""))
