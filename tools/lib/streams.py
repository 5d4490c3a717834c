"""Words that the program refuses, and streams that fail: statuses 4, 5 and 6 where a caller can make them."""
import os

from calls import NAMED, Case, answer, fault, run

# commands that no version takes: a name that isn't one, a word too many, a number outside of its range or not plainly written
REFUSED = [
    [],
    [""],
    ["--help"],
    ["chek"],
    ["CHECK"],
    ["check "],
    ["check", ""],
    ["check", "check"],
    ["check\n"],
    ["ch\u00e9ck"],
    [b"check\xff"],
    ["model", "--size"],
    ["model", "--size", "0"],
    ["model", "--size", "9"],
    ["model", "--size", "-1"],
    ["model", "--size", "two"],
    ["model", "--size", "2", "--size", "2"],
    ["model", "--size", "18446744073709551618"],
    ["model", "--nodes"],
    ["model", "--nodes", "0"],
    ["model", "--nodes", "10000001"],
    ["model", "size", "2"],
    ["prove", "--finders"],
    ["prove", "--finders", ""],
    ["prove", "--finders", "0", "--candidates", "0", "check"],
]

PROBLEM = b"list(sos). p(a). -p(x) | q(x). -q(a). end_of_list.\nproof.\n1 input 1 : p(a).\nend_of_proof.\n"

ANSWER = b"not a proof: line 2\n"

# what begins the shapes of words
USAGE = b"\nusage: scott "


def words_refused(program):
    """Status 4 for words that aren't a command's, whose shapes standard error gets; nothing is read then, as the place in a
    file given as standard input tells."""
    passed, found = 0, []
    for words in REFUSED:
        case = Case("the words %r" % (words,), words, PROBLEM, 4, b"words refused\n")
        told = answer(program, words, PROBLEM)
        why = fault(case, told) or usage_untold(case, told[2]) or left_unread(program, case)
        passed, found = passed + (why is None), found + ([why] if why else [])
    return passed, found


def usage_untold(case, complaint):
    return None if complaint.startswith(NAMED) and USAGE in complaint else "%s: standard error hasn't the shapes of words" % case.name


def left_unread(program, case):
    with open(__file__, "rb", buffering=0) as file:
        run([program] + case.words, None, stdin=file)
        place = os.lseek(file.fileno(), 0, os.SEEK_CUR)
    return None if place == 0 else "%s: %d bytes of standard input were read" % (case.name, place)


# name, how the shell gives the streams (`$0` is the program), the status and what is written
FAILING = [
    ("standard input that is closed", '"$0" check <&-', 5, b"read fault\n"),
    ("standard input that is a folder", '"$0" check </', 5, b"read fault\n"),
    ("standard input that is open for writing alone", '"$0" check 0>/dev/null', 5, b"read fault\n"),
    ("standard output that is closed", '"$0" check >&-', 6, b""),
    ("standard output on a full disk", '"$0" check >/dev/full', 6, b""),
    ("standard output that is open for reading alone", '"$0" check 1</dev/null', 6, b""),
    ("refused words, and standard output on a full disk", '"$0" chek >/dev/full', 6, b""),
    ("refused words, and standard error that is closed", '"$0" chek 2>&-', 4, b"words refused\n"),
    ("refused words, and standard error on a full disk", '"$0" chek 2>/dev/full', 4, b"words refused\n"),
    ("both closed", '"$0" check <&- >&-', 6, b""),
    ("standard error that is closed", '"$0" check 2>&-', 1, ANSWER),
]


def stream_fault(program, name, line, status, wanted):
    return fault(Case(name, [], PROBLEM, status, wanted), answer("sh", ["-c", line, program], PROBLEM))


def streams_failing(program):
    """Status 5 where standard input fails, 6 where standard output does."""
    found = [it for it in (stream_fault(program, *row) for row in FAILING) if it]
    return len(FAILING) - len(found), found
