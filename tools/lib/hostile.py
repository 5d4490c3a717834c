"""What a hostile run may answer, and the worked inputs that hostile runs start from."""
import re

import calls

OUT_OF_MEMORY = (7, b"out of memory\n")
WORDS_REFUSED = (4, b"words refused\n")

CHECKED = b"""\
list(sos).
p(a).
-p(x) | q(x).
-q(a).
end_of_list.
proof.
1 input 1 : p(a).
2 input 2 : -p(x0) | q(x0).
3 input 3 : -q(a).
4 instance 2 (a) : -p(a) | q(a).
5 resolve 4 1 1 1 : q(a).
6 resolve 5 1 3 1 : $F.
end_of_proof.
"""
SYLLOGISM = b"set(binary_res).\n" + CHECKED[: CHECKED.index(b"proof.")]
STEERED = b"set(binary_res). list(usable). p(a). end_of_list. list(sos). s. -q(b). q(a). end_of_list.\n"
GROUP = b"""\
set(para_from). set(para_into). set(dynamic_demod). set(back_demod).
list(usable). x = x. f(e,x) = x. f(x,e) = x. f(f(x,y),z) = f(x,f(y,z)). end_of_list.
list(sos). f(x,x) = e. f(a,b) != f(b,a). end_of_list.
list(demodulators). f(e,x) = x. f(x,e) = x. f(x,x) = e. end_of_list.
"""
MODEL = b"list(sos). a!=b. end_of_list.\n"

PLAIN = ["prove", "--finders", "0", "--candidates", "0"]
ALONE = ["prove", "--finders", "0"]

# name, words and text of small runs of each kind, and of greater ones; what a run beside finders prints isn't always the same
SMALL = [
    ("a proof checked", ["check"], CHECKED),
    ("a proof without models", PLAIN, SYLLOGISM),
    ("a steered run", ALONE, STEERED),
    ("a model", ["model", "--size", "2"], MODEL),
    ("a model by four workers", ["model", "--size", "2", "--workers", "4"], MODEL),
]
BESIDE = [("a run beside two finders", ["prove", "--finders", "2"], STEERED)]
GREATER = [
    ("a ladder of 20 rungs", ["bench", "20"], b""),
    ("groups of order two", ALONE, GROUP),
    ("groups of order two beside two finders", ["prove"], GROUP),
]

RUN = re.compile(rb"run\.\n.*^end (proof|sos_empty|given_limit \d+|kept_limit \d+|work_limit \d+)\.$.*^end_of_run\.\n", re.M | re.S)
FINDERS_LOST = re.compile(rb"^finder \d+ memory\.$", re.M)
STATUS = {b"proof": 0, b"sos_empty": 1}


def is_beside(words):
    """Whether finders run beside the prover, so that what is printed varies."""
    return words[:1] == ["prove"] and words[1:3] != ["--finders", "0"]


def is_whole_run(status, text):
    """Whether it is a whole run text, with the status of its end."""
    found = RUN.fullmatch(text)
    return bool(found) and STATUS.get(found[1], 2) == status


def refused_fault(words, wanted, at, told):
    """Why a run whose allocation `at` was refused isn't answered as it may be, or None. While the words of the command
    line are fetched, some two allocations a word, they are refused."""
    status, text, complaint = told
    if (status, text) in (wanted[:2], OUT_OF_MEMORY) and not complaint:
        return None
    if (status, text) == WORDS_REFUSED and at <= 3 + 2 * len(words) and complaint.startswith(calls.NAMED):
        return None
    if is_beside(words) and is_whole_run(status, text) and not complaint:
        return None
    return "status %s, %r, standard error %r" % (status, calls.shortened(text), calls.shortened(complaint))


def sweep(refuser, pool, program, words, text, step=1):
    """How many runs were made, one for each step-th allocation that is refused, and what is wrong with them."""
    command = [program] + words
    wanted, last = refuser.run(command, text), refuser.calls(command, text)["allocation"]
    numbers = range(1, last + 2, step)
    told = pool.map(lambda at: refused_fault(words, wanted, at, refuser.run(command, text, at=at)), numbers)
    return len(numbers), ["allocation %d refused: %s" % row for row in zip(numbers, told) if row[1]]
