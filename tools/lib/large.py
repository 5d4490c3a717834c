"""Large inputs: families that grow with a number, each up to what the language allows. Deep and heavy terms, many clauses,
symbols, names and bytes, long proofs, and problems whose conclusions reach the limits on what is made.

    make, least = FAMILIES["long names"]
    make(4 * least)                 a text with four times the least of it
    largest()                       name, words and text of each input at the language's limits, made one by one
"""

MOST_BYTES = 4194304
MOST_CLAUSES = 10000
MOST_SYMBOLS = 4096
MOST_ARITY = 8
MOST_WEIGHT = 1000
MOST_DEPTH = 256

NO_PROOF = "proof.\nend_of_proof.\n"


def listed(name, clauses):
    return "list(%s).\n%send_of_list.\n" % (name, "".join(it + ".\n" for it in clauses))


def sos(clauses):
    return listed("sos", clauses)


def deep(levels, inside="a", name="f"):
    """A term of so many compounds around another."""
    return (name + "(") * levels + inside + ")" * levels


def long_clause(number, weight=MOST_WEIGHT):
    """A clause of literals `p3(f(x,g(y,a)),b)` that weighs no more than that; each weighs seven."""
    return " | ".join("p%d(f(x,g(y,a)),b)" % ((number + at) % 50) for at in range(weight // 7))


def long_clauses(count):
    return sos(long_clause(number) for number in range(count))


def many_clauses(count):
    return sos("p%d(f(x,a),g(y)) | -q(x)" % (number % 4000) for number in range(count))


def many_symbols(count):
    """As many predicates; `=` and a constant are symbols too."""
    return sos("p%d(a)" % number for number in range(count))


def deep_terms(count):
    return sos("p(%s)" % deep(MOST_DEPTH - 2) for _ in range(count))


def full(levels, inside="a", name="g"):
    """A term of eight arguments, each of eight, and so on."""
    return inside if levels == 0 else "%s(%s)" % (name, ",".join([full(levels - 1, inside, name)] * MOST_ARITY))


def wide_terms(count):
    """Terms of eight arguments, three levels deep: 585 symbols."""
    return sos("p(%s)" % full(3) for _ in range(count))


def long_comment(size):
    return "% " + "x" * size + "\n" + sos(["p(a)"])


def many_comments(count):
    return "%\n" * count + sos(["p(a)"])


def white_space(size):
    return " \n" * (size // 2) + sos(["p(a)"])


def long_name(size):
    return sos([("q" * size) + "(a)"])


def long_names(count):
    """Names of a thousand letters that differ in the last ones."""
    return sos("%s%d(a)" % ("q" * 1000, number) for number in range(count))


def many_variables(count):
    """Clauses of some 500 variables, all different."""
    return sos("|".join("p(x%d,x%d)" % (at, at + 1) for at in range(0, 660, 2)) for _ in range(count))


def settings(count):
    return "assign(max_weight,%d).\nset(factor).\nclear(factor).\n" % MOST_WEIGHT * count


def demodulators(count):
    """Equations whose two sides have many variables: each is tested for being one to rewrite with."""
    left = "f(%s)" % ",".join("g(%s)" % ",".join("x%d" % (8 * row + at) for at in range(8)) for row in range(8))
    return listed("demodulators", ("%s=%s" % (left, left.replace("f", "h", 1)) for _ in range(count)))


def proof(count):
    """Three clauses and a proof of so many lines, three at least."""
    lines = ["input 1 : p(a).", "input 2 : -p(x0) | p(f(x0)).", "input 4 : q(b).", "input 3 : -q(b)."]
    while len(lines) < count - 1:
        lines.append("instance 2 (a) : -p(a) | p(f(a)).")
        if len(lines) < count - 1:
            lines.append("resolve %d 1 1 1 : p(f(a))." % len(lines))
    lines = lines[: count - 1] + ["resolve 3 1 4 1 : $F."]
    text = sos(["p(a)", "-p(x) | p(f(x))", "-q(b)", "q(b)"])
    return text + "proof.\n" + "".join("%d %s\n" % row for row in enumerate(lines, 1)) + "end_of_proof.\n"


def long_lines(count):
    """A proof whose lines have long clauses, and no empty one at its end."""
    clause = long_clause(0)
    told = clause.replace("x", "x0").replace("y", "x1")
    return sos([clause]) + "proof.\n" + "".join("%d input 1 : %s.\n" % (n, told) for n in range(1, count + 1)) + "end_of_proof.\n"


def heavy_lines(count):
    """A proof whose lines are instances that weigh 9,363, near the most that may be made."""
    term = full(4)
    line = "instance 1 (%s,%s) : p(%s,%s)." % ((term,) * 4)
    return sos(["p(x,y)", "q(%s)" % full(1)]) + "proof.\n1 input 1 : p(x0,x1).\n" + "".join("%d %s\n" % (n, line) for n in range(2, count + 2)) + "end_of_proof.\n"


def deep_lines(count):
    """A proof whose lines are flips and replacements at the ends of the deepest paths."""
    left = deep(MOST_DEPTH - 2)
    path = "(%s)" % ",".join(["1"] * (MOST_DEPTH - 1))
    text = sos(["p(%s)" % left, "a = b"]) + "proof.\n1 input 1 : p(%s).\n2 input 2 : a = b.\n" % left
    line = "para 2 1 left 1 1 %s : p(%s)." % (path, deep(MOST_DEPTH - 2, "b"))
    return text + "".join("%d %s\n" % (n, line) for n in range(3, count + 3)) + "end_of_proof.\n"


# a family's text by its number, and a number of which four times as much is still within the limits
FAMILIES = {
    "long clauses": (long_clauses, 350),
    "many clauses": (many_clauses, 2500),
    "many symbols": (many_symbols, 1000),
    "deep terms": (deep_terms, 1000),
    "wide terms": (wide_terms, 600),
    "a long comment": (long_comment, 1000000),
    "many comments": (many_comments, 500000),
    "white space": (white_space, 1000000),
    "a long name": (long_name, 1000000),
    "long names": (long_names, 1000),
    "many variables": (many_variables, 100),
    "settings": (settings, 19000),
    "demodulators": (demodulators, 1000),
    "a proof of many lines": (proof, 25000),
    "a proof of long lines": (long_lines, 250),
    "a proof of heavy lines": (heavy_lines, 20),
    "a proof of deep lines": (deep_lines, 600),
}


def input_of_check(text):
    """The text with a proof section behind it, the shortest one where it has none."""
    return (text if "\nproof.\n" in text else text + NO_PROOF).encode()


def growing(conclude):
    """Turns that make ever deeper and heavier clauses, up to the limits on what is made."""
    flags = "set(binary_res). set(factor). assign(max_weight,1000). assign(max_given,300).\n"
    return flags + listed("usable", [conclude]) + sos(["p(a)"])


def rewritten():
    """A term of depth 255 that is rewritten from the inside, symbol by symbol."""
    flags = "set(para_from). set(para_into). set(dynamic_demod). set(back_demod). assign(max_given,20).\n"
    return flags + sos(["p(%s) | q" % deep(254), "-q"]) + listed("demodulators", ["f(a) = a"])


def resolved_deep():
    """Clauses of depth 256 that are resolved, subsumed, paramodulated and marked."""
    flags = "set(binary_res). set(hyper_res). set(ur_res). set(para_from). set(para_into). assign(max_given,12).\n"
    first = ["p(%s) | q(%s)" % (deep(254, "x"), deep(250, "x")), "-p(%s)" % deep(254), "%s = a | r(%s)" % (deep(100, "y"), deep(254))]
    return flags + listed("usable", first) + sos(["-q(x) | -r(x)", "-p(x) | -p(y)", "p(%s)" % deep(254, "b")])


def linked(links, levels):
    """A nucleus whose literals are linked by variables: its unifier is a term of as many levels as links times levels."""
    nucleus = " | ".join("-p(x%d,x%d)" % (at, at + 1) for at in range(links))
    return "set(hyper_res). assign(max_given,3).\n" + listed("usable", [nucleus]) + sos(["p(%s,y)" % deep(levels, "y")])


def cells():
    """A model of size 8 of 4,096 cells, a table of four places, and as many instances of its one clause."""
    return sos(["f(x,y,z,u) = x"])


PROVE = ["prove", "--finders", "0"]

ONE_TURN = "assign(max_given,1).\n"
ONCE = ["prove", "--finders", "0", "--candidates", "2"]
PROOFS = (proof, long_lines, heavy_lines, deep_lines)


def families_at_most():
    """Each family at four times its least number, to be checked, and as one turn of the prover."""
    for name, (make, least) in FAMILIES.items():
        text = make(4 * least)
        yield "check " + name, ["check"], input_of_check(text)
        if make not in PROOFS:
            yield "prove " + name, ONCE, (ONE_TURN + text).encode()


def single_inputs():
    """Inputs of what is made, of models, and of bytes that are refused."""
    return [
        ("prove deep conclusions", PROVE, growing("-p(x) | p(f(x))").encode()),
        ("prove heavy conclusions", PROVE, growing("-p(x) | p(%s)" % full(1, "x")).encode()),
        ("prove heavy pairs", PROVE, growing("-p(x) | p(f(x,x))").encode()),
        ("prove rewriting of depth 255", PROVE, rewritten().encode()),
        ("prove clauses of depth 256", PROVE, resolved_deep().encode()),
        ("prove clauses of depth 256 beside eight finders", ["prove", "--finders", "8"], resolved_deep().encode()),
        ("prove a linked unifier of 5,000 levels", PROVE, linked(20, 250).encode()),
        ("model at the limit on cells", ["model", "--size", "8", "--nodes", "1000"], cells().encode()),
        ("model at the limit on cells, eight workers", ["model", "--size", "8", "--nodes", "1000", "--workers", "8"], cells().encode()),
        ("a ladder of 1,000 rungs", ["bench", "1000"], b""),
        ("line feeds alone", ["prove"], b"\n" * MOST_BYTES),
        ("a byte too many", ["check"], b"\n" * (MOST_BYTES + 1)),
        ("opening brackets alone", ["check"], b"list(sos). " + b"p(" * 2000000),
        ("one clause of 4 MB", ["check"], b"list(sos). p" + b"|p" * 2000000),
    ]


def largest():
    """Name, words and text of inputs at the limits."""
    yield from families_at_most()
    yield from single_inputs()


def read_alone(text):
    """A problem whose run ends as soon as it is read, by the empty clause at its head."""
    return (sos(["$F"]) + text).encode()


def started_alone(text):
    """A problem whose run ends as soon as it is started: no clause is in the set of support."""
    return text.replace("list(sos)", "list(passive)").encode()
