"""Proof sections as docs/PROOFS.md has them: reading, printing, and what each step means.

    problem, lines = read_check(data)                   a problem and a section behind it, as scott check reads them
    lines = read_section(problem, data)                 a section alone
    problem, lines = read_files(names)                  a file that has both, or two files, of which the second may be
                                                        the text of a run
    first_fault(problem.clauses, lines)                 None of a proof, else the number that scott tells
    meaning(step, problem.clauses, clauses_before)      the clause of a step; NoStep where it has none

A step is one of the named tuples below; lines, literals, input clauses and places of a path are numbered from 1.
"""
import re
from collections import namedtuple

from language import (App, Literal, MOST_DEPTH, MOST_DIGITS, ProblemReader, Reader, Refused, Symbol, begins_variable,
                      canonical, clause_text, instance, is_variable, read_problem, term_text, width)

MOST_WEIGHT = 10000
MOST_NUMBER = 4294967295
MOST_VARIABLE = 65535

Input = namedtuple("Input", "clause")
Instance = namedtuple("Instance", "line terms")
Resolve = namedtuple("Resolve", "line literal other other_literal")
Merge = namedtuple("Merge", "line literal")
Para = namedtuple("Para", "line literal side into into_literal path")
Flip = namedtuple("Flip", "line literal")
Line = namedtuple("Line", "step clause")


# -- what steps mean -------------------------------------------------------------------------------------------------

class NoStep(Exception):
    """The step's condition doesn't hold."""


def numbered(things, number):
    if not 1 <= number <= len(things):
        raise NoStep
    return things[number - 1]


def without(clause, number):
    return clause[:number - 1] + clause[number:]


def subterm(arguments, path):
    """What stands at the path in the arguments of an atom."""
    here = App("", arguments)
    for place in path:
        here = numbered(() if is_variable(here) else here.arguments, place)
    return here


def put(arguments, path, term):
    """The arguments with the term at the path, which leads to a subterm."""
    place = path[0] - 1
    old = arguments[place]
    new = App(old.name, put(old.arguments, path[1:], term)) if path[1:] else term
    return arguments[:place] + (new,) + arguments[place + 1:]


def follow_input(step, inputs, before):
    return canonical(numbered(inputs, step.clause))


def follow_instance(step, inputs, before):
    clause = numbered(before, step.line)
    if len(step.terms) != width(clause):
        raise NoStep
    return instance(clause, step.terms)


def follow_resolve(step, inputs, before):
    first, second = numbered(before, step.line), numbered(before, step.other)
    one, other = numbered(first, step.literal), numbered(second, step.other_literal)
    if one.positive == other.positive or one[1:] != other[1:]:
        raise NoStep
    return without(first, step.literal) + without(second, step.other_literal)


def follow_merge(step, inputs, before):
    clause = numbered(before, step.line)
    if numbered(clause, step.literal) not in clause[:step.literal - 1]:
        raise NoStep
    return without(clause, step.literal)


def follow_para(step, inputs, before):
    source, target = numbered(before, step.line), numbered(before, step.into)
    equation, literal = numbered(source, step.literal), numbered(target, step.into_literal)
    if not equation.positive or equation.name != "=":
        raise NoStep
    old, new = equation.arguments if step.side == "left" else equation.arguments[::-1]
    if subterm(literal.arguments, step.path) != old:
        raise NoStep
    changed = Literal(literal.positive, literal.name, put(literal.arguments, step.path, new))
    at = step.into_literal
    return target[:at - 1] + (changed,) + target[at:] + without(source, step.literal)


def follow_flip(step, inputs, before):
    clause = numbered(before, step.line)
    literal = numbered(clause, step.literal)
    if literal.name != "=":
        raise NoStep
    flipped = Literal(literal.positive, "=", literal.arguments[::-1])
    return clause[:step.literal - 1] + (flipped,) + clause[step.literal:]


# The word of each kind of step, its tuple and its meaning.
STEPS = {"input": (Input, follow_input), "instance": (Instance, follow_instance),
         "resolve": (Resolve, follow_resolve), "merge": (Merge, follow_merge), "para": (Para, follow_para),
         "flip": (Flip, follow_flip)}
FOLLOW = {kind: follow for kind, follow in STEPS.values()}
WORDS = {kind: word for word, (kind, _) in STEPS.items()}


def meaning(step, inputs, before):
    """The clause of a step, by the input clauses and the clauses of the lines before it; else NoStep."""
    return FOLLOW[type(step)](step, inputs, before)


def follows(line, inputs, before):
    try:
        return meaning(line.step, inputs, before) == line.clause
    except NoStep:
        return False


def first_fault(inputs, lines):
    """None where the lines are a proof; else the number of the first that is no step, or of the line after the last."""
    before = []
    for number, line in enumerate(lines, 1):
        if not follows(line, inputs, before):
            return number
        before.append(line.clause)
    return None if before and before[-1] == () else len(lines) + 1


def named_lines(step):
    """The lines that a step names, in their order."""
    return [getattr(step, field) for field in ("line", "other", "into") if hasattr(step, field)]


# -- printing --------------------------------------------------------------------------------------------------------

def step_text(step):
    def part(field, value):
        if field == "terms":
            return "(%s)" % ",".join(map(term_text, value))
        return "(%s)" % ",".join(map(str, value)) if field == "path" else str(value)

    return " ".join([WORDS[type(step)]] + [part(*pair) for pair in zip(step._fields, step)])


def section_text(lines):
    rows = ["%d %s : %s." % (number, step_text(line.step), clause_text(line.clause))
            for number, line in enumerate(lines, 1)]
    return "\n".join(["proof."] + rows + ["end_of_proof.\n"])


# -- reading ---------------------------------------------------------------------------------------------------------

class SectionReader(Reader):
    """Reads texts that name a problem's symbols, with variables x0, x1, ..; a proof section among them."""

    most_weight = MOST_WEIGHT
    colon = True

    def __init__(self, problem, data):
        super().__init__(data)
        self.problem = problem

    def go_on(self, reader):
        """From the present token of another reader of the same text."""
        self.kind, self.text, self.at, self.behind = reader.kind, reader.text, reader.at, reader.behind
        return self

    def known(self, role, side):
        if Symbol(role, side.name, len(side.arguments or ())) not in self.problem.symbols:
            self.pending = Refused(side.at, "unknown name")

    def read_term(self, side):
        digits = side.name[1:]
        if side.arguments is not None or not begins_variable(side.name):
            self.known("function", side)
        elif side.name[0] != "x" or not digits.isdigit():
            self.pending = Refused(side.at, "unknown name")
        elif len(digits) > MOST_DIGITS or int(digits) > MOST_VARIABLE:
            self.pending = Refused(side.at, "out of range")

    def read_atom(self, side):
        self.known("predicate", side)

    def term(self, side):
        if side.arguments is None and begins_variable(side.name):
            return int(side.name[1:])
        return App(side.name, tuple([self.term(argument) for argument in side.arguments or ()]))

    def full_clause(self):
        """A clause and its full stop."""
        raw = self.raw_clause()
        self.expect(".")
        return self.clause(raw)

    def number(self, least=0, greatest=MOST_NUMBER):
        value = self.digits()
        if len(self.text) > MOST_DIGITS or not least <= value <= greatest:
            raise Refused(self.at, "out of range")
        self.take()
        return value

    def lines(self):
        """The section from its word `proof` to the full stop behind `end_of_proof`."""
        self.expect("proof")
        self.expect(".")
        found = []
        while self.text != "end_of_proof":
            if self.digits() != len(found) + 1:
                self.fail()
            self.number()
            step = self.step()
            self.expect(":")
            found.append(Line(step, self.full_clause()))
        self.take()
        self.expect(".")
        return found

    def step(self):
        kind = STEPS[self.expect(*STEPS)][0]
        read = {"terms": self.terms, "path": self.path, "side": lambda: self.expect("left", "right")}
        return kind(*[read.get(field, self.number)() for field in kind._fields])

    def terms(self):
        """The terms of an instance step."""
        self.expect("(")
        found = [] if self.text == ")" else [self.listed_term()]
        while self.text == ",":
            self.take()
            found.append(self.listed_term())
        self.expect(")")
        return tuple([self.term(side) for side in found])

    def listed_term(self):
        self.weight = self.depth = 0
        side = self.side(1, MOST_DEPTH)
        self.read_term(side)
        return side

    def path(self):
        self.expect("(")
        found = [self.number()]
        while self.text == ",":
            self.take()
            found.append(self.number())
        self.expect(")")
        return tuple(found)

    def only_end(self):
        """Nothing but white space and comments may stand behind the section."""
        if self.kind != "end":
            self.fail()


def read_section(problem, data):
    """The lines of a text that is a section of the problem; else Refused, with the byte of that text."""
    reader = SectionReader(problem, data)
    lines = reader.lines()
    reader.only_end()
    return lines


def read_check(data):
    """The problem and the lines of a text that has both, as scott check reads it."""
    first = ProblemReader(data)
    problem = first.items("proof", "run")
    reader = SectionReader(problem, data).go_on(first)
    lines = reader.lines()
    reader.only_end()
    return problem, lines


RUN_SECTION = re.compile(rb"^proof\.\n.*?^end_of_proof\.\n", re.M | re.S)


def section_of(data):
    """The proof section in what scott prove printed; any other text as it is."""
    found = RUN_SECTION.search(data) if data.startswith(b"run.") else None
    return found.group() if found else data


def read_files(names):
    """The problem and the lines of one file that has both, or of a problem's file and a proof's."""
    texts = []
    for name in names:
        with open(name, "rb") as file:
            texts.append(file.read())
    if len(texts) == 1:
        return read_check(texts[0])
    problem = read_problem(texts[0])
    return problem, read_section(problem, section_of(texts[1]))
