"""The proof of a run as a graph: what each line says in words, what it uses, and its instance lines folded.

    graph = ProofGraph(run)
    graph.line(5).words(folded=True)      "resolution: literal 1 of line 2 with a for x0, -p(a), and .."
    graph.shown(folded=True)              the numbers of the lines that are drawn

A line is folded where it is an instance and a later line uses it: each step that uses it names the line it is an
instance of, with the terms put for the variables. So a folded proof reads as a logician writes it.
"""
from collections import namedtuple

from language import EQUALITY, literal_text, clause_text, is_variable, replaced, term_text, variables
from proofs import Flip, Input, Instance, Merge, NoStep, Para, Resolve, meaning

# A line that a step uses: which literal of it (or None), the path in that literal (or None), and, where instance lines
# are folded, the terms put for variables as pairs (variable, term).
Use = namedtuple("Use", "line literal path terms")

SHORT = {Input: "clause %s, read", Instance: "instance of %s", Resolve: "resolution of %s and %s",
         Merge: "merge in %s", Para: "replacement by %s in %s", Flip: "flip in %s"}


def direct_uses(step):
    """The lines that a step names, as it stands."""
    if isinstance(step, Instance):
        return [Use(step.line, None, None, ())]
    if isinstance(step, Resolve):
        return [Use(step.line, step.literal, None, ()), Use(step.other, step.other_literal, None, ())]
    if isinstance(step, (Merge, Flip)):
        return [Use(step.line, step.literal, None, ())]
    if isinstance(step, Para):
        side = (1,) if step.side == "left" else (2,)
        return [Use(step.line, step.literal, side, ()), Use(step.into, step.into_literal, step.path, ())]
    return []


def span(literal, path):
    """Where the subterm at the path stands in the literal's text, as (start, end); None where the path leads nowhere."""
    equation = literal.name == EQUALITY.name
    start = 0 if equation or literal.positive else 1
    here, arguments = None, literal.arguments
    infix = ("=" if literal.positive else "!=") if equation else None
    for place in path:
        if not 1 <= place <= len(arguments):
            return None
        before = [len(term_text(argument)) for argument in arguments[:place - 1]]
        if infix is not None:
            start += sum(before) + (len(infix) if before else 0)
        else:
            start += len(literal.name if here is None else here.name) + 1 + sum(before) + len(before)
        here, infix = arguments[place - 1], None
        arguments = () if is_variable(here) else here.arguments
    return (start, start + len(term_text(here))) if here is not None else None


def terms_words(terms):
    return ", ".join("%s for x%d" % (term_text(term), variable) for variable, term in terms)


class GraphLine:
    """A line with its number, its mark, what it uses and what uses it."""

    def __init__(self, number, line, mark):
        self.number, self.step, self.clause, self.mark = number, line.step, line.clause, mark
        self.literals = [literal_text(literal) for literal in line.clause]
        self.text = clause_text(line.clause)
        self.uses, self.folded_uses = [], []
        self.used_by, self.folded_used_by = [], []
        # Numbers that the step names but that are no earlier lines; whether the line is such a step at all.
        self.amiss, self.follows = [], True
        self.folds, self.base = False, None

    def sources(self, folded):
        return self.folded_uses if folded else self.uses

    def users(self, folded):
        return self.folded_used_by if folded else self.used_by

    def short(self, folded):
        """The step in a few words."""
        if isinstance(self.step, Input):
            return SHORT[Input] % self.step.clause
        named = [use.line for use in self.sources(folded)] + self.amiss
        return SHORT[type(self.step)] % tuple(named)


class ProofGraph:
    """The lines of a run's proof."""

    def __init__(self, run):
        self.lines = [GraphLine(number, line, mark)
                      for number, (line, mark) in enumerate(zip(run.proof, run.marks), 1)]
        self.follow(run)
        self.link()
        self.fold()

    def line(self, number):
        return self.lines[number - 1]

    def shown(self, folded):
        return [line.number for line in self.lines if not (folded and line.folds)]

    def unsound(self):
        """The lines that aren't the step that they name."""
        return [line.number for line in self.lines if not line.follows]

    def follow(self, run):
        """Tries each step. Without the problem an input line is taken as it stands."""
        before = []
        inputs = run.problem.clauses if run.problem else None
        for line in self.lines:
            try:
                if inputs is not None or not isinstance(line.step, Input):
                    line.follows = meaning(line.step, inputs, before) == line.clause
            except NoStep:
                line.follows = False
            before.append(line.clause)

    def link(self):
        for line in self.lines:
            for use in direct_uses(line.step):
                if 1 <= use.line < line.number:
                    line.uses.append(use)
                    self.line(use.line).used_by.append(line.number)
                else:
                    line.amiss.append(use.line)

    def fold(self):
        """Says of each instance line what it is an instance of in the end, and of each step what it uses then."""
        for line in self.lines:
            line.folded_uses = [self.through(use) for use in line.uses]
            if isinstance(line.step, Instance) and line.follows:
                line.folds = bool(line.used_by)
                line.base = self.base_of(line)
        for line in self.lines:
            if line.folds:
                continue
            for use in line.folded_uses:
                self.line(use.line).folded_used_by.append(line.number)

    def base_of(self, line):
        """The line that this instance is one of, and the terms for the variables that occur there."""
        before = self.line(line.step.line)
        terms = line.step.terms
        if before.folds:
            return Use(before.base.line, None, None,
                       tuple((variable, replaced(term, terms)) for variable, term in before.base.terms))
        return Use(before.number, None, None, tuple((v, terms[v]) for v in sorted(variables(before.clause))))

    def through(self, use):
        """The use of a folded line as a use of the line that it is an instance of."""
        there = self.line(use.line)
        if not there.folds:
            return use
        terms = tuple((variable, term) for variable, term in there.base.terms if term != variable)
        return Use(there.base.line, use.literal, use.path, terms)

    # -- words

    def words(self, line, folded):
        """The step of a line in words."""
        if isinstance(line.step, Input):
            said = "clause %d of the problem, as it was read" % line.step.clause
        elif line.amiss:
            said = "%s, which names %s" % (line.short(folded), self.amiss_words(line))
        else:
            said = getattr(self, "words_" + type(line.step).__name__.lower())(line, folded)
        return said if line.follows else said + "; the line isn't this step"

    def amiss_words(self, line):
        return " and ".join("line %d, no earlier line" % number for number in line.amiss)

    def source(self, use):
        return "line %d%s" % (use.line, " with " + terms_words(use.terms) if use.terms else "")

    def literal(self, line, place, folded):
        """A literal that a step uses, with its text as it stands in the line that the step names."""
        use, shown = line.uses[place], line.sources(folded)[place]
        named = self.line(use.line).literals
        text = ", %s," % named[use.literal - 1] if 1 <= use.literal <= len(named) else ""
        return "literal %d of %s%s" % (use.literal, self.source(shown), text)

    def words_instance(self, line, folded):
        number, terms = line.step.line, enumerate(line.step.terms)
        if folded and line.base:
            number, terms = line.base.line, line.base.terms
        return "line %d with %s" % (number, terms_words(terms) or "no terms")

    def words_resolve(self, line, folded):
        return "resolution: %s and %s cancel" % (self.literal(line, 0, folded), self.literal(line, 1, folded))

    def words_merge(self, line, folded):
        return "merge: %s is left out, since it equals an earlier one" % self.literal(line, 0, folded)

    def words_flip(self, line, folded):
        return "flip: the sides of %s are exchanged" % self.literal(line, 0, folded).rstrip(",")

    def words_para(self, line, folded):
        step = line.step
        equation = self.literal(line, 0, folded).rstrip(",")
        return "replacement: by %s, from %s, at (%s) in %s" % (
            equation, "left to right" if step.side == "left" else "right to left",
            ",".join(map(str, step.path)), self.literal(line, 1, folded).rstrip(","))


def proved_clauses(run):
    """The numbers of the clauses that stand in the proof: input clauses that are read, kept ones that are a line."""
    read = {line.step.clause for line in run.proof if isinstance(line.step, Input)}
    stand = {line.clause for line in run.proof}
    return read | {kept.number for kept in run.kept if kept.clause in stand}
