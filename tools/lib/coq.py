"""A proof as a file for Coq: a section over an arbitrary type, a lemma for each line, False as the last.

Symbols are variables of the section, the input clauses that the proof names are its hypotheses, `=` is Coq's equality,
and a clause is a disjunction under quantifiers. A lemma states its line as the line is written and is proved by the
line's step, so that it is Coq that decides whether the line follows.
"""
import re

from language import EQUALITY, Symbol, clause_text, instance, is_variable, variables
from proofs import Flip, Input, Instance, Merge, NoStep, Para, Resolve, numbered, put, step_text, subterm

# Names that a symbol can't have in the file: Coq's words, and what the file uses itself.
TAKEN = frozenset("""_ as at cofix do else end exists exists2 fix for forall fun if IF in let match mod Prop return Set
    SProp then Type using where with by Domain element refuted hole False not or eq eq_sym not_eq_sym eq_ind
    eq_ind_r""".split())
OWN = re.compile(r"(x|line_|input_|left_|right_)[0-9]+")
PLAIN = re.compile(r"[A-Za-z][A-Za-z0-9_]*")


# -- names and formulas ----------------------------------------------------------------------------------------------

def symbols_of(clauses):
    """The symbols of the clauses but `=`, by first occurrence."""
    found = {}

    def walk(term):
        if not is_variable(term):
            found.setdefault(Symbol("function", term.name, len(term.arguments)))
            for argument in term.arguments:
                walk(argument)

    for clause in clauses:
        for literal in clause:
            found.setdefault(Symbol("predicate", literal.name, len(literal.arguments)))
            for argument in literal.arguments:
                walk(argument)
    found.pop(EQUALITY, None)
    return list(found)


def named(symbols):
    """Coq's name of each symbol: its own, or one with a prime in it where that is taken or stands for several."""
    names = [symbol.name for symbol in symbols]
    taken = {}
    for symbol in symbols:
        free = PLAIN.fullmatch(symbol.name) and symbol.name not in TAKEN and not OWN.fullmatch(symbol.name)
        alone = names.count(symbol.name) == 1
        taken[symbol] = symbol.name if free and alone else "%s'%s'%d" % (symbol.role[0], symbol.name, symbol.arity)
    return taken


def bound(clause):
    """The names of the clause's variables, in the order in which they are quantified."""
    return ["x%d" % variable for variable in sorted(variables(clause))]


def call(name, terms):
    return "(%s)" % " ".join([name] + terms) if terms else name


class Writer:
    """Formulas and terms under the names of the symbols."""

    def __init__(self, names):
        self.names = names
        constants = [symbol for symbol in names if symbol.role == "function" and symbol.arity == 0]
        self.constant = names[constants[0]] if constants else None
        self.needs_element = False

    def applied(self, role, name, arguments):
        head = self.names.get(Symbol(role, name, len(arguments)), name)
        return " ".join([head] + [self.term(argument, True) for argument in arguments])

    def term(self, term, inside=False):
        if is_variable(term):
            return "x%d" % term
        if isinstance(term, str):
            return term
        text = self.applied("function", term.name, term.arguments)
        return "(%s)" % text if inside and term.arguments else text

    def literal(self, literal):
        if literal.name == "=":
            return (" = " if literal.positive else " <> ").join([self.term(side) for side in literal.arguments])
        return ("" if literal.positive else "~ ") + self.applied("predicate", literal.name, literal.arguments)

    def closed(self, clause):
        """The clause as a statement."""
        names = " ".join(bound(clause))
        body = " \\/ ".join(map(self.literal, clause)) or "False"
        return "forall %s : Domain, %s" % (names, body) if names else body

    def of_line(self, number, clause, line_clause):
        """The proof of a clause of an earlier line, for the variables that a line has."""
        terms = self.within(clause, line_clause)
        return call("line_%d" % number, [terms[variable] for variable in sorted(variables(clause))])

    def within(self, clause, line_clause):
        """What stands for each variable of an earlier line's clause: itself, or any element where the line lost it."""
        kept = bound(line_clause)
        names = {variable: "x%d" % variable for variable in variables(clause)}
        return {variable: name if name in kept else self.any_element(kept) for variable, name in names.items()}

    def any_element(self, kept):
        if kept:
            return kept[0]
        self.needs_element = self.needs_element or self.constant is None
        return self.constant or "element"


# -- tactics ---------------------------------------------------------------------------------------------------------

def shown(place, count, proof, whole):
    """Proves a disjunction of so many members by that at the place, from 0; or by all from there on, as a whole."""
    steps = ["right"] * min(place, 1) if place < 2 else ["do %d right" % place]
    return "; ".join(steps + ["left"] * (place < count - 1 and not whole) + ["exact %s" % proof]) + "."


def cases(proof, prefix, count, bullet, whole, each):
    """Takes a disjunction of so many members apart. Those from the place `whole` on stay together, where it isn't None.
    `each` answers the tactics of a member by its place, from 0, its name, and whether it is all the rest."""
    parts = count if whole is None else min(count, whole + 1)
    members = ["%s_%d" % (prefix, place + 1) for place in range(parts)]
    if parts == 1:
        return ["pose proof %s as %s." % (proof, members[0])] + each(0, members[0], count > 1)
    pattern = " | ".join(["[" + member for member in members[:-1]] + [members[-1]]) + "]" * (parts - 1)
    rows = ["destruct %s as %s." % (proof, pattern)]
    for place, member in enumerate(members):
        first, *rest = each(place, member, parts <= place + 1 < count)
        rows += ["%s %s" % (bullet, first)] + ["  " + row for row in rest]
    return rows


class Parent:
    """A line that a step names: its number, its clause, the place of the step's literal in it, from 0, and where the
    conclusion has its other literals. Those behind the step's literal are taken together where the conclusion ends
    with them."""

    def __init__(self, before, number, literal, goes, ends):
        self.number, self.clause, self.place = number, numbered(before, number), literal - 1
        self.literal = numbered(self.clause, literal)
        self.goes, self.whole = goes, literal if ends else None

    def cases(self, writer, line, prefix, bullet, at_literal):
        """The tactics of a line: at the step's literal as `at_literal` answers, by its name."""
        def each(place, member, whole):
            if place == self.place:
                return at_literal(member)
            return [shown(self.goes(place), len(line.clause), member, whole)]

        proof = writer.of_line(self.number, self.clause, line.clause)
        return cases(proof, prefix, len(self.clause), bullet, self.whole, each)


def closing_up(place):
    """Where the other literals go, from 0, as the one at the place is left out."""
    return lambda other: other - (other > place)


def pair(writer, line, first, second, both):
    """The tactics of a step on two lines; `both` answers what proves the line where both literals hold."""
    return first.cases(writer, line, "left", "-", lambda left: second.cases(
        writer, line, "right", "+", lambda right: [both(left, right)]))


def prove_resolve(writer, line, before):
    step = line.step
    alone = len(numbered(before, step.other)) == 1
    first = Parent(before, step.line, step.literal, closing_up(step.literal - 1), alone)
    follow = closing_up(step.other_literal - 1)
    second = Parent(before, step.other, step.other_literal,
                    lambda place: len(first.clause) - 1 + follow(place), True)

    def both(left, right):
        return "destruct (%s %s)." % ((right, left) if first.literal.positive else (left, right))

    return pair(writer, line, first, second, both)


def prove_para(writer, line, before):
    step = line.step
    alone = len(numbered(before, step.line)) == 1
    target = Parent(before, step.into, step.into_literal, lambda place: place, alone)
    follow = closing_up(step.literal - 1)
    source = Parent(before, step.line, step.literal, lambda place: len(target.clause) + follow(place), True)
    if source.literal.name != "=":
        raise NoStep
    subterm(target.literal.arguments, step.path)
    left, right = instance((source.literal,), writer.within(source.clause, line.clause))[0].arguments
    context = instance((target.literal,), writer.within(target.clause, line.clause))[0]
    around = writer.literal(context._replace(arguments=put(context.arguments, step.path, "hole")))
    law, old, new = ("eq_ind", left, right) if step.side == "left" else ("eq_ind_r", right, left)

    def both(equal, holds):
        proof = "(@%s Domain %s (fun hole : Domain => %s) %s %s %s)" % (
            law, writer.term(old, True), around, holds, writer.term(new, True), equal)
        return shown(target.place, len(line.clause), proof, False)

    return pair(writer, line, source, target, both)


def prove_merge(writer, line, before):
    step = line.step
    parent = Parent(before, step.line, step.literal, closing_up(step.literal - 1), True)
    same = parent.clause.index(parent.literal)
    if same == parent.place:
        raise NoStep
    return parent.cases(writer, line, "left", "-",
                        lambda member: [shown(same, len(line.clause), member, False)])


def prove_flip(writer, line, before):
    step = line.step
    parent = Parent(before, step.line, step.literal, lambda place: place, True)
    law = "eq_sym" if parent.literal.positive else "not_eq_sym"
    return parent.cases(writer, line, "left", "-", lambda member: [
        shown(parent.place, len(line.clause), "(%s %s)" % (law, member), False)])


def prove_instance(writer, line, before):
    clause = numbered(before, line.step.line)
    terms = [writer.term(numbered(line.step.terms, variable + 1), True) for variable in sorted(variables(clause))]
    return ["exact %s." % call("line_%d" % line.step.line, terms)]


def prove_input(writer, line, before):
    return ["exact %s." % call("input_%d" % line.step.clause, bound(line.clause))]


PROVE = {Input: prove_input, Instance: prove_instance, Resolve: prove_resolve, Merge: prove_merge, Para: prove_para,
         Flip: prove_flip}


# -- the file --------------------------------------------------------------------------------------------------------

def lemma(writer, number, line, before):
    names = " ".join(bound(line.clause))
    rows = ["(* %d %s : %s. *)" % (number, step_text(line.step), clause_text(line.clause)),
            "Lemma line_%d : %s." % (number, writer.closed(line.clause)), "Proof."]
    rows += ["  intros %s." % names] if names else []
    return rows + ["  " + row for row in PROVE[type(line.step)](writer, line, before)] + ["Qed.", ""]


def declared(writer, symbol):
    ending = "Domain" if symbol.role == "function" else "Prop"
    return "Variable %s : %s." % (writer.names[symbol], " -> ".join(["Domain"] * symbol.arity + [ending]))


HEAD = """(* A refutation of input clauses, line by line, written by tools/to-coq.
   After coqc has accepted this file, refuted says: over every type Domain, whatever functions and predicates the
   symbols are, the clauses below aren't all true. At the end coqc prints that statement and what it rests on. *)
Section Refutation.

Variable Domain : Type.
"""

ELEMENT = """(* The domain has an element: no constant names one, and a line loses its last variable. *)
Variable element : Domain.
"""

FOOT = """Theorem refuted : False.
Proof. exact line_%d. Qed.

End Refutation.

Set Printing Depth 1000000.
Check refuted.
Print Assumptions refuted."""


class NoTranslation(Exception):
    """A line of which nothing can be stated: its step names a line, clause, literal, place or term that isn't there."""


def proved(writer, lines, inputs):
    """The lemmas of all lines."""
    rows, before = [], []
    for number, line in enumerate(lines, 1):
        try:
            if isinstance(line.step, Input):
                numbered(inputs, line.step.clause)
            rows += lemma(writer, number, line, before)
        except NoStep:
            raise NoTranslation(number)
        before.append(line.clause)
    return rows


def coq_text(problem, lines):
    """The file; NoTranslation with the number of a line that can't be stated, or of the line after the last of none."""
    if not lines:
        raise NoTranslation(1)
    used = sorted({line.step.clause for line in lines if isinstance(line.step, Input)})
    inputs = [(number, problem.clauses[number - 1]) for number in used if 1 <= number <= len(problem.clauses)]
    names = named(symbols_of([clause for _, clause in inputs] + [line.clause for line in lines]))
    writer = Writer(names)
    lemmas = proved(writer, lines, problem.clauses)
    rows = [HEAD] + [declared(writer, symbol) for symbol in names] + [""]
    rows += [ELEMENT] if writer.needs_element else []
    for number, clause in inputs:
        rows += ["(* input clause %d : %s. *)" % (number, clause_text(clause)),
                 "Hypothesis input_%d : %s." % (number, writer.closed(clause))]
    return "\n".join(rows + [""] + lemmas + [FOOT % len(lines)]) + "\n"
