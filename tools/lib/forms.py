"""What the clauses of a problem look like: the facts that settings are chosen by. All of it is read off a parse."""
from collections import namedtuple

from language import clause_text, is_variable, variables

# clauses, literals: how many. heaviest: the greatest weight of a clause. longest: the most literals of one.
# horn: no clause has two positive literals. equality: there is an equation. equational: every literal is one.
# units: every clause is one literal. propositional: no predicate has arguments. ground: no clause has a variable.
# known: the lists tell the negated conjecture. goals: the places, from 0, of its clauses, or of the negative ones.
Form = namedtuple("Form", "clauses literals heaviest longest horn equality equational units propositional ground known goals")


def term_weight(term):
    return 1 if is_variable(term) else 1 + sum(map(term_weight, term.arguments))


def literal_weight(literal):
    return 1 + sum(map(term_weight, literal.arguments))


def clause_weight(clause):
    """Symbols and variables, as the program counts them."""
    return sum(map(literal_weight, clause))


def is_negative(clause):
    return all(not literal.positive for literal in clause)


def is_positive(clause):
    return all(literal.positive for literal in clause)


def is_equation(literal):
    return literal.name == "="


def negated_conjecture(problem):
    """The places of the clauses of `sos`, where other clauses stand in other lists: there the lists tell it."""
    supported = [n for n, home in enumerate(problem.homes) if home == "sos"]
    return supported if supported and "usable" in problem.homes else []


def form_of(problem):
    clauses = problem.clauses
    known = negated_conjecture(problem)
    literals = [literal for clause in clauses for literal in clause]
    return Form(
        clauses=len(clauses),
        literals=len(literals),
        heaviest=max(map(clause_weight, clauses), default=0),
        longest=max(map(len, clauses), default=0),
        horn=all(sum(literal.positive for literal in clause) <= 1 for clause in clauses),
        equality=any(map(is_equation, literals)),
        equational=all(map(is_equation, literals)),
        units=all(len(clause) == 1 for clause in clauses),
        propositional=not any(literal.arguments for literal in literals),
        ground=not any(map(variables, clauses)),
        known=bool(known),
        goals=known or [n for n, clause in enumerate(clauses) if is_negative(clause)],
    )


def words_for(form):
    """The form in words, for those who run the schedule."""
    kind = "propositional" if form.propositional else "equations alone" if form.equational else (
        "with equality" if form.equality else "without equality")
    goal = "the negated conjecture is list(sos)" if form.known else (
        "the negative clauses are taken for the negated conjecture" if form.goals else "no clause is negative")
    return ", ".join(["%d clauses" % form.clauses, kind, "Horn" if form.horn else "not Horn",
                      "units" if form.units else "up to %d literals" % form.longest, goal])


def reflexive(clause):
    """Whether the clause is x=x."""
    return clause_text(clause) == "x0=x0"
