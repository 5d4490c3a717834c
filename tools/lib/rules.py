"""Equations as rewriting rules: which sides they are turned to, and by which measure they go down."""
from collections import Counter

from forms import is_equation, literal_weight, term_weight
from language import Literal, is_variable, variables


# heavier equations are no rules, since comparing their sides takes long
HEAVIEST = 100


def occurrences(term, found=None):
    """How often each variable occurs in a term."""
    found = Counter() if found is None else found
    if is_variable(term):
        found[term] += 1
    else:
        for argument in term.arguments:
            occurrences(argument, found)
    return found


def no_more_variables(right, left):
    """No variable occurs more often in the right term than in the left."""
    return not occurrences(right) - occurrences(left)


def shrinks(left, right):
    """The rule makes every term that it rewrites lighter."""
    return not is_variable(left) and term_weight(left) > term_weight(right) and no_more_variables(right, left)


def goes_down(left, right, rank):
    """Knuth and Bendix's ordering with all weights 1: lighter, or as light and less by symbol, then by arguments."""
    if is_variable(left) or not no_more_variables(right, left):
        return False
    if term_weight(left) != term_weight(right):
        return term_weight(left) > term_weight(right)
    if is_variable(right):
        return False
    if (left.name, len(left.arguments)) != (right.name, len(right.arguments)):
        return rank(left) > rank(right)
    for here, there in zip(left.arguments, right.arguments):
        if here != there:
            return goes_down(here, there, rank)
    return False


def unfolds(left, right, rank, known=None):
    """The lexicographic path ordering by `rank`, which lets a definition or a distributive law be written out.

    `known` has the answers for pairs of subterms, so that each pair is compared once.
    """
    known = {} if known is None else known
    if (left, right) not in known:
        known[left, right] = compare_paths(left, right, lambda one, other: unfolds(one, other, rank, known), rank)
    return known[left, right]


def compare_paths(left, right, greater, rank):
    """A step of it: `greater` compares smaller pairs."""
    if is_variable(left):
        return False
    if is_variable(right):
        return right in variables((Literal(True, "=", (left,)),))
    if any(below == right or greater(below, right) for below in left.arguments):
        return True
    if not all(greater(left, below) for below in right.arguments):
        return False
    if (left.name, len(left.arguments)) != (right.name, len(right.arguments)):
        return rank(left) > rank(right)
    for here, there in zip(left.arguments, right.arguments):
        if here != there:
            return greater(here, there)
    return False


def ranking(problem):
    """A rank of function symbols: by how many arguments, those of one before those of two, then by when they came."""
    order = {(symbol.name, symbol.arity): (symbol.arity > 0, symbol.arity == 1, number)
             for symbol, number in problem.symbols.items() if symbol.role == "function"}
    return lambda term: order[(term.name, len(term.arguments))]


def rule_of(clause, goes):
    """The clause as a rule in the direction in which it `goes`, or None."""
    if len(clause) != 1 or not clause[0].positive or not is_equation(clause[0]) or literal_weight(clause[0]) > HEAVIEST:
        return None
    left, right = clause[0].arguments
    if goes(left, right):
        return clause
    return (Literal(True, "=", (right, left)),) if goes(right, left) else None
