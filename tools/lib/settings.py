"""The settings of tools/auto: one row for each way to run the program on a problem, and the problem that it makes.

A row says for which forms it is, its words, its flags, which clauses are the set of support, which equations are
demodulators, the limit on weight, the pick ratio and the share of the time. Further settings (finders, a restriction,
templates, other words) are further rows of ROWS.
"""
from collections import namedtuple

from forms import is_positive, reflexive
from language import Literal, clause_text
from rules import goes_down, ranking, rule_of, shrinks, unfolds

PROVE = ("prove", "--finders", "0", "--candidates", "0")

Row = namedtuple("Row", "name forms words flags support rules weight ratio share")
REFLEXIVE = (Literal(True, "=", (0, 0)),)


# -- for which forms -------------------------------------------------------------------------------------------------

def equations_alone(form):
    return form.equational and form.units


def mixed(form):
    return form.equality and not equations_alone(form)


def plain(form):
    return not form.equality


def plain_horn(form):
    return plain(form) and form.horn


def plain_not_horn(form):
    return plain(form) and not form.horn


# -- which clauses are the set of support ----------------------------------------------------------------------------

def goal(problem, form):
    """The negated conjecture."""
    return set(form.goals) or everything(problem, form)


def goal_and_facts(problem, form):
    """The negated conjecture and the units without variables."""
    facts = {n for n, clause in enumerate(problem.clauses) if len(clause) == 1 and "x0" not in clause_text(clause)}
    return goal(problem, form) | facts


def positive(problem, form):
    """The clauses without a negative literal: what hyperresolution starts from."""
    return {n for n, clause in enumerate(problem.clauses) if is_positive(clause)} or everything(problem, form)


def all_but_goal(problem, form):
    """What isn't the negated conjecture: a search forward from the axioms, which meets it in usable."""
    return {n for n in range(len(problem.clauses)) if n not in form.goals} or everything(problem, form)


def everything(problem, form):
    return set(range(len(problem.clauses)))


# -- which equations are demodulators --------------------------------------------------------------------------------

def no_rules(problem):
    return None


def shrinking(problem):
    """Those that make terms lighter."""
    return shrinks


def going_down(problem):
    """Those too that leave the weight and bring brackets or symbols into an order, as associativity does."""
    rank = ranking(problem)
    return lambda left, right: goes_down(left, right, rank)


def unfolding(problem):
    """Those too that write out a definition or a distributive law."""
    rank = ranking(problem)
    return lambda left, right: unfolds(left, right, rank)


# -- the limit on weight ---------------------------------------------------------------------------------------------

def heavier_by(most):
    """Conclusions may be this much heavier than the heaviest clause of the input."""
    return lambda form: min(form.heaviest + most, 1000)


def free(form):
    return max(100, min(2 * form.heaviest, 1000))


# -- the table -------------------------------------------------------------------------------------------------------

REWRITE = ("para_from", "para_into", "dynamic_demod", "back_demod")

ROWS = (
    # without equality
    Row("hyper", plain, PROVE, ("hyper_res", "factor"), positive, no_rules, heavier_by(8), 4, 2),
    Row("hyper-free", plain, PROVE, ("hyper_res", "factor"), positive, no_rules, free, 2, 1),
    Row("units", plain, PROVE, ("ur_res", "unit_deletion"), everything, no_rules, heavier_by(8), 4, 2),
    Row("binary-goal", plain, PROVE, ("binary_res", "factor", "unit_deletion"), goal, no_rules, free, 4, 2),
    Row("binary-all", plain, PROVE, ("binary_res", "factor", "unit_deletion"), everything, no_rules, heavier_by(4), 4, 2),
    # equations alone
    Row("down-all", equations_alone, PROVE, REWRITE, everything, going_down, heavier_by(0), 4, 3),
    Row("down-all-8", equations_alone, PROVE, REWRITE, everything, going_down, heavier_by(8), 4, 3),
    Row("para-goal", equations_alone, PROVE, ("para_from", "para_into"), goal, no_rules, heavier_by(8), 4, 1),
    Row("unfold-all-8", equations_alone, PROVE, REWRITE, everything, unfolding, heavier_by(8), 4, 3),
    Row("shrink-all-8", equations_alone, PROVE, REWRITE, everything, shrinking, heavier_by(8), 4, 2),
    Row("unfold-all", equations_alone, PROVE, REWRITE, everything, unfolding, heavier_by(0), 4, 2),
    Row("shrink-all", equations_alone, PROVE, REWRITE, everything, shrinking, heavier_by(0), 4, 1),
    Row("down-goal", equations_alone, PROVE, REWRITE, goal, going_down, heavier_by(8), 4, 1),
    # with equality
    Row("hyper-para", mixed, PROVE, REWRITE + ("hyper_res", "factor"), everything, shrinking, heavier_by(4), 4, 2),
    Row("units-para", mixed, PROVE, REWRITE + ("ur_res", "unit_deletion"), everything, shrinking, heavier_by(4), 4, 2),
    Row("binary-goal-para", mixed, PROVE, REWRITE + ("binary_res", "factor", "unit_deletion"), goal, shrinking, free, 4, 2),
    Row("binary-all-para", mixed, PROVE, REWRITE + ("binary_res", "factor", "unit_deletion"), everything, shrinking, heavier_by(4), 4, 2),
)


def rules_among(clauses, goes):
    """The clauses that are rules, each turned to the side that it goes, without repetitions."""
    found = [rule_of(clause, goes) for clause in clauses] if goes else []
    return list(dict.fromkeys(rule for rule in found if rule))


Made = namedtuple("Made", "name words flags parameters lists share")


def make(row, problem, form):
    """The problem that the row asks for: its flags, parameters and the clauses of each list."""
    support = row.support(problem, form)
    lists = {"usable": [], "sos": [], "demodulators": rules_among(problem.clauses, row.rules(problem))}
    for number, clause in enumerate(problem.clauses):
        lists["sos" if number in support else "usable"].append(clause)
    if form.equality and not any(map(reflexive, problem.clauses)):
        lists["usable"].insert(0, REFLEXIVE)
    parameters = {"max_weight": row.weight(form), "pick_given_ratio": row.ratio, "max_given": 1000000, "max_kept": 100000,
                  "max_literals": max(64, form.longest)}
    return Made(row.name, row.words, row.flags, parameters, lists, row.share)


def text_of(made):
    """The problem's text, one clause a line."""
    lines = ["".join("set(%s). " % flag for flag in made.flags).strip()]
    lines.append(" ".join("assign(%s, %d)." % it for it in sorted(made.parameters.items())))
    for home, clauses in made.lists.items():
        if clauses:
            lines += ["list(%s)." % home] + [clause_text(clause) + "." for clause in clauses] + ["end_of_list."]
    return "\n".join(lines) + "\n"
