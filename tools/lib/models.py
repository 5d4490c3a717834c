"""Models as docs/MODELS.md has them: reading their text, and whether every clause is true in one."""
import itertools
import re
from collections import namedtuple

from language import is_variable, width

HEAD = re.compile(r"model ([1-8])\.")
ROW = re.compile(r"(function|predicate) (\w+) (\d) :((?: \d)+)\.")
LAST = "end_of_model."

# tables: by role, name and number of arguments the entries in the order of the arguments.
Model = namedtuple("Model", "size tables")


def read_model(text):
    """The model that a text is, or None."""
    lines = text.strip().split("\n")
    head, rows = HEAD.fullmatch(lines[0]), [ROW.fullmatch(line) for line in lines[1:-1]]
    if head is None or lines[-1] != LAST or None in rows:
        return None
    size, tables = int(head.group(1)), {}
    for role, name, arity, entries in (row.groups() for row in rows):
        values = [int(entry) for entry in entries.split()]
        if len(values) != size ** int(arity) or max(values) >= (size if role == "function" else 2):
            return None
        tables[role, name, int(arity)] = values
    return Model(size, tables)


def entry(model, role, name, arguments):
    place = 0
    for argument in arguments:
        place = place * model.size + argument
    return model.tables[role, name, len(arguments)][place]


def value(model, term, elements):
    if is_variable(term):
        return elements[term]
    return entry(model, "function", term.name, [value(model, argument, elements) for argument in term.arguments])


def holds(model, literal, elements):
    arguments = [value(model, argument, elements) for argument in literal.arguments]
    true = arguments[0] == arguments[1] if literal.name == "=" else entry(model, "predicate", literal.name, arguments) == 1
    return true == literal.positive


def is_model(problem, model):
    """Whether every clause is true under all values of its variables; a symbol without a table makes it none."""
    try:
        return all(any(holds(model, literal, elements) for literal in clause)
                   for clause in problem.clauses
                   for elements in itertools.product(range(model.size), repeat=width(clause)))
    except KeyError:
        return False
