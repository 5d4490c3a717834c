"""Problems as docs/LANGUAGE.md has them: reading, symbols, canonical variables, printing of clauses.

A term is a variable, which is its number, or an App of a name and terms. A literal of the name "=" is an equation. A
clause is a tuple of literals, the empty clause (). Texts are bytes; what isn't a text of the language raises Refused
with the byte and the kind that scott tells. Terms are at most 256 deep, so that recursion is bounded.

    problem = read_problem(data)            problem.clauses[k - 1] is input clause k
    clause_text(problem.clauses[0])         "-p(x0) | q(x0)"

A reader of another text that has clauses in it is a subclass of Reader (see proofs.py).
"""
import re
from collections import namedtuple

MOST_BYTES = 4194304
MOST_CLAUSES = 10000
MOST_SYMBOLS = 4096
MOST_ARGUMENTS = 8
MOST_DEPTH = 256
MOST_INPUT_WEIGHT = 1000
MOST_DIGITS = 10

App = namedtuple("App", "name arguments")
Literal = namedtuple("Literal", "positive name arguments")
Symbol = namedtuple("Symbol", "role name arity")
EQUALITY = Symbol("predicate", "=", 2)

FLAGS = dict.fromkeys(("binary_res", "factor", "hyper_res", "ur_res", "para_from", "para_into", "unit_deletion",
                       "dynamic_demod", "back_demod"), False)
FLAGS.update(for_sub=True, back_sub=True)
IDLE_FLAGS = frozenset(("print_given", "print_kept", "print_proofs", "print_lists_at_end", "print_back_sub",
                        "print_back_demod", "print_new_demod", "very_verbose"))

# Least, greatest, default.
PARAMETERS = {"pick_given_ratio": (0, 1000, 4), "max_weight": (1, 1000, 100), "max_literals": (1, 1000, 64),
              "max_given": (1, 1000000, 10000), "max_kept": (1, 100000, 20000), "demod_limit": (0, 1000, 1000),
              "max_proofs": (1, 1, 1)}
IDLE_PARAMETERS = dict.fromkeys(("max_seconds", "max_mem", "stats_level"), (-1, 2147483647))

LISTS = ("usable", "sos", "passive", "demodulators")
COMMANDS = ("set", "clear", "assign", "list")

UNSUPPORTED_FLAGS = frozenset((
    "auto", "auto2", "knuth_bendix", "order_eq", "lrpo", "prolog_style_variables", "process_input", "sos_queue",
    "sos_stack", "input_sos_first", "interactive_given", "neg_hyper_res", "para_all", "para_from_left",
    "para_from_right", "para_from_vars", "para_into_left", "para_into_right", "para_into_vars", "dynamic_demod_all",
    "demod_out_in", "eq_units_both_ways"))
UNSUPPORTED_PARAMETERS = frozenset(("max_distinct_vars", "change_limit_after", "new_max_weight", "neg_weight"))
UNSUPPORTED_COMMANDS = frozenset(("formula_list", "weight_list", "op", "lex", "skolem", "include", "make_evaluable",
                                  "special_unary"))
UNSUPPORTED_LISTS = frozenset(("hints", "hints2", "hot"))


class Refused(Exception):
    """The first fault of a text: its byte and its kind, in scott's words."""

    def __init__(self, place, kind):
        super().__init__("input refused at byte %d: %s" % (place, kind))
        self.place, self.kind = place, kind


class Problem:
    """Flags and parameters as they hold, input clauses with the list of each, symbols in the order of their numbers."""

    def __init__(self):
        self.flags = dict(FLAGS)
        self.parameters = {name: row[2] for name, row in PARAMETERS.items()}
        self.clauses, self.homes = [], []
        self.symbols = {EQUALITY: 0}


# -- terms and clauses -----------------------------------------------------------------------------------------------

def is_variable(term):
    return isinstance(term, int)


def variables(clause):
    """The distinct variables by first occurrence."""
    found = {}

    def walk(term):
        if is_variable(term):
            found.setdefault(term)
        else:
            for argument in term.arguments:
                walk(argument)

    for literal in clause:
        for argument in literal.arguments:
            walk(argument)
    return list(found)


def width(clause):
    """As many terms as an instance of the clause asks for: one more than its greatest variable."""
    return max(variables(clause), default=-1) + 1


def replaced(term, terms):
    """The term with terms[i] in place of variable i."""
    if is_variable(term):
        return terms[term]
    return App(term.name, tuple([replaced(argument, terms) for argument in term.arguments]))


def instance(clause, terms):
    return tuple(Literal(positive, name, tuple([replaced(argument, terms) for argument in arguments]))
                 for positive, name, arguments in clause)


def canonical(clause):
    """The clause with its variables numbered by first occurrence."""
    return instance(clause, {old: new for new, old in enumerate(variables(clause))})


# -- printing --------------------------------------------------------------------------------------------------------

def term_text(term):
    if is_variable(term):
        return "x%d" % term
    return term.name + ("(%s)" % ",".join(map(term_text, term.arguments)) if term.arguments else "")


def literal_text(literal):
    if literal.name == "=":
        return ("=" if literal.positive else "!=").join(map(term_text, literal.arguments))
    return ("" if literal.positive else "-") + term_text(App(literal.name, literal.arguments))


def clause_text(clause):
    return " | ".join(map(literal_text, clause)) or "$F"


# -- reading ---------------------------------------------------------------------------------------------------------

BLANK = re.compile(rb"[ \t\n\r\f]*")
COMMENT = re.compile(rb"%[^\n]*")
WORD = re.compile(rb"[A-Za-z0-9_$]+")
SIGN = re.compile(rb"!=|[(),.|=:-]")

# A word as read, with its byte; arguments is None where it has no parentheses.
Side = namedtuple("Side", "name at arguments")


class Reader:
    """Walks over the tokens of a text. kind, text and at are the present token's: "word", "sign" or "end".

    A fault of a token is raised before it is taken. A fault that the token behind a name decides waits in `pending`,
    since that token may be at fault itself, which goes first.
    """

    most_weight = MOST_INPUT_WEIGHT
    colon = False

    def __init__(self, data):
        if len(data) > MOST_BYTES:
            raise Refused(MOST_BYTES, "too long")
        self.data, self.behind, self.pending = data, 0, None
        self.advance()

    def advance(self):
        """Reads the next token."""
        data, at = self.data, BLANK.match(self.data, self.behind).end()
        while data.startswith(b"%", at):
            at = BLANK.match(data, COMMENT.match(data, at).end()).end()
        self.at = self.behind = at
        found = WORD.match(data, at) or SIGN.match(data, at)
        if at == len(data):
            self.kind, self.text = "end", ""
        elif found is None:
            raise Refused(at, "unsupported" if 32 < data[at] < 127 else "not text")
        else:
            self.kind, self.text = "word" if found.re is WORD else "sign", found.group().decode()
            self.behind = found.end()
            if "$" in self.text and self.text != "$F" or self.text == ":" and not self.colon:
                raise Refused(at, "unsupported")

    def take(self):
        """The present token, which may stand here, and on to the next."""
        if self.pending:
            raise self.pending
        text = self.text
        self.advance()
        return text

    def fail(self):
        """The present token may not stand here."""
        raise Refused(self.at, "truncated" if self.kind == "end" else "unexpected")

    def expect(self, *texts):
        """The present token, which has to be one of these."""
        if self.text not in texts or self.kind == "end":
            self.fail()
        return self.take()

    def digits(self):
        """The value of the present token, a word of digits; it isn't taken."""
        if self.kind != "word" or not self.text.isdigit():
            self.fail()
        return int(self.text.lstrip("0")[:MOST_DIGITS + 1] or "0")

    def count(self):
        """The present token is one more symbol or variable of the clause."""
        self.weight += 1
        if self.weight > self.most_weight:
            raise Refused(self.at, "too heavy")

    def side(self, level, deepest):
        """A word with its arguments, at this level of at most `deepest`."""
        if self.kind != "word" or self.text == "$F":
            self.fail()
        at = self.at
        self.count()
        if level > deepest:
            raise Refused(at, "too deep")
        self.depth = max(self.depth, level)
        name = self.take()
        return Side(name, at, self.arguments(level, deepest) if self.text == "(" else None)

    def arguments(self, level, deepest):
        found = []
        while self.text != ")" or not found:
            self.expect("," if found else "(")
            found.append(self.side(level + 1, deepest))
            self.read_term(found[-1])
            if self.text not in (",", ")"):
                self.fail()
            if self.text == "," and len(found) == MOST_ARGUMENTS:
                raise self.pending or Refused(self.at, "too many")
        self.expect(")")
        return found

    def equation(self, left):
        """The rest of an equation behind its left side, as (positive, None, both sides)."""
        self.read_term(left)
        if self.text not in ("=", "!="):
            self.fail()
        if self.pending:
            raise self.pending
        self.count()
        if self.depth >= MOST_DEPTH:
            raise Refused(self.at, "too deep")
        positive = self.take() == "="
        right = self.side(1, MOST_DEPTH - 1)
        self.read_term(right)
        return positive, None, [left, right]

    def literal(self):
        """(positive, atom, None) of an atom, (positive, None, sides) of an equation."""
        self.depth = 0
        negative = self.text == "-"
        if negative:
            self.take()
        if self.text == "(":
            self.take()
            positive, _, sides = self.equation(self.side(1, MOST_DEPTH))
            self.expect(")")
            return positive != negative, None, sides
        left = self.side(1, MOST_DEPTH)
        if not negative and self.text in ("=", "!="):
            return self.equation(left)
        self.read_atom(left)
        return not negative, left, None

    def raw_clause(self):
        """The literals as read, without the full stop."""
        self.weight = 0
        if self.text == "$F":
            self.take()
            return []
        found = [self.literal()]
        while self.text == "|":
            self.take()
            found.append(self.literal())
        return found

    def read_term(self, side):
        """What stands in the place of a term was read: a subclass may set `pending`."""

    def read_atom(self, side):
        """The same of an atom."""

    def term(self, side):
        """The term of a side as read: a subclass says what variables and symbols are."""
        raise NotImplementedError

    def clause(self, raw):
        """The clause of literals as read."""
        return tuple([Literal(positive, "=" if atom is None else atom.name,
                              tuple([self.term(side) for side in (sides if atom is None else atom.arguments or ())]))
                      for positive, atom, sides in raw])


def begins_variable(name):
    return name[0] in "uvwxyz"


class ProblemReader(Reader):
    """Reads the commands and lists of a problem."""

    def __init__(self, data):
        super().__init__(data)
        self.problem = Problem()

    def items(self, *stops):
        """Items up to the end or to one of these words in the place of a command."""
        while self.kind != "end" and self.text not in stops:
            self.item()
        return self.problem

    def table_word(self, known, unsupported):
        if self.kind != "word":
            self.fail()
        if self.text not in known:
            raise Refused(self.at, "unsupported" if self.text in unsupported else "unknown name")
        return self.take()

    def item(self):
        command = self.table_word(COMMANDS, UNSUPPORTED_COMMANDS)
        self.expect("(")
        {"set": self.flag, "clear": self.flag, "assign": self.parameter, "list": self.input_list}[command](command)

    def flag(self, command):
        name = self.table_word(FLAGS.keys() | IDLE_FLAGS, UNSUPPORTED_FLAGS)
        self.expect(")")
        self.expect(".")
        if name in FLAGS:
            self.problem.flags[name] = command == "set"

    def parameter(self, _):
        name = self.table_word(PARAMETERS.keys() | IDLE_PARAMETERS.keys(), UNSUPPORTED_PARAMETERS)
        self.expect(",")
        at, negative = self.at, self.text == "-"
        if negative:
            self.take()
        value = -self.digits() if negative else self.digits()
        least, greatest = PARAMETERS.get(name, IDLE_PARAMETERS.get(name))[:2]
        if not least <= value <= greatest or len(self.text) > MOST_DIGITS:
            raise Refused(at, "out of range")
        self.take()
        self.expect(")")
        self.expect(".")
        if name in PARAMETERS:
            self.problem.parameters[name] = value

    def input_list(self, _):
        home = self.table_word(LISTS, UNSUPPORTED_LISTS)
        self.expect(")")
        self.expect(".")
        while self.text != "end_of_list":
            self.input_clause(home)
        self.take()
        self.expect(".")

    def input_clause(self, home):
        first = self.at
        if self.kind != "word" and self.text not in ("-", "("):
            self.fail()
        if len(self.problem.clauses) == MOST_CLAUSES:
            raise Refused(first, "too many")
        raw = self.raw_clause()
        if self.text != ".":
            self.fail()
        self.names = {}
        clause = self.clause_with_symbols(raw)
        if home == "demodulators" and not is_demodulator(clause):
            raise Refused(first, "bad demodulator")
        self.take()
        self.problem.clauses.append(clause)
        self.problem.homes.append(home)

    def clause_with_symbols(self, raw):
        """The clause, with its symbols numbered in the order of the text: an atom's before its arguments'."""
        found = []
        for literal in raw:
            if literal[1] is not None:
                self.number("predicate", literal[1])
            found.append(self.clause([literal])[0])
        return tuple(found)

    def number(self, role, side):
        symbols = self.problem.symbols
        symbol = Symbol(role, side.name, len(side.arguments or ()))
        if symbol not in symbols and len(symbols) == MOST_SYMBOLS:
            raise Refused(side.at, "too many")
        symbols.setdefault(symbol, len(symbols))

    def term(self, side):
        if side.arguments is None and begins_variable(side.name):
            return self.names.setdefault(side.name, len(self.names))
        self.number("function", side)
        return App(side.name, tuple([self.term(argument) for argument in side.arguments or ()]))


def is_demodulator(clause):
    """One positive equation whose left side is no variable and holds every variable of the right side."""
    if len(clause) != 1 or not clause[0].positive or clause[0].name != "=":
        return False
    left, right = [Literal(True, "=", (side,)) for side in clause[0].arguments]
    return not is_variable(left.arguments[0]) and set(variables((right,))) <= set(variables((left,)))


def read_problem(data):
    """The problem that a whole text is; else Refused."""
    return ProblemReader(data).items()
