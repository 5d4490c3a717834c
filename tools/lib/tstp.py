"""A proof as a TSTP derivation, the form in which provers of the TPTP world hand proofs on.

    derivation(lines, source)           a cnf item for each line, named line_1, line_2, ..
    szs_output(name, text)              the same between the SZS lines that a prover prints around it

source(k) tells where input clause k comes from, as (role, source), both in TPTP's syntax: from_file(name) does so for a
problem of scott's own language. The lines have to be a proof: `status(thm)` says that a line follows from its parents.
"""
import re

from language import is_variable
from proofs import Input, WORDS, named_lines

LOWER_WORD = re.compile(r"[a-z][A-Za-z0-9_]*")


def atomic_word(name):
    """A name as TPTP writes it: in quotes where it doesn't begin with a lower case letter."""
    if LOWER_WORD.fullmatch(name):
        return name
    return "'%s'" % name.replace("\\", "\\\\").replace("'", "\\'")


def applied(name, arguments):
    return atomic_word(name) + ("(%s)" % ",".join(map(term_text, arguments)) if arguments else "")


def term_text(term):
    return "X%d" % term if is_variable(term) else applied(term.name, term.arguments)


def literal_text(literal):
    if literal.name == "=":
        return (" = " if literal.positive else " != ").join(map(term_text, literal.arguments))
    return ("" if literal.positive else "~ ") + applied(literal.name, literal.arguments)


def formula(clause):
    text = " | ".join(map(literal_text, clause)) or "$false"
    return "( %s )" % text if len(clause) > 1 else text


def from_file(name):
    return lambda clause: ("axiom", "file(%s, clause_%d)" % (quoted(name), clause))


def quoted(text):
    """Any text in quotes; a byte that TPTP has no printed form for is a question mark."""
    plain = "".join(letter if " " <= letter <= "~" else "?" for letter in text)
    return "'%s'" % plain.replace("\\", "\\\\").replace("'", "\\'")


def item(number, line, source):
    if isinstance(line.step, Input):
        role, origin = source(line.step.clause)
    else:
        parents = ", ".join("line_%d" % parent for parent in named_lines(line.step))
        role, origin = "plain", "inference(%s, [status(thm)], [%s])" % (WORDS[type(line.step)], parents)
    return "cnf(line_%d, %s, %s, %s).\n" % (number, role, formula(line.clause), origin)


def derivation(lines, source):
    return "".join(item(number, line, source) for number, line in enumerate(lines, 1))


def szs_output(name, text):
    return "%% SZS output start CNFRefutation for %s\n%s%% SZS output end CNFRefutation for %s\n" % (name, text, name)
