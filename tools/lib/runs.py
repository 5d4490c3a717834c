"""Run texts as docs/RUNS.md has them: reading, printing, and a place and a reason where a text is refused.

    run = read_run(data)                    a run text, or a problem and a run text behind it
    run = read_run(data, problem)           a run text whose names have to be the problem's
    run_text(run)                           the text that the program prints of it

A run text names its symbols in the tables of its versions. Without versions and without the problem, any name in any
role is taken. Clauses and proof sections are read by language.py and proofs.py.
"""
import re
from collections import namedtuple

from language import (EQUALITY, MOST_ARGUMENTS, MOST_DIGITS, MOST_SYMBOLS, ProblemReader, Refused, Symbol, clause_text)
from proofs import MOST_NUMBER, SectionReader, section_text

MOST_LISTS = 8
MOST_RATIO = 1001
MOST_SIZE = 8
MOST_ENTRIES = 1048576

CAUSES = ("age", "false", "weight")
TRUTHS = ("true", "false", "wide")
ENDS = ("done", "stopped", "wide", "memory")
# Whether the outcome has a number behind it.
OUTCOMES = {"proof": False, "sos_empty": False, "given_limit": True, "kept_limit": True, "work_limit": True}
ROLES = ("function", "predicate")

# entries: for each symbol but "=", in order, the row of its entries as a text of digits.
Version = namedtuple("Version", "finder place size entries claims")
Given = namedtuple("Given", "turn number cause guide truth lengths")
Kept = namedtuple("Kept", "number turn weight clause")
Mark = namedtuple("Mark", "line guide truth")


class RunRefused(Exception):
    """The first fault of a text: its byte, its line, its kind in the program's words, and the reason."""

    def __init__(self, byte, line, kind, reason):
        super().__init__("run refused at line %d (byte %d): %s: %s" % (line, byte, kind, reason))
        self.byte, self.line, self.kind, self.reason = byte, line, kind, reason


class Run:
    """What a run text says. symbols is None where the text has no version and no problem was named."""

    def __init__(self):
        self.problem, self.symbols = None, None
        self.lists, self.ratio = [], 0
        self.given, self.kept, self.ends = [], [], []
        self.outcome, self.outcome_number = "", None
        self.proof, self.marks = [], []

    def versions(self):
        return [version for versions in self.lists for version in versions]


# -- reading ---------------------------------------------------------------------------------------------------------

PLAIN_ENTRIES = re.compile(rb"(?:[ \t\n\r\f]+[0-7])*[ \t\n\r\f]*\.")
REASONS = {"not text": "the byte is no text of ASCII",
           "unsupported": "no token of a run text begins so",
           "too heavy": "the clause or term weighs more than 10,000",
           "too deep": "the clause or term is deeper than 256",
           "too many": "a symbol has more than eight arguments"}


class RunReader(SectionReader):
    """Reads the rows of a run text. `fail` takes what may stand at the present token, in words."""

    def __init__(self, data, problem=None):
        # The program may print more than it reads: a run text has no limit on its length.
        self.data, self.behind, self.pending = data, 0, None
        self.problem = problem
        self.symbols = None if problem is None else problem.symbols
        self.wanted = None
        self.run = Run()

    def fail(self, *wanted):
        self.wanted = " or ".join(wanted) or None
        super().fail()

    def expect(self, *texts):
        if self.text not in texts or self.kind == "end":
            self.fail(*["`%s`" % text for text in texts])
        return self.take()

    def known(self, role, side):
        if self.symbols is not None and Symbol(role, side.name, len(side.arguments or ())) not in self.symbols:
            self.pending = Refused(side.at, "unknown name")

    def this_number(self, right, wanted):
        """A number of a row, which `right` says whether it may be."""
        if self.kind != "word" or not self.text.isdigit() or not right(self.digits()):
            self.fail(wanted)
        return self.number()

    def numbers(self):
        """Numbers up to the full stop, which is taken."""
        found = []
        while self.text != ".":
            if self.kind != "word" or not self.text.isdigit():
                self.fail("a number", "`.`")
            found.append(self.number())
        self.take()
        return found

    def counted_row(self, word, greatest):
        self.expect(word)
        found = self.number(1, greatest)
        self.expect(".")
        return found

    def read(self):
        """From the word `run` to the end of the text."""
        run = self.run
        self.expect("run")
        self.expect(".")
        count = self.counted_row("lists", MOST_LISTS)
        run.ratio = self.counted_row("ratio", MOST_RATIO)
        run.lists = [[] for _ in range(count)]
        self.versions()
        while self.text == "given":
            self.given_row()
        while self.text == "kept":
            self.kept_row()
        for finder in range(1, count + 1):
            self.finder_row(finder)
        self.end_row()
        if run.outcome == "proof":
            self.marked_proof()
        self.expect("end_of_run")
        self.expect(".")
        if self.kind != "end":
            self.fail("the end of the text")
        run.problem, run.symbols = self.problem, self.symbols
        return run

    # -- versions

    def versions(self):
        lists, finder = self.run.lists, 1
        while self.text == "version":
            self.take()
            finder = self.this_number(lambda n, least=finder: least <= n <= len(lists),
                                      "a finder from %d to %d" % (finder, len(lists)))
            place = len(lists[finder - 1])
            self.this_number(lambda n: n == place, "the place %d" % place)
            lists[finder - 1].append(self.version(finder, place))

    def version(self, finder, place):
        at = self.at
        size = self.number(1, MOST_SIZE)
        if self.symbols is not None:
            self.limit_entries(at, size, self.symbols)
        self.expect(".")
        if self.symbols is None:
            entries = self.first_tables(at, size)
        else:
            entries = [self.table(size, symbol) for symbol in list(self.symbols)[1:]]
        self.expect("claims")
        return Version(finder, place, size, entries, self.numbers())

    def limit_entries(self, at, size, symbols):
        if sum(size ** symbol.arity for symbol in symbols if symbol != EQUALITY) > MOST_ENTRIES:
            self.wanted = "tables of at most 1,048,576 entries"
            raise Refused(at, "too many")

    def first_tables(self, at, size):
        """The tables of the first version of a text without a problem: they say which symbols there are."""
        symbols, entries = {EQUALITY: 0}, []
        while self.text in ROLES:
            start = self.at
            symbol = self.symbol()
            if symbol in symbols:
                self.wanted = "a symbol that no table before it has"
                raise Refused(start, "unexpected")
            if len(symbols) == MOST_SYMBOLS:
                self.wanted = "at most 4,096 symbols"
                raise Refused(start, "too many")
            symbols[symbol] = len(symbols)
            self.limit_entries(at, size, symbols)
            entries.append(self.entries(size, symbol))
        self.symbols = symbols
        return entries

    def symbol(self):
        role = self.take()
        if self.kind != "word":
            self.fail("a name")
        name = self.take()
        arity = self.this_number(lambda n: n <= MOST_ARGUMENTS, "at most 8 arguments")
        return Symbol(role, name, arity)

    def table(self, size, symbol):
        """The row of this symbol, the next one."""
        row = "the row `%s %s %d`" % symbol
        for part in symbol[:2]:
            if self.text != part or self.kind != "word":
                self.fail(row)
            self.take()
        self.this_number(lambda n: n == symbol.arity, row)
        return self.entries(size, symbol)

    def entries(self, size, symbol):
        """The entries behind the colon, as a text of digits."""
        if self.text != ":":
            self.fail("`:`")
        count, most = size ** symbol.arity, size - 1 if symbol.role == "function" else 1
        plain = PLAIN_ENTRIES.match(self.data, self.behind)
        digits = b"".join(plain.group()[:-1].split()).decode() if plain else ""
        if len(digits) == count and int(max(digits)) <= most:
            self.behind = plain.end()
            self.advance()
            return digits
        self.take()
        found = [self.entry(number, count, most) for number in range(1, count + 1)]
        if self.text != ".":
            self.fail("`.` behind %d entries" % count)
        self.take()
        return "".join(map(str, found))

    def entry(self, number, count, most):
        if self.kind != "word" or not self.text.isdigit():
            self.fail("entry %d of %d" % (number, count))
        return self.number(0, most)

    # -- turns

    def given_row(self):
        self.take()
        turn = len(self.run.given) + 1
        self.this_number(lambda n: n == turn, "turn %d" % turn)
        number = self.number()
        cause = self.expect(*CAUSES)
        guide = self.number(), self.number()
        truth = self.expect(*TRUTHS)
        self.run.given.append(Given(turn, number, cause, guide, truth, self.numbers()))

    def kept_row(self):
        self.take()
        kept = self.run.kept
        least = kept[-1].number + 1 if kept else 0
        number = self.this_number(lambda n: n >= least, "a number from %d" % least)
        turn, weight = self.number(), self.number()
        self.expect(":")
        kept.append(Kept(number, turn, weight, self.full_clause()))

    def finder_row(self, finder):
        self.expect("finder")
        self.this_number(lambda n: n == finder, "finder %d" % finder)
        self.run.ends.append(self.expect(*ENDS))
        self.expect(".")

    def end_row(self):
        self.expect("end")
        run = self.run
        run.outcome = self.expect(*OUTCOMES)
        if OUTCOMES[run.outcome]:
            run.outcome_number = self.number()
        self.expect(".")

    def marked_proof(self):
        run = self.run
        run.proof = self.lines()
        for line in range(1, len(run.proof) + 1):
            self.expect("mark")
            self.this_number(lambda n: n == line, "line %d" % line)
            guide = self.number(), self.number()
            run.marks.append(Mark(line, guide, self.expect(*TRUTHS)))
            self.expect(".")


def refusal(data, fault, wanted, names):
    """The fault with its line and with a reason in words; `names` says what a name that isn't known isn't."""
    line = data.count(b"\n", 0, fault.place) + 1
    there = re.compile(rb"[A-Za-z0-9_$]+|[!-~]|").match(data, fault.place).group().decode()
    there = "`%s`" % (there[:40] + "…" if len(there) > 40 else there)
    if fault.kind == "truncated":
        reason = "the text ends where %s has to stand" % (wanted or "more")
    elif fault.kind == "unexpected":
        reason = "%s stands where %s has to stand" % (there, wanted or "another token")
    elif fault.kind == "unknown name":
        reason = "%s is %s" % (there, names)
    elif fault.kind == "out of range":
        reason = "%s is outside its range" % there
    else:
        reason = wanted or REASONS[fault.kind]
    return RunRefused(fault.place, line, fault.kind, reason)


SYMBOLS = "no symbol with as many arguments, and no variable x0, x1, .."
NAMES = "no name that a problem or a run text has in this place"


def read_run(data, problem=None):
    """The run of a text, which may have its problem before it where no other is named; else RunRefused."""
    reader, names = RunReader(data, problem), SYMBOLS
    try:
        reader.advance()
        if problem is None and reader.text != "run":
            reader.wanted, names = "a part of a problem or `run.`", NAMES
            first = ProblemReader(data)
            reader = RunReader(data, first.items("run", "proof")).go_on(first)
            names = SYMBOLS
        return reader.read()
    except Refused as fault:
        raise refusal(data, fault, reader.wanted, names) from None


# -- printing --------------------------------------------------------------------------------------------------------

def row(*parts):
    return " ".join(map(str, parts)) + ".\n"


def version_text(version, symbols):
    rows = [row("version", version.finder, version.place, version.size)]
    for symbol, entries in zip(list(symbols)[1:], version.entries):
        rows.append(row(*symbol, ":", *entries))
    return "".join(rows) + row("claims", *version.claims)


def run_text(run):
    """The text of a run, as the program prints it."""
    rows = [row("run"), row("lists", len(run.lists)), row("ratio", run.ratio)]
    rows += [version_text(version, run.symbols) for version in run.versions()]
    rows += [row("given", g.turn, g.number, g.cause, *g.guide, g.truth, *g.lengths) for g in run.given]
    rows += [row("kept", k.number, k.turn, k.weight, ":", clause_text(k.clause)) for k in run.kept]
    rows += [row("finder", number, end) for number, end in enumerate(run.ends, 1)]
    rows.append(row("end", run.outcome, *([] if run.outcome_number is None else [run.outcome_number])))
    if run.outcome == "proof":
        rows.append(section_text(run.proof))
        rows += [row("mark", m.line, *m.guide, m.truth) for m in run.marks]
    return "".join(rows) + row("end_of_run")
