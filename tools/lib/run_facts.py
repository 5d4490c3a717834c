"""What a run text tells beside its rows: weights and texts of input clauses, when versions were seen, what was used."""
from language import clause_text, is_variable
from proofs import Input
from runs import CAUSES, TRUTHS


def term_weight(term):
    return 1 if is_variable(term) else 1 + sum(map(term_weight, term.arguments))


def clause_weight(clause):
    """Occurrences of symbols and variables in the atoms."""
    return sum(1 + sum(map(term_weight, literal.arguments)) for literal in clause)


class Facts:
    """A run with what follows from its rows."""

    def __init__(self, run):
        self.run = run
        self.kept = {kept.number: kept for kept in run.kept}
        self.inputs = self.known_inputs()
        self.proved = self.lines_of_clauses()
        self.exact_support = False
        self.support_start = self.start_of_support()

    def known_inputs(self):
        """The input clauses whose text is known: of the problem, else those that the proof reads."""
        if self.run.problem:
            return dict(enumerate(self.run.problem.clauses, 1))
        return {line.step.clause: line.clause for line in self.run.proof if isinstance(line.step, Input)}

    def lines_of_clauses(self):
        """For each clause that stands in the proof its line: an input clause that is read, a kept one that is a line."""
        first, found = {}, {}
        for number, line in enumerate(self.run.proof, 1):
            first.setdefault(line.clause, number)
            if isinstance(line.step, Input):
                found.setdefault(line.step.clause, number)
        for kept in self.run.kept:
            if kept.clause in first:
                found[kept.number] = first[kept.clause]
        return found

    def start_of_support(self):
        """How many clauses the set of support had before turn 1, or at least had."""
        problem = self.run.problem
        if problem:
            self.exact_support = not (problem.flags["back_sub"] or problem.flags["back_demod"])
            return problem.homes.count("sos")
        return len({given.number for given in self.run.given} - self.kept.keys())

    def first_seen(self):
        """For each finder the first turn that saw each of its versions."""
        found = [{} for _ in self.run.lists]
        shown = [0] * len(found)
        for given in self.run.given:
            for index, length in enumerate(given.lengths[:len(found)]):
                length = min(length, len(self.run.lists[index]))
                for place in range(shown[index], length):
                    found[index][place] = given.turn
                shown[index] = max(shown[index], length)
        return found

    # -- what the choice won

    def count(self, test):
        """Of the given clauses that pass the test: how many, how many false in the guide, how many in the proof."""
        chosen = [given for given in self.run.given if test(given)]
        return (len(chosen), sum(given.truth == "false" for given in chosen),
                sum(given.number in self.proved for given in chosen))

    def steering(self):
        """Rows (words, given, false in the guide, in the proof) by cause, by mark, and of all."""
        rows = [("by cause %s" % cause, *self.count(lambda given: given.cause == cause)) for cause in CAUSES]
        marks = [("%s in the guide" % truth, *self.count(lambda given: given.truth == truth)) for truth in TRUTHS]
        rows += [row for row in marks if row[1]]
        return rows + [("all", *self.count(lambda given: True))]

    def unknown_versions(self):
        """Versions that given rows and marks name and the text doesn't tell, as (finder, place)."""
        known = {(version.finder, version.place) for version in self.run.versions()} | {(0, 0)}
        named = {row.guide for row in self.run.given} | {row.guide for row in self.run.marks}
        return sorted(named - known)

    # -- words

    def ended(self):
        run = self.run
        words = {"proof": "The run ended with a proof", "sos_empty": "The run ended: the set of support was empty",
                 "given_limit": "The run ended at its limit of given clauses, %s",
                 "kept_limit": "The run ended at its limit of kept clauses, with %s",
                 "work_limit": "The run ended at the limit on the work of a turn, in turn %s"}[run.outcome]
        return words % run.outcome_number if "%s" in words else words

    def input_rows(self):
        """(number, text, weight, list) of each input clause that is known."""
        homes = self.run.problem.homes if self.run.problem else None
        return [(number, clause_text(clause), clause_weight(clause), homes[number - 1] if homes else None)
                for number, clause in sorted(self.inputs.items())]
