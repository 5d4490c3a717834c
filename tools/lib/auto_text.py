"""What tools/auto prints: an answer as a text that the program can read again, a refusal, a line of progress."""
import shutil
import time

from settings import text_of
from sources import place_of, shown


def refusal_text(path, data, fault):
    """The program's message with line and column, and the line with a mark."""
    return "input refused at byte %d: %s\n%s: line %d, column %d\n%s\n" % (
        fault.place, fault.kind, path, *place_of(data, fault.place), shown(data, fault.place))


def proof_text(found):
    words = " ".join(found.made.words)
    lines = found.text.count("\n") - 2
    return ("%% proof found by %s in %.1f s and checked: %d lines\n"
            "%% this whole text is what `scott check` takes; the problem up to `proof.` what `scott %s` takes\n"
            "%s%s" % (found.made.name, found.seconds, lines, words, text_of(found.made), found.text))


def model_text(found):
    return "%% model of size %d found in %.1f s: all clauses are true in it\n%s" % (found.made, found.seconds, found.text)


def row_text(tag, row):
    kind, thing = tag
    return "  %-18s %6.1f s  %s" % (thing if kind == "prove" else "model %d" % thing, row[1], row[0])


def advice(found, form):
    """What to try next, by how the settings ended."""
    proofs = [row[0] for tag, row in found.rows.items() if tag[0] == "prove"]
    models = [row[0] for tag, row in found.rows.items() if tag[0] == "model"]
    if any(row == "out of time" for row in proofs + models):
        yield "more time: --seconds %d" % max(100, 5 * round(found.seconds))
    if not form.known:
        yield "tell the goal: put the negated conjecture into list(sos) and the other clauses into list(usable)"
    if any("kept limit" in row or "given limit" in row or "work limit" in row for row in proofs):
        yield "a setting ran into its limits: write one of your own with a lower max_weight (docs/CHOOSING_FLAGS.md)"
    if proofs and all(row.startswith("sos empty") for row in proofs):
        yield "every search ended with an empty set of support: a model of more than 8 elements, or an infinite one, is likely"
    if any(row.startswith("too wide") for row in models):
        yield "some sizes are too wide for the model finder: leave clauses out and ask `scott model` for the rest"
    if form.clauses > 30:
        yield "leave out axioms that the goal doesn't need"


def neither_text(found, words, form, seconds):
    rows = sorted(found.rows.items(), key=lambda it: (it[0][0] == "model", str(it[0][1])))
    lines = ["no proof and no model within %g s" % seconds, words]
    lines += [row_text(tag, row) for tag, row in rows]
    lines += ["try: " + it for it in advice(found, form)]
    return "\n".join(lines) + "\n"


def answer_text(found, words, form, seconds):
    if found.kind == "proof":
        return proof_text(found)
    return model_text(found) if found.kind == "model" else neither_text(found, words, form, seconds)


def progress_line(under_way):
    """One line, no wider than the terminal."""
    seconds = time.monotonic() - under_way.began
    text = "%.0f s of %.0f: %s; %d ended" % (seconds, under_way.until - under_way.began, under_way.words(), len(under_way.rows))
    return text[:shutil.get_terminal_size().columns - 1]
