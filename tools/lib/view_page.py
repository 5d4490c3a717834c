"""A run as one page of HTML that needs nothing else: tools/lib/view/* and the run's data put together."""
import html
import json
import os

from language import EQUALITY, clause_text
from proof_graph import span, terms_words
from proof_layout import picture
from proofs import Input
from runs import CAUSES, TRUTHS
from view_text import plural, proof_heading, proof_text, summary_text

FOLDER = os.path.join(os.path.dirname(os.path.abspath(__file__)), "view")
SCRIPTS = ("base.js", "proof.js", "time.js", "versions.js", "rows.js", "main.js")


def part(name):
    with open(os.path.join(FOLDER, name), encoding="utf-8") as file:
        return file.read()


# -- data ------------------------------------------------------------------------------------------------------------

class Numbering:
    """Values numbered as they come, so that a table names each once."""

    def __init__(self):
        self.numbers, self.values = {}, []

    def number(self, value):
        if value not in self.numbers:
            self.numbers[value] = len(self.values)
            self.values.append(value)
        return self.numbers[value]


def given_data(run, guides, lengths):
    rows = run.given
    return {"number": [row.number for row in rows], "cause": [CAUSES.index(row.cause) for row in rows],
            "guide": [guides.number(row.guide) for row in rows],
            "truth": [TRUTHS.index(row.truth) for row in rows],
            "seen": [lengths.number(tuple(row.lengths)) for row in rows]}


def kept_data(run):
    return {"number": [row.number for row in run.kept], "turn": [row.turn for row in run.kept],
            "weight": [row.weight for row in run.kept], "clause": [clause_text(row.clause) for row in run.kept]}


def version_data(facts):
    first = facts.first_seen()
    return [[{"size": version.size, "entries": version.entries, "claims": version.claims,
              "seen": first[version.finder - 1].get(version.place, 0)} for version in versions]
            for versions in facts.run.lists]


def use_data(graph, use):
    """A use: the span is that of the term at the path in the literal's text, where no instance stands between."""
    found = {"line": use.line}
    if use.literal:
        found["literal"] = use.literal
    clause = graph.line(use.line).clause
    if use.path and 1 <= use.literal <= len(clause) and not use.terms:
        found["span"] = span(clause[use.literal - 1], use.path)
    if use.terms:
        found["terms"] = terms_words(use.terms)
    return found


def line_data(graph, line):
    return {"number": line.number, "text": line.text, "literals": line.literals,
            "input": line.step.clause if isinstance(line.step, Input) else 0,
            "follows": line.follows, "folds": line.folds, "mark": [*line.mark.guide, line.mark.truth],
            "short": [line.short(folded) for folded in (False, True)],
            "words": [graph.words(line, folded) for folded in (False, True)],
            "uses": [[use_data(graph, use) for use in line.sources(folded)] for folded in (False, True)]}


def path_text(points):
    def pair(point):
        return "%.1f %.1f" % point

    return "M%sC%s" % (pair(points[0]), " ".join(map(pair, points[1:])))


def picture_data(drawn):
    boxes = []
    for box in drawn.boxes:
        x, y = drawn.nodes[box.line]
        boxes.append({"line": box.line, "x": round(x - box.width / 2, 1), "y": round(y - box.height / 2, 1),
                      "width": box.width, "height": box.height, "rows": box.rows, "notes": box.notes,
                      "left_out": box.left_out})
    edges = [[a, b, path_text(points)] for (a, b), points in drawn.edges.items()]
    return {"boxes": boxes, "edges": edges, "width": round(drawn.width), "height": round(drawn.height),
            "by": drawn.by}


def page_data(facts, graph, pictures):
    run, guides, lengths = facts.run, Numbering(), Numbering()
    symbols = [symbol for symbol in run.symbols or () if symbol != EQUALITY]
    data = {"given": given_data(run, guides, lengths), "kept": kept_data(run), "inputs": facts.input_rows(),
            "symbols": symbols, "versions": version_data(facts), "ends": run.ends,
            "support": {"start": facts.support_start}, "proved": sorted(facts.proved.items()),
            "proof": [line_data(graph, line) for line in graph.lines],
            "pictures": [picture_data(drawn) for drawn in pictures]}
    data.update(guides=guides.values, lengths=lengths.values)
    return json.dumps(data, separators=(",", ":"), ensure_ascii=False).replace("<", "\\u003c")


# -- what stands in the page without scripts -------------------------------------------------------------------------

def tile(name, value, small=""):
    return "<div><dt>%s</dt><dd>%s%s</dd></div>" % (name, value, " <small>%s</small>" % small if small else "")


def share(part_of, whole):
    return "%d%%" % round(100 * part_of / whole) if whole else "–"


def tiles(facts):
    run = facts.run
    count, false, proved = facts.count(lambda given: True)
    found = [tile("turns", "{:,}".format(count)), tile("clauses kept", "{:,}".format(len(run.kept))),
             tile("given clauses false in the guide", share(false, count), "%d of %d" % (false, count))]
    if run.proof:
        found.append(tile("lines of the proof", "{:,}".format(len(run.proof))))
        found.append(tile("given clauses in the proof", share(proved, count), "%d of %d" % (proved, count)))
    found.append(tile("versions", "{:,}".format(len(run.versions())), "of %s" % plural(len(run.lists), "finder")))
    found.append(tile("the oldest is given", "every turn" if run.ratio == 1 else "every %s turn" % ordinal(run.ratio)))
    return "".join(found)


def ordinal(number):
    ending = "th" if 10 <= number % 100 <= 20 else {1: "st", 2: "nd", 3: "rd"}.get(number % 10, "th")
    return "%d%s" % (number, ending)


def steering_table(facts):
    """What the choice of clauses won: of those given by each cause, how many the proof has."""
    if not facts.run.given:
        return ""
    has_proof = bool(facts.run.proof)
    head = ["given clauses", "", "false in the guide"] + (["in the proof", "share of them in the proof"] if has_proof else [])
    rows = []
    for words, count, false, proved in facts.steering():
        cells = [str(count), str(false)]
        if has_proof:
            width = round(100 * proved / count) if count else 0
            cells += [str(proved), '<span class="meter"><i style="width:%d%%"></i></span> %s' % (width, share(proved, count))]
        rows.append("<tr><th scope=\"row\">%s</th>%s</tr>" % (words, "".join("<td>%s</td>" % cell for cell in cells)))
    return "<table class=\"steering\"><thead><tr>%s</tr></thead><tbody>%s</tbody></table>" % (
        "".join("<th scope=\"col\">%s</th>" % name for name in head), "".join(rows))


def notices(facts, graph):
    """What a reader must not overlook."""
    found = []
    unsound = graph.unsound()
    if unsound:
        found.append("This is no proof: %s %s the step that %s. <code>scott check</code> decides on proofs." % (
            "line " + str(unsound[0]) if len(unsound) == 1 else "lines " + ", ".join(map(str, unsound[:20])) + (
                " and %d more" % (len(unsound) - 20) if len(unsound) > 20 else ""),
            "isn't" if len(unsound) == 1 else "aren't", "it names" if len(unsound) == 1 else "they name"))
    elif graph.lines and graph.lines[-1].text != "$F":
        found.append("This is no proof: its last line isn't <code>$F</code>.")
    unknown = facts.unknown_versions()
    if unknown:
        found.append("Rows name versions that the text doesn't have: %s." % ", ".join("%d.%d" % pair for pair in unknown[:20]))
    return "".join("<p class=\"notice\" role=\"alert\">%s</p>" % text for text in found)


def support_note(facts):
    if not facts.run.given:
        return ""
    start = plural(facts.support_start, "clause")
    if facts.exact_support:
        return "Set of support: it began with %s." % start
    begins = "It began with %s." % start if facts.run.problem else (
        "It began with at least %s, the input clauses that were given; the run text doesn't tell how many more." % start)
    return ("Set of support: the clauses of the start and those kept, less those given. %s Clauses that were deleted "
            "since a later one subsumes or rewrites them aren't told in a run text, so the true number may be less." % begins)


def version_note(run):
    return "" if run.versions() else "No finder published a version: the opening version, size 2 with all entries 0, stood in all rows."


def proof_note(run, drawn):
    return "" if run.proof else "The run has no proof: %s." % run.outcome.replace("_", " ")


def page(facts, graph, title, graphviz=True):
    """The whole page."""
    run = facts.run
    pictures = [picture(graph, folded, graphviz) for folded in (False, True)] if graph.lines else []
    text = "%s\n\n%s" % (proof_heading(graph, True), proof_text(graph, True)) if graph.lines else summary_text(facts)
    fields = {"title": html.escape(title), "style": part("page.css"), "ended": html.escape(facts.ended() + "."),
              "notices": notices(facts, graph), "tiles": tiles(facts), "steering": steering_table(facts),
              "proof_note": proof_note(run, pictures), "text": html.escape(text),
              "text_hidden": "" if graph.lines else " hidden", "support_note": support_note(facts),
              "version_note": version_note(run), "data": page_data(facts, graph, pictures),
              "script": "\n".join(map(part, SCRIPTS))}
    pieces = part("page.html").split("{{")
    return pieces[0] + "".join(fields[name] + rest for name, rest in (piece.split("}}", 1) for piece in pieces[1:]))
