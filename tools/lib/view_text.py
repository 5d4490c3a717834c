"""A run in words and its proof as plain text, and the proof as a graph for Graphviz."""
from proof_layout import box

SHAPES = {"true": 'shape=box style="rounded"', "false": "shape=box", "wide": "shape=hexagon"}
GLYPHS = {"true": "●", "false": "▲", "wide": "◇"}
MARK_WORDS = {"true": "true", "false": "false", "wide": "too wide for a mark"}


def plural(count, word):
    return "%d %s%s" % (count, word, "" if count == 1 else "s")


def version_words(guide):
    return "version %d of finder %d" % (guide[1], guide[0]) if guide[0] else "the opening version"


def summary_text(facts):
    """The run in a few rows."""
    run = facts.run
    rows = ["%s. %s, %s kept, %s of %s." % (
        facts.ended(), plural(len(run.given), "turn"), plural(len(run.kept), "clause"),
        plural(len(run.versions()), "version"), plural(len(run.lists), "finder"))]
    rows += ["Finder %d ended: %s." % (number, end) for number, end in enumerate(run.ends, 1)]
    if run.given:
        rows += ["", "%-20s %6s %20s %14s" % ("given clauses", "", "false in the guide", "in the proof")]
        rows += ["%-20s %6d %20d %14d" % row for row in facts.steering() if row[1]]
    return "".join(row + "\n" for row in rows)


def proof_text(graph, folded):
    """Two rows a line: its number, clause and mark; its step in words."""
    shown = graph.shown(folded)
    places = len(str(shown[-1])) if shown else 1
    rows = []
    for number in shown:
        line = graph.line(number)
        rows.append("%*d  %s   %s %s" % (places, number, line.text, GLYPHS[line.mark.truth],
                                         MARK_WORDS[line.mark.truth]))
        rows.append("%s  %s" % (" " * places, graph.words(line, folded)))
    return "".join(row + "\n" for row in rows)


def proof_heading(graph, folded):
    """How many lines there are, how many are left out, and where the marks were taken."""
    count, shown = len(graph.lines), len(graph.shown(folded))
    words = "The proof has %s" % plural(count, "line")
    if shown < count:
        words += ", of which %s folded into the steps that use %s" % (
            "1 instance line is" if count - shown == 1 else "%d instance lines are" % (count - shown),
            "it" if count - shown == 1 else "them")
    guides = sorted({line.mark.guide for line in graph.lines})
    return words + ". Marks: in %s." % " and ".join(map(version_words, guides))


def run_in_words(facts, graph, folded):
    """All of it as plain text."""
    text = summary_text(facts)
    if graph.lines:
        text += "\n%s\n\n%s" % (proof_heading(graph, folded), proof_text(graph, folded))
    return text


# -- for Graphviz ----------------------------------------------------------------------------------------------------

def quoted(text):
    return '"%s"' % text.replace("\\", "\\\\").replace('"', '\\"')


def dot_label(graph, number, folded):
    """The box of a line as a label whose rows are set to the left."""
    line, shape = graph.line(number), box(graph, number, folded, None)
    rows = ["%s %d  %s" % (GLYPHS[line.mark.truth], number, line.short(folded))]
    rows += ["".join(piece for piece, _ in row) for row in shape.rows] + shape.notes
    return "".join(quoted(row)[1:-1] + "\\l" for row in rows)


def edge_label(use):
    parts = ["literal %d" % use.literal] if use.literal else []
    if use.path:
        parts.append("at (%s)" % ",".join(map(str, use.path)))
    return " ".join(parts)


def proof_dot(graph, folded):
    """The proof for `dot`: a node a line, an edge for each use."""
    rows = ["digraph proof {", '  node [fontname="monospace" fontsize=11];',
            '  edge [fontname="sans-serif" fontsize=9];']
    for number in graph.shown(folded):
        line = graph.line(number)
        strong = " penwidth=3" if line.text == "$F" else ""
        wrong = "" if line.follows else " color=red"
        rows.append('  %d [%s%s%s label="%s"];' % (number, SHAPES[line.mark.truth], strong, wrong,
                                                  dot_label(graph, number, folded)))
    for number in graph.shown(folded):
        for use in graph.line(number).sources(folded):
            rows.append("  %d -> %d [label=%s];" % (use.line, number, quoted(edge_label(use))))
    return "\n".join(rows + ["}\n"])
