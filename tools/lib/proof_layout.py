"""Where the lines of a proof stand in its picture: boxes with their text, laid out by Graphviz or by layers.py."""
import shutil
import subprocess
from collections import namedtuple

from layers import joined, layered
from proof_graph import terms_words

CHARACTERS, ROWS = 44, 8
CHARACTER, ROW, HEAD, PAD = 8, 18, 24, 10
MOST_DOT_NODES, DOT_SECONDS, SPINE_WEIGHT = 700, 10, 8

# A box: its line, and rows of pieces (text, literal number or 0) that are its clause; `notes` are terms put in.
Box = namedtuple("Box", "line rows notes left_out width height")
Picture = namedtuple("Picture", "boxes nodes edges width height by crossings")


def clause_rows(literals):
    """The literals in rows of a width; a longer literal is broken."""
    if not literals:
        return [[("$F", 0)]]
    rows, used = [[]], 0
    for number, literal in enumerate(literals, 1):
        text = literal + (" | " if number < len(literals) else "")
        if used and used + len(text.rstrip(" |")) > CHARACTERS:
            rows.append([])
            used = 0
        while len(text.rstrip(" |")) > CHARACTERS:
            cut = max(text.rfind(",", 0, CHARACTERS) + 1, text.rfind("=", 0, CHARACTERS) + 1) or CHARACTERS
            rows[-1].append((text[:cut], number))
            text = text[cut:]
            rows.append([])
        rows[-1].append((text, number))
        used = sum(len(piece) for piece, _ in rows[-1])
    return rows


def box(graph, number, folded, most_rows=ROWS):
    """The box of a line; its clause has at most so many rows, or all of them."""
    line = graph.line(number)
    rows, left_out = clause_rows(line.literals), 0
    if most_rows is not None and len(rows) > most_rows:
        left_out = sum(len(text) for row in rows[most_rows:] for text, _ in row)
        rows = rows[:most_rows]
    notes = ["%s: %s" % (use.line, terms_words(use.terms)) for use in line.sources(folded) if use.terms]
    if most_rows is not None:
        notes = [note if len(note) <= CHARACTERS + 4 else note[:CHARACTERS] + " …" for note in notes]
    texts = ["".join(text for text, _ in row) for row in rows] + notes
    head = "M 000 " + str(number) + line.short(folded)
    wide = max([len(text) for text in texts] + [len(head)])
    count = len(rows) + len(notes) + (1 if left_out else 0)
    return Box(number, rows, notes, left_out, wide * CHARACTER + 2 * PAD, HEAD + count * ROW + PAD)


def picture(graph, folded, graphviz=True):
    """The boxes of a proof with their places and the curves between them."""
    boxes = [box(graph, number, folded) for number in graph.shown(folded)]
    sizes = {b.line: (b.width, b.height) for b in boxes}
    edges = sorted({(use.line, b.line) for b in boxes for use in graph.line(b.line).sources(folded)})
    placed = dot_layout(sizes, edges) if graphviz else None
    if placed:
        return Picture(boxes, placed[0], placed[1], placed[2], placed[3], "Graphviz", None)
    own = layered(sizes, edges)
    return Picture(boxes, own.nodes, own.edges, own.width, own.height, "layers", own.crossings)


# -- Graphviz --------------------------------------------------------------------------------------------------------

def dot_layout(sizes, edges):
    """(nodes, edges, width, height) by `dot`; None where it isn't there, takes too long or the proof is large."""
    program = shutil.which("dot")
    if not program or len(sizes) > MOST_DOT_NODES:
        return None
    rows = ["digraph {", "graph [ranksep=0.55 nodesep=0.3]; node [shape=box fixedsize=true];"]
    rows += ["%d [width=%.4f height=%.4f];" % (n, w / 72, h / 72) for n, (w, h) in sizes.items()]
    spine = joined(list(sizes), edges, {number: number for number in sizes})
    rows += ["%d -> %d [weight=%d];" % (a, b, SPINE_WEIGHT if a in spine else 1) for a, b in edges] + ["}"]
    try:
        done = subprocess.run([program, "-Tplain"], input="\n".join(rows), capture_output=True, text=True,
                              timeout=DOT_SECONDS)
    except (OSError, subprocess.TimeoutExpired):
        return None
    return read_plain(done.stdout) if done.returncode == 0 else None


def read_plain(text):
    """What `dot -Tplain` says, in points with y downwards."""
    nodes, curves, width, height = {}, {}, 0, 0
    for row in text.splitlines():
        part = row.split()
        if part[0] == "graph":
            width, height = float(part[2]) * 72, float(part[3]) * 72
        elif part[0] == "node":
            nodes[int(part[1])] = float(part[2]) * 72, height - float(part[3]) * 72
        elif part[0] == "edge":
            numbers = [float(value) * 72 for value in part[4:4 + 2 * int(part[3])]]
            curves[int(part[1]), int(part[2])] = [(x, height - y) for x, y in zip(numbers[::2], numbers[1::2])]
    return nodes, curves, width, height
