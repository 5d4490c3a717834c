"""A layout of directed graphs in layers (after Sugiyama, Tagawa and Toda): layers, order, coordinates.

    placed = layered(sizes, edges)          sizes: node -> (width, height); edges: pairs (from, to) without a cycle
    placed.nodes[node]                      (x, y) of the node's middle
    placed.edges[(a, b)]                    the points of the edge's curve, from a's lower side to b's upper side

An edge over several layers passes through dummy nodes, which edges of one source share. The order in the layers is
the best of some sweeps by barycentres, each followed by exchanges of neighbours; `crossings` counts what is left.
"""
from bisect import bisect_right
from collections import namedtuple

# So many sweeps, but fewer over a graph so large that they would pass so many links.
SWEEPS, MOST_LINKS = 24, 400000
GAP, DUMMY_WIDTH = 26, 14
LAYER_GAP = 46
SPINE, PASSES = 50, 10
MOST_DUMMIES = 60000

Placed = namedtuple("Placed", "nodes edges width height crossings")


# -- layers ----------------------------------------------------------------------------------------------------------

def ranks(nodes, edges):
    """The layer of each node: the longest way from a source; then nodes go down to where they are first used.

    Only those go down whose uses are as many as what they use, so that links grow shorter in the sum.
    """
    before, behind = {node: [] for node in nodes}, {node: [] for node in nodes}
    for a, b in edges:
        before[b].append(a)
        behind[a].append(b)
    rank, waiting = {}, {node: len(before[node]) for node in nodes}
    ready = [node for node in nodes if not waiting[node]]
    for node in ready:
        rank[node] = max((rank[a] + 1 for a in before[node]), default=0)
        for b in behind[node]:
            waiting[b] -= 1
            if not waiting[b]:
                ready.append(b)
    for node in reversed(ready):
        if len(behind[node]) >= max(1, len(before[node])):
            rank[node] = min(rank[b] for b in behind[node]) - 1
    return rank


class Graph:
    """Nodes in layers, with links between neighbouring layers alone; dummies are tuples ("dummy", source, layer)."""

    def __init__(self, nodes, edges):
        self.rank = ranks(nodes, edges)
        self.layers = [[] for _ in range(max(self.rank.values(), default=-1) + 1)]
        for node in nodes:
            self.layers[self.rank[node]].append(node)
        reach = {}
        for a, b in edges:
            reach[a] = max(reach.get(a, 0), self.rank[b])
        # The links up and down from a node, as keys in the order in which they came.
        self.up, self.down = {node: {} for node in nodes}, {node: {} for node in nodes}
        self.straight = sum(top - self.rank[a] - 1 for a, top in reach.items()) > MOST_DUMMIES
        self.ways = {}
        for a, b in edges:
            self.way(a, b)

    def way(self, a, b):
        """Links an edge through its dummies."""
        points = [a]
        if not self.straight:
            points += [("dummy", a, layer) for layer in range(self.rank[a] + 1, self.rank[b])]
        points.append(b)
        self.ways[a, b] = points
        for one, other in zip(points, points[1:]):
            if other not in self.rank:
                self.rank[other] = other[2]
                self.layers[other[2]].append(other)
                self.up[other], self.down[other] = {}, {}
            self.down[one][other] = self.up[other][one] = True


# -- crossings -------------------------------------------------------------------------------------------------------

def crossings_between(upper, lower, down):
    """How many pairs of links between two ordered layers cross."""
    place = {node: i for i, node in enumerate(lower)}
    count, seen = 0, [0] * (len(lower) + 1)
    total = 0
    for node in upper:
        ends = sorted(place[other] for other in down[node] if other in place)
        for end in ends:
            count += total - prefix(seen, end + 1)
        for end in ends:
            add(seen, end + 1)
        total += len(ends)
    return count


def add(tree, at):
    while at < len(tree):
        tree[at] += 1
        at += at & -at


def prefix(tree, at):
    total = 0
    while at:
        total += tree[at]
        at -= at & -at
    return total


def crossings(layers, down):
    return sum(crossings_between(upper, lower, down) for upper, lower in zip(layers, layers[1:]))


# -- order -----------------------------------------------------------------------------------------------------------

def first_order(graph):
    """Layers in the order of a walk from the last node upwards: what a node uses stands together."""
    walked, order = set(), {}
    ends = [node for layer in reversed(graph.layers) for node in layer if not graph.down[node]]
    stack = ends[::-1]
    while stack:
        node = stack.pop()
        if node in walked:
            continue
        walked.add(node)
        order[node] = len(order)
        stack += [other for other in reversed(graph.up[node]) if other not in walked]
    return [sorted(layer, key=order.__getitem__) for layer in graph.layers]


def sweep(layers, links, downwards, turned):
    """Orders each layer by the middle of its links to the layer before it; equals turn round where it says so."""
    indices = range(1, len(layers)) if downwards else range(len(layers) - 2, -1, -1)
    for index in indices:
        beside = {node: i for i, node in enumerate(layers[index - 1 if downwards else index + 1])}
        middle = {}
        for i, node in enumerate(layers[index]):
            places = [beside[other] for other in links[node] if other in beside]
            middle[node] = sum(places) / len(places) if places else i
        if turned:
            layers[index].reverse()
        layers[index].sort(key=middle.__getitem__)


def pair_crossings(left, right, links, place):
    """Crossings of the links of two neighbours, left before right."""
    others = sorted(place[other] for other in links[right] if other in place)
    return sum(bisect_right(others, place[other] - 1) for other in links[left] if other in place)


def exchange(layers, graph, equals):
    """Exchanges neighbours where that leaves fewer crossings, or as many where it says so."""
    for index, layer in enumerate(layers):
        sides = []
        if index:
            sides.append((graph.up, {node: i for i, node in enumerate(layers[index - 1])}))
        if index + 1 < len(layers):
            sides.append((graph.down, {node: i for i, node in enumerate(layers[index + 1])}))
        for i in range(len(layer) - 1):
            a, b = layer[i], layer[i + 1]
            now = sum(pair_crossings(a, b, links, place) for links, place in sides)
            if now + equals > sum(pair_crossings(b, a, links, place) for links, place in sides):
                layer[i], layer[i + 1] = b, a


def ordered(graph):
    """The layers in the best order found, and its crossings."""
    layers = first_order(graph)
    best, least = [list(layer) for layer in layers], crossings(layers, graph.down)
    links = sum(map(len, graph.down.values())) + 1
    for turn in range(min(SWEEPS, max(2, MOST_LINKS // links))):
        if not least:
            break
        downwards = turn % 2 == 0
        sweep(layers, graph.up if downwards else graph.down, downwards, turn % 4 > 1)
        for equals in (turn % 3 == 2, False, False):
            exchange(layers, graph, equals)
        count = crossings(layers, graph.down)
        if count < least:
            best, least = [list(layer) for layer in layers], count
    return best, least


# -- coordinates -----------------------------------------------------------------------------------------------------

def joined(nodes, edges, rank):
    """The nodes that join two others, and what comes of those: the spine of a proof, beside sources and their instances."""
    before = {node: [] for node in nodes}
    for a, b in edges:
        before[b].append(a)
    found = set()
    for node in sorted(nodes, key=rank.__getitem__):
        if len(before[node]) > 1 or not found.isdisjoint(before[node]):
            found.add(node)
    return found


def spread(wanted, widths, weights):
    """Places as near to the wanted ones as the widths and the order allow (least squares, by pooled blocks)."""
    offset, shifted = 0, []
    for i, place in enumerate(wanted):
        offset += (widths[i - 1] + widths[i]) / 2 + GAP if i else 0
        shifted.append((place - offset, offset))
    blocks = []
    for (place, _), weight in zip(shifted, weights):
        blocks.append((place, weight, 1))
        while len(blocks) > 1 and blocks[-2][0] > blocks[-1][0]:
            (b, n, count), (a, m, more) = blocks.pop(), blocks.pop()
            blocks.append(((a * m + b * n) / (m + n), m + n, count + more))
    bases = [base for base, _, count in blocks for _ in range(count)]
    return [base + offset for base, (_, offset) in zip(bases, shifted)]


def columns(layers, graph, width, spine):
    """The x of each node: some passes in which each layer follows the middle of what it is linked to.

    The spine counts more than the rest, so that it stands upright with the rest beside it.
    """
    x = {}
    weights = [[SPINE if node in spine else 1 for node in layer] for layer in layers]
    widths = [[width(node) for node in layer] for layer in layers]
    for index, layer in enumerate(layers):
        x.update(zip(layer, spread([0] * len(layer), widths[index], weights[index])))
    for turn in range(PASSES):
        links = [graph.up, graph.down][turn % 2]
        order = range(len(layers)) if turn % 2 == 0 else range(len(layers) - 1, -1, -1)
        for index in order:
            wanted = [wanted_place(node, links[node], spine, x) for node in layers[index]]
            x.update(zip(layers[index], spread(wanted, widths[index], weights[index])))
    return x


def wanted_place(node, near, spine, x):
    """The middle of what the node is linked to; the spine's nodes count more."""
    if not near:
        return x[node]
    weights = [SPINE if other in spine else 1 for other in near]
    return sum(x[other] * weight for other, weight in zip(near, weights)) / sum(weights)


def layered(sizes, edges):
    """The layout of the nodes, which have these sizes."""
    graph = Graph(list(sizes), edges)
    layers, count = ordered(graph)

    def width(node):
        return sizes[node][0] if node in sizes else DUMMY_WIDTH

    x = columns(layers, graph, width, joined(list(sizes), edges, graph.rank))
    left = min((x[node] - width(node) / 2 for node in x), default=0)
    right = max((x[node] + width(node) / 2 for node in x), default=0)
    ends, top = {}, 0
    for layer in layers:
        height = max((sizes[node][1] for node in layer if node in sizes), default=0)
        for node in layer:
            half = (sizes[node][1] if node in sizes else height) / 2
            ends[node] = top + height / 2 - half, top + height / 2 + half
        top += height + LAYER_GAP
    x = {node: place - left for node, place in x.items()}
    nodes = {node: (x[node], sum(ends[node]) / 2) for node in sizes}
    lines = {edge: curve(way, x, ends) for edge, way in graph.ways.items()}
    return Placed(nodes, lines, right - left, max(top - LAYER_GAP, 0), count)


def curve(way, x, ends):
    """The points of a curve of Bézier pieces, three behind the first for each piece; it is upright at a dummy.

    ends: the upper and the lower end of each node; a dummy's are its layer's, so that a curve passes beside the boxes.
    """
    stops = [(x[way[0]], ends[way[0]][1])]
    for node in way[1:-1]:
        stops += [(x[node], ends[node][0]), (x[node], ends[node][1])]
    stops.append((x[way[-1]], ends[way[-1]][0]))
    points = [stops[0]]
    for (x0, y0), (x1, y1) in zip(stops, stops[1:]):
        middle = (y0 + y1) / 2
        points += [(x0, middle), (x1, middle), (x1, y1)]
    return points
