"""Draws the graph of crates as an SVG: those that more stands on are lower, and an edge goes up to what stands on its lower end.

Edges that follow from others are left out. A crate stands as high as its longest chain of crates below, and one that stands on
none just below the first that uses it.
"""

from xml.sax.saxutils import escape

from crate_list import crates, height, nearest, used_by

BOX, TALL, LAYER, EDGE = 112, 30, 84, 20  # a box, from one layer to the next, and around all
BESIDE, PAST = 14, 7  # between two boxes, and on each side of an edge that passes a layer
SWEEPS = 40
# Of each group the ground of its boxes, and the edges up to these.
COLOURS = [("#dbe9f6", "#3b76b0"), ("#e3f1dc", "#4b8b3b"), ("#fdebd0", "#c27b12"), ("#f6dde0", "#b8434f"), ("#e6e0f3", "#7257b3"),
           ("#fff6c9", "#94820d"), ("#d9f0ee", "#22857c"), ("#ececec", "#6b6b6b"), ("#f9e0f2", "#b0459a")]


def layer_of(name):
    """Returns the layer of a crate, counted from below."""
    return min(height(user) for user in used_by(name)) - 1 if not crates()[name].uses and used_by(name) else height(name)


class Graph:
    """The layers, each a list of crates and of the places where edges pass it, which are pairs of the edge and the layer."""

    def __init__(self):
        self.edges = {(low, name): [] for name in crates() for low in nearest(name)}
        self.layers = [[] for _ in range(1 + max(map(layer_of, crates())))]
        for name in crates():
            self.layers[layer_of(name)].append(name)
        for (low, high), points in self.edges.items():
            points.append(low)
            for layer in range(layer_of(low) + 1, layer_of(high)):
                points.append(((low, high), layer))
                self.layers[layer].append(points[-1])
            points.append(high)
        self.above, self.below = {}, {}
        for points in self.edges.values():
            for low, high in zip(points, points[1:]):
                self.above.setdefault(low, []).append(high)
                self.below.setdefault(high, []).append(low)

    def crossings(self):
        """Returns how often two edges cross."""
        count = 0
        for low, high in zip(self.layers, self.layers[1:]):
            place = {node: number for number, node in enumerate(high)}
            ends = [sorted(place[other] for other in self.above.get(node, ())) for node in low]
            seen = []
            for numbers in ends:
                count += sum(1 for number in numbers for before in seen if before > number)
                seen += numbers
        return count

    def sort(self):
        """Orders each layer so that few edges cross, by the middle of each node's neighbours, now below, now above."""
        best, order = self.crossings(), [list(layer) for layer in self.layers]
        for sweep in range(SWEEPS):
            upward = sweep % 2 == 0
            numbers = range(1, len(self.layers)) if upward else range(len(self.layers) - 2, -1, -1)
            for number in numbers:
                other = self.layers[number - 1 if upward else number + 1]
                self.sort_layer(number, {node: k for k, node in enumerate(other)}, self.below if upward else self.above)
            self.swap()
            if self.crossings() < best:
                best, order = self.crossings(), [list(layer) for layer in self.layers]
        self.layers = order

    def sort_layer(self, number, place, neighbours):
        layer = self.layers[number]
        own = {node: k for k, node in enumerate(layer)}

        def middle(node):
            places = sorted(place[other] for other in neighbours.get(node, ()) if other in place)
            return sum(places) / len(places) if places else own[node]

        layer.sort(key=lambda node: (middle(node), own[node]))

    def swap(self):
        """Swaps neighbours where fewer edges cross then."""
        place = {node: k for layer in self.layers for k, node in enumerate(layer)}
        for layer in self.layers:
            for k in range(len(layer) - 1):
                left, right = layer[k], layer[k + 1]
                if self.crossed(left, right, place) > self.crossed(right, left, place):
                    layer[k], layer[k + 1] = right, left
                    place[left], place[right] = k + 1, k

    def crossed(self, left, right, place):
        """Returns how often edges of two neighbours cross, if they stand in this order."""
        sides = ((side.get(left, ()), side.get(right, ())) for side in (self.below, self.above))
        return sum(place[a] > place[b] for first, second in sides for a in first for b in second)


def width(node):
    return BOX if isinstance(node, str) else 0


def apart(left, right):
    """Returns how far the middles of two neighbours are apart at least."""
    boxes = isinstance(left, str) + isinstance(right, str)
    return (width(left) + width(right)) / 2 + (BESIDE if boxes else 0) + (PAST if boxes < 2 else 0)


def placed(layer, wanted):
    """Returns where the nodes of a layer stand: as near to where they want to as their order and their distance allow."""
    offsets = [0.0]
    for left, right in zip(layer, layer[1:]):
        offsets.append(offsets[-1] + apart(left, right))
    # Nodes that would stand too near form a block, which stands at their mean.
    blocks = []
    for node, offset in zip(layer, offsets):
        blocks.append([wanted[node] - offset, 1])
        while len(blocks) > 1 and blocks[-2][0] > blocks[-1][0]:
            mean, count = blocks.pop()
            before, more = blocks[-1]
            blocks[-1] = [(mean * count + before * more) / (count + more), count + more]
    starts = [start for start, count in blocks for _ in range(count)]
    return {node: start + offset for node, start, offset in zip(layer, starts, offsets)}


def places(graph):
    """Returns the middle of each node, from the left edge on."""
    at = {}
    for layer in graph.layers:
        at |= placed(layer, {node: 0.0 for node in layer})
    for sweep in range(SWEEPS):
        upward = sweep % 2 == 0
        for layer in graph.layers if upward else reversed(graph.layers):
            wanted = {}
            for node in layer:
                # The last sweeps see both sides.
                sides = (graph.below, graph.above) if sweep > SWEEPS // 2 else (graph.below if upward else graph.above,)
                others = [at[other] for side in sides for other in side.get(node, ())]
                wanted[node] = sum(others) / len(others) if others else at[node]
            at |= placed(layer, wanted)
    left = min(at[node] - width(node) / 2 for node in at)
    return {node: round(at[node] - left + EDGE) for node in at}


def path(points, at, middle_of):
    """Returns the line of an edge, which passes each layer upright."""
    x, y = at[points[0]], middle_of(points[0]) - TALL / 2
    parts = [f"M{x:g} {y:g}"]
    for point in points[1:]:
        to_x, to_y = at[point], middle_of(point) + TALL / 2
        half = (y + to_y) / 2
        parts.append(f"C{x:g} {half:g} {to_x:g} {half:g} {to_x:g} {to_y:g}")
        x, y = to_x, to_y - TALL
        if not isinstance(point, str):
            parts.append(f"V{y:g}")
    return " ".join(parts)


def edges(graph, at, middle_of, colour):
    """Yields the lines of the edges."""
    for (low, high), points in graph.edges.items():
        yield f'<path d="{path(points, at, middle_of)}" stroke="{colour(high)[1]}"><title>{high} stands on {low}</title></path>'


def boxes(at, middle_of, colour):
    """Yields the crates."""
    for name in crates():
        x, y = at[name], middle_of(name)
        yield (f'<rect x="{x - BOX / 2:g}" y="{y - TALL / 2:g}" width="{BOX}" height="{TALL}" rx="5" fill="{colour(name)[0]}"'
               f' stroke="{colour(name)[1]}"/><text x="{x:g}" y="{y + 4.5:g}" text-anchor="middle">{escape(name)}</text>')


def legend(groups, top):
    """Yields what the colours mean."""
    for number, group in enumerate(groups):
        ground, ink = COLOURS[number % len(COLOURS)]
        y = top + 22 * number
        yield (f'<rect x="{EDGE}" y="{y:g}" width="26" height="14" rx="3" fill="{ground}" stroke="{ink}"/>'
               f'<text x="{EDGE + 34}" y="{y + 12:g}">{escape(group)}</text>')


def svg():
    """Returns the picture."""
    graph = Graph()
    graph.sort()
    at = places(graph)
    level = {node: number for number, layer in enumerate(graph.layers) for node in layer}
    groups = list(dict.fromkeys(crate.group for crate in crates().values()))
    tall = (len(graph.layers) - 1) * LAYER + TALL + 2 * EDGE
    wide = max(at[node] + width(node) / 2 for node in at) + EDGE
    high = max(tall, EDGE + 22 * len(groups))

    def middle_of(node):
        return EDGE + TALL / 2 + (len(graph.layers) - 1 - level[node]) * LAYER

    def colour(name):
        return COLOURS[groups.index(crates()[name].group) % len(COLOURS)]

    head = f'<svg xmlns="http://www.w3.org/2000/svg" width="{wide:g}" height="{high:g}" viewBox="0 0 {wide:g} {high:g}" role="img"'
    parts = [head + ' font-family="sans-serif" font-size="13">', "<title>The crates, and what each stands on</title>",
             f'<rect width="{wide:g}" height="{high:g}" fill="#ffffff"/>', '<g fill="none" stroke-width="1.3">',
             *edges(graph, at, middle_of, colour), "</g>", *boxes(at, middle_of, colour), *legend(groups, EDGE), "</svg>", ""]
    return "\n".join(parts)
