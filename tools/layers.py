"""Boxes of text in layers, with arrows between them, as the elements of an SVG picture."""
import html
import re
import unicodedata

# of a text, in pixels: a character of any usual monospaced font is no wider
WIDE, HIGH = 7.3, 15
# of a line of text in a box, in characters
MOST = 34
PAD, GAP, LEVEL, MARGIN = 8, 22, 34, 20
FILLS = {
    "source": "#dbe9f6",
    "output": "#dff0d8",
    "group": "#fde8cf",
    "flatten": "#e6e6e6",
    "operate": "#efe3f5",
    "do": "#ffffff",
    "pass": "#ffffff",
    "in": "#ffffff",
    "stage": "#f6f6f2",
    "rewrites": "#ffffff",
}


def width(text):
    """How many columns a text takes."""
    return sum(2 if unicodedata.east_asian_width(it) in "WF" else 1 for it in text)


def pieces(text, most):
    """The words of a text, those that are too long parted at signs, and else anywhere."""
    for word in re.findall(r"[^ ]+ ?| ", text):
        if width(word.rstrip()) <= most:
            yield word
            continue
        for piece in re.findall(r"[^(:]+[(:]?|[(:]", word):
            while width(piece.rstrip()) > most:
                cut = next(n for n in range(len(piece), 0, -1) if width(piece[:n]) <= most)
                yield piece[:cut]
                piece = piece[cut:]
            yield piece


def wrapped(text, most=MOST):
    """The lines of a text, each within so many columns, those behind the first set in."""
    lines, line = [], ""
    for piece in pieces(text, most - 2):
        if line.strip() and width(line + piece.rstrip()) > most:
            lines.append(line.rstrip())
            line = "  "
        line += piece if piece.strip() or line.strip() else ""
    return [*lines, line.rstrip()]


class Box:
    """Lines of text, or a title over rows of such boxes, with the place that it gets."""

    def __init__(self, kind, lines, rows=()):
        self.kind, self.rows, self.x, self.y = kind, [list(it) for it in rows if it], 0, 0
        self.lines = [part for line in lines for part in wrapped(line)]
        columns = max([width(it) for it in self.lines], default=0)
        self.wide, self.high = columns * WIDE + 2 * PAD, len(self.lines) * HIGH + 2 * PAD
        for row in self.rows:
            inside = sum(it.wide + GAP for it in row) - GAP + 2 * PAD
            self.wide, self.high = max(self.wide, inside), self.high + max(it.high for it in row)
        self.high += max(len(self.rows) - 1, 0) * GAP

    def put(self, x, y):
        """Puts the box, and all that is in it, with its upper left corner there."""
        self.x, self.y = x, y
        y += len(self.lines) * HIGH + PAD
        for row in self.rows:
            inside = sum(it.wide + GAP for it in row) - GAP
            at = x + (self.wide - inside) / 2
            for it in row:
                it.put(at, y)
                at += it.wide + GAP
            y += max(it.high for it in row) + GAP

    def middle(self):
        return self.x + self.wide / 2

    def drawn(self):
        """The elements of the box."""
        bold = ' font-weight="bold"' if self.rows else ""
        yield (f'<rect x="{self.x:.0f}" y="{self.y:.0f}" width="{self.wide:.0f}" '
               f'height="{self.high:.0f}" rx="4" fill="{FILLS[self.kind]}" stroke="#555"/>')
        for number, line in enumerate(self.lines):
            y = self.y + PAD + number * HIGH + 11
            yield (f'<text x="{self.x + PAD:.0f}" y="{y:.0f}"{bold} xml:space="preserve">'
                   f"{html.escape(line)}</text>")
        for row in self.rows:
            for it in row:
                yield from it.drawn()


def in_rows(boxes, most=4):
    """Boxes in rows of at most so many."""
    return [boxes[at : at + most] for at in range(0, len(boxes), most)]


# ---- layers


def spread(wanted, wide):
    """Middles as near to the wanted ones as order and widths allow, by least squares."""
    ends, at = [], 0
    for size in wide:
        ends.append(at + size / 2)
        at += size + GAP
    pools = []
    for value in (want - end for want, end in zip(wanted, ends)):
        pools.append([value, 1])
        while len(pools) > 1 and pools[-2][0] > pools[-1][0]:
            (high, some), (low, more) = pools[-2:]
            pools[-2:] = [[(high * some + low * more) / (some + more), some + more]]
    middles = [value for value, count in pools for _ in range(count)]
    return [middle + end for middle, end in zip(middles, ends)]


class Layers:
    """Boxes below what they read, and lines that pass between the boxes of a layer."""

    def __init__(self, boxes, arrows):
        self.boxes, self.arrows = boxes, arrows
        self.near = {}
        depth = self.depths()
        self.layers = [[] for _ in range(max(depth.values(), default=-1) + 1)]
        for name in boxes:
            self.layers[depth[name]].append(name)
        self.ways = [self.way(number, depth) for number in range(len(arrows))]
        self.at = {}

    def depths(self):
        """The layer of each box: one below the lowest that it reads; outputs stand lowest."""
        depth = dict.fromkeys(self.boxes, 0)
        for _ in self.boxes:
            for reads, name, *_ in self.arrows:
                depth[name] = max(depth[name], depth[reads] + 1)
        last = max(depth.values(), default=0)
        return {it: last if box.kind == "output" else depth[it] for it, box in self.boxes.items()}

    def way(self, number, depth):
        """The boxes and passages of an arrow, from above to below."""
        first, last, *_ = self.arrows[number]
        way = [first]
        for level in range(depth[first] + 1, depth[last]):
            way.append((number, level))
            self.layers[level].append(way[-1])
        way.append(last)
        for above, below in zip(way, way[1:]):
            self.near.setdefault(above, []).append(below)
            self.near.setdefault(below, []).append(above)
        return way

    def wide(self, name):
        return self.boxes[name].wide if name in self.boxes else 2

    def mean(self, name):
        """The mean place of what a box or passage is joined to."""
        near = self.near.get(name, [name])
        return sum(self.at[it] for it in near) / len(near)

    def place(self, layer):
        """Puts the members of a layer near to what they are joined to, in their order."""
        found = spread([self.mean(it) for it in layer], [self.wide(it) for it in layer])
        self.at.update(zip(layer, found))

    def put(self, x, y):
        """Puts all boxes to the right of x and below y, and returns where they end."""
        for layer in self.layers:
            self.at.update(zip(layer, spread([0] * len(layer), [self.wide(it) for it in layer])))
        for turn in range(12):
            for layer in self.layers if turn % 2 else self.layers[::-1]:
                if turn < 8:
                    layer.sort(key=self.mean)
                self.place(layer)
        least = min((self.at[it] - self.wide(it) / 2 for it in self.at), default=0)
        right, tops = x, {}
        for layer in self.layers:
            high = max((self.boxes[it].high for it in layer if it in self.boxes), default=0)
            for it in layer:
                self.at[it] += x - least
                right = max(right, self.at[it] + self.wide(it) / 2)
                tops[it] = y, y + high
                if it in self.boxes:
                    self.boxes[it].put(self.at[it] - self.wide(it) / 2, y)
            y += high + LEVEL
        self.tops = tops
        return right, y - LEVEL

    def lines(self):
        """The arrows, each as a curve."""
        for (first, last, *ends), way in zip(self.arrows, self.ways):
            begin = ends[0].middle() if ends and ends[0] else self.boxes[first].middle()
            end = ends[1].middle() if ends and ends[1] else self.boxes[last].middle()
            above = self.boxes[first]
            x, y = begin, above.y + above.high
            path = f"M{x:.0f} {y:.0f}"
            for it in way[1:-1]:
                top, low = self.tops[it]
                path += curve(x, y, self.at[it], top) + f" L{self.at[it]:.0f} {low:.0f}"
                x, y = self.at[it], low
            yield arrow(path + curve(x, y, end, self.boxes[last].y))


def curve(x, y, to_x, to_y):
    half = (y + to_y) / 2
    return f" C{x:.0f} {half:.0f} {to_x:.0f} {half:.0f} {to_x:.0f} {to_y:.0f}"


def arrow(path):
    return f'<path d="{path}" fill="none" stroke="#555" marker-end="url(#end)"/>'
