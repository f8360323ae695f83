"""The families as a picture: boxes with their crates, and arrows to what each rests on."""
import itertools
import sys
from html import escape

from drawing.svg import INK, QUIET, WIDTH, Picture
from family.layers import Layers
from family.places import rests_on

PAD, GAP, EDGE, TOP = 14, 30, 20, 64
TITLE, WORDS, NAME = 15, 11, 12
ROW, HEAD = 18, 46
LANE, TRACK, ROOM = 24, 14, 22
PAPER, BORDER = "#f5f7fa", "#9aa5b1"
COLOURS = ("#2b6ca3", "#b7410e", "#3c8a4e", "#7b4fa0", "#8a6d1b", "#1d7874", "#a3386c", "#52606d")
LEGEND = (
    "An arrow leads to a family on which the one above it rests. Families that rest on the same ones share a line.",
    "What follows from other arrows is not drawn.",
)


class Box:
    """A place with its crates in columns. A letter is taken as wide as that of a wide font."""

    def __init__(self, place):
        self.place, self.columns = place, 1

    def column(self):
        return 0.605 * NAME * max(len(crate.name) for crate in self.place.crates) + PAD

    def rows(self):
        return -(-len(self.place.crates) // self.columns)

    def width(self):
        title, words = 0.72 * TITLE * len(self.place.title), 0.61 * WORDS * len(self.place.words)
        return 2 * PAD + max(title, words, self.columns * self.column() - PAD)

    def height(self):
        return HEAD + ROW * self.rows() + 8


class Drawn:
    """Where everything stands: boxes, lanes, and the arrows between two layers."""

    def __init__(self, places):
        self.boxes = [Box(place) for place in places]
        self.plan = Layers(rests_on(places))
        self.middle, self.bottom, self.tops = {}, {}, [0] * len(self.plan.layers)
        for level, layer in enumerate(self.plan.layers):
            self.spread(layer)
            self.set_middles(level, layer)
        levels = range(len(self.plan.layers) - 1)
        self.ends = [self.pins_at(level) for level in levels]
        self.tracks = [self.tracks_at(level) for level in levels]
        self.height = self.set_heights()

    # ---- from left to right

    def width_of(self, kind, number):
        return self.boxes[number].width() if kind == "box" else LANE

    def span(self, layer):
        return sum(self.width_of(*p) for p in layer) + GAP * (len(layer) - 1)

    def spread(self, layer):
        """more columns for the box with the most rows, as long as the layer fits"""
        boxes = [self.boxes[number] for kind, number in layer if kind == "box"]
        while any(box.rows() > 1 for box in boxes):
            tallest = max(boxes, key=Box.rows)
            tallest.columns += 1
            if self.span(layer) > WIDTH - 2 * EDGE:
                tallest.columns -= 1
                return

    def set_middles(self, level, layer):
        x = (WIDTH - self.span(layer)) / 2
        if x < EDGE:
            titles = ", ".join(self.boxes[number].place.title for kind, number in layer if kind == "box")
            sys.exit("families: these do not fit beside one another: " + titles)
        for p in layer:
            self.middle[level, p] = x + self.width_of(*p) / 2
            x += self.width_of(*p) + GAP

    # ---- the arrows between a layer and the one above it

    def pins_at(self, level):
        """net -> (where it comes from above, where it goes below); arrows into one box stand side by side"""
        joined = {k: self.plan.pins(k, level) for k in range(len(self.plan.nets))}
        ends = {k: ([self.middle[level + 1, p] for p in above], []) for k, (above, _) in joined.items() if above}
        into = {p: [k for k in ends if p in joined[k][1]] for p in self.plan.layers[level]}
        for coming in into.values():
            coming.sort(key=lambda k: (sum(ends[k][0]) / len(ends[k][0]), k))
        for k, (above, below) in ends.items():
            for p in joined[k][1]:
                x = self.middle[level, p] + 20 * (into[p].index(k) - (len(into[p]) - 1) / 2)
                # A line that is all but straight is straight.
                below.append(next((a for a in above if p[0] == "box" and abs(a - x) < 8), x))
        return ends

    def tracks_at(self, level):
        """net -> its height among the levels of that room, so that lines of different nets cross least"""
        ends = self.ends[level]
        bent = [k for k, (above, below) in ends.items() if max(above + below) - min(above + below) > 1]
        tried = ({k: track for track, k in enumerate(order, 1)} for order in itertools.permutations(bent))
        return min(tried, key=lambda tracks: crossed(ends, tracks))

    # ---- from top to bottom

    def set_heights(self):
        y = TOP
        for level in reversed(range(len(self.plan.layers))):
            layer = self.plan.layers[level]
            height = max(self.boxes[number].height() for kind, number in layer if kind == "box")
            self.tops[level] = y
            for p in layer:
                self.bottom[level, p] = y + (self.boxes[p[1]].height() if p[0] == "box" else height)
            y += height + (2 * ROOM + TRACK * len(self.tracks[level - 1]) if level else EDGE)
        return y


def crossed(ends, tracks):
    """how often lines of different nets lie on one another, and how often they cross"""
    last = len(tracks) + 1
    upright = [(x, 0, tracks.get(k, last), k) for k, (above, _) in ends.items() for x in above]
    upright += [(x, tracks.get(k, 0), last, k) for k, (_, below) in ends.items() for x in below]
    level = [(min(a + b), max(a + b), tracks[k], k) for k, (a, b) in ends.items() if k in tracks]
    pairs = itertools.combinations(upright, 2)
    lying = sum(abs(x - z) < 8 and k != m and max(a, c) < min(b, d) for (x, a, b, k), (z, c, d, m) in pairs)
    crossing = sum(left < x < right and a < at < b and k != m for x, a, b, k in upright for left, right, at, m in level)
    return lying, crossing


class Families(Picture):
    """The lines of the SVG."""

    def __init__(self, drawn):
        self.drawn, self.height, self.lines = drawn, round(drawn.height), []

    def words(self, x, y, words, size, look):
        self.lines.append(f'<text x="{x:.1f}" y="{y:.1f}" font-size="{size}" {look}>{escape(words)}</text>')

    def box(self, number):
        box, level = self.drawn.boxes[number], self.drawn.plan.levels[number]
        left, top = self.drawn.middle[level, ("box", number)] - box.width() / 2, self.drawn.tops[level]
        place = f'x="{left:.1f}" y="{top:.1f}" width="{box.width():.1f}" height="{box.height()}"'
        self.lines.append(f'<rect {place} rx="6" fill="{PAPER}" stroke="{BORDER}"/>')
        self.words(left + PAD, top + 21, box.place.title, TITLE, f'font-weight="bold" fill="{INK}"')
        self.words(left + PAD, top + 37, box.place.words, WORDS, f'fill="{QUIET}"')
        for k, crate in enumerate(box.place.crates):
            column, row = divmod(k, box.rows())
            x, y = left + PAD + column * box.column(), top + HEAD + ROW * row + 12
            self.words(x, y, crate.name, NAME, f'font-family="monospace" fill="{INK}"')

    def net(self, k):
        """The lines of one net from its boxes to those that they rest on; where it crosses others it has a white edge."""
        drawn, steps, heads = self.drawn, [], []
        net = drawn.plan.nets[k]
        for level in range(drawn.plan.lowest(net), drawn.plan.top(net)):
            above, below = drawn.plan.pins(k, level)
            low = drawn.tops[level]
            track = low - ROOM - TRACK * (len(drawn.tracks[level]) + 0.5 - drawn.tracks[level].get(k, 0))
            xs, ends = drawn.ends[level][k]
            steps += [f"M{x:.1f} {drawn.bottom[level + 1, p]:.1f}V{track:.1f}" for p, x in zip(above, xs)]
            steps += [f"M{min(xs + ends):.1f} {track:.1f}H{max(xs + ends):.1f}"] * (k in drawn.tracks[level])
            steps += [f"M{x:.1f} {track:.1f}V{low:.1f}" for x in ends]
            heads += [f"M{x:.1f} {low:.1f}l-4.5 -9h9z" for x in ends[:sum(kind == "box" for kind, _ in below)]]
            if ("lane", k) in below:
                steps.append(f'M{ends[-1]:.1f} {low:.1f}V{drawn.bottom[level, ("lane", k)]:.1f}')
        lines, colour = "".join(steps), COLOURS[k % len(COLOURS)]
        self.lines.append(f'<path d="{lines}" fill="none" stroke="#fff" stroke-width="6"/>')
        self.lines.append(f'<path d="{lines}" fill="none" stroke="{colour}" stroke-width="1.8" stroke-linecap="square"/>')
        self.lines.append(f'<path d="{"".join(heads)}" fill="{colour}"/>')

    def draw(self):
        for k, words in enumerate(LEGEND):
            self.text(EDGE, 26 + 17 * k, words, 12, QUIET, "start")
        for k in range(len(self.drawn.plan.nets)):
            self.net(k)
        for number in range(len(self.drawn.boxes)):
            self.box(number)
        return self.whole()


def draw(places):
    return Families(Drawn([place for place in places if place.crates])).draw()
