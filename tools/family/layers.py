"""Boxes in layers, each above all that it rests on, and their order within a layer: few arrows cross.

Boxes that rest on the same ones share a net of arrows. A net that leads past a layer has a lane there.
"""
import collections
import itertools

# A layer of more places keeps the order of the file: so many orders are not tried.
MOST_TRIED = 7

Net = collections.namedtuple("Net", "sources targets")


def levels_of(rests):
    """0 for a box that rests on none, else one more than the highest that it rests on"""
    levels = []
    for below in rests:
        levels.append(1 + max((levels[b] for b in below), default=-1))
    return levels


def nets_of(rests):
    """the boxes that rest on the same ones, and these"""
    groups = collections.OrderedDict()
    for box, below in enumerate(rests):
        if below:
            groups.setdefault(tuple(sorted(below)), []).append(box)
    return [Net(tuple(sources), targets) for targets, sources in groups.items()]


class Layers:
    """`layers[level]` has the places of a level from the left: ("box", number) or ("lane", number of its net)"""

    def __init__(self, rests):
        self.levels, self.nets = levels_of(rests), nets_of(rests)
        self.layers = [[] for _ in range(max(self.levels) + 1)]
        for box, level in enumerate(self.levels):
            self.layers[level].append(("box", box))
        for k, net in enumerate(self.nets):
            for level in range(self.lowest(net) + 1, self.top(net)):
                self.layers[level].append(("lane", k))
        self.settle()

    def top(self, net):
        return self.levels[net.sources[0]]

    def lowest(self, net):
        return min(self.levels[t] for t in net.targets)

    def pins(self, k, level):
        """the places that net k joins between a level and the one above it: those above, those below"""
        net = self.nets[k]
        if not self.lowest(net) <= level < self.top(net):
            return (), ()
        above = [("box", s) for s in net.sources] if self.top(net) == level + 1 else [("lane", k)]
        below = [("box", t) for t in net.targets if self.levels[t] == level]
        return above, below + [("lane", k)] * (self.lowest(net) < level)

    def arrows(self, level):
        """(place above, place below, net), as shares of the width"""
        share = [{p: (i + 1) / (len(layer) + 1) for i, p in enumerate(layer)} for layer in self.layers[level:level + 2]]
        for k in range(len(self.nets)):
            above, below = self.pins(k, level)
            for a, b in itertools.product(above, below):
                yield share[1][a], share[0][b], k

    def cost(self):
        """how many arrows of different nets cross; of equal orders the one whose arrows lean less"""
        crossings, lean = 0, 0.0
        for level in range(len(self.layers) - 1):
            arrows = list(self.arrows(level))
            lean += sum(abs(a - b) for a, b, _ in arrows)
            for (a, b, k), (c, d, m) in itertools.combinations(arrows, 2):
                crossings += k != m and (a - c) * (b - d) < 0
        return crossings, round(lean, 6)

    def settle(self):
        """layer by layer the best order, as long as something gets better"""
        best, before = self.cost(), None
        while best != before:
            before = best
            for level, layer in enumerate(self.layers):
                for order in itertools.permutations(layer) if len(layer) <= MOST_TRIED else ():
                    self.layers[level] = list(order)
                    if self.cost() < best:
                        best, layer = self.cost(), list(order)
                self.layers[level] = layer
