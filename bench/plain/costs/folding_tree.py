"""The tree of buckets that are dropped, by docs/formats/trees.md."""

from .halves import Halves


class FoldingTree:
    """Of 2^height places those from `low` to `high - 1` have leaves."""

    def __init__(self, merges):
        self.halves = Halves(merges)
        self.height = self.low = self.high = 0
        self.changed = set()

    def advance(self, slide, came):
        """Voids places, folds, adds leaves, and then makes the nodes over the changed places."""
        self.changed = set()
        self.void(slide.gone)
        for place, leaf in zip(slide.places, came):
            self.put(self.low + place, leaf)
        self.fold()
        for leaf in came[len(slide.places) :]:
            self.add(leaf)
        self.halves.remake(self.changed, self.height)

    def put(self, place, leaf):
        """Changes a place."""
        self.halves.put(0, place, leaf)
        self.changed.add(place)

    def void(self, gone):
        """The first leaves left."""
        for place in range(self.low, self.low + gone):
            self.put(place, None)
        self.low += gone

    def add(self, leaf):
        """A fresh leaf came. If all places are taken, the tree is doubled first, with its root as the left half."""
        if self.high == 2**self.height:
            self.height += 1
        self.put(self.high, leaf)
        self.high += 1

    def fold(self):
        """While one half is wholly void, the other half becomes the tree. If there is no leaf, nothing is left."""
        while self.height > 0 and (self.low == self.high or self.high <= self.half() or self.half() <= self.low):
            self.keep_half(self.half() if self.half() <= self.low else 0)
        if self.low == self.high:
            self.low = self.high = 0
            self.changed = set()

    def half(self):
        """How many places each half has."""
        return 2**self.height // 2

    def keep_half(self, start):
        """The half that begins at this place becomes the tree; places are counted from there."""
        self.height -= 1
        nodes, self.halves.nodes = self.halves.nodes, {}
        for (level, number), node in nodes.items():
            moved = number - start // 2**level
            if level <= self.height and 0 <= moved < 2 ** (self.height - level):
                self.halves.nodes[level, moved] = node
            else:
                self.halves.merges.let_go(node)
        self.changed = {place - start for place in self.changed if 0 <= place - start < 2**self.height}
        self.low, self.high = self.low - start, self.high - start

    @property
    def root(self):
        """The node over all leaves."""
        return self.halves.root(self.height)

    def bound(self, slide, _count):
        """The most merges of the advance that was just made."""
        return slide.fresh + (2 + len(slide.places)) * self.height
