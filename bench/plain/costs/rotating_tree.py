"""The tree of a circle of places, by docs/formats/trees.md."""

from .halves import Halves


class RotatingTree:
    """Each bucket is at the place that is its number modulo the number of places."""

    def __init__(self, merges, places):
        self.halves, self.places = Halves(merges), places
        self.height = (places - 1).bit_length()  # the least number with places <= 2^height
        self.count = 0

    def advance(self, slide, came):
        """Puts each leaf that came at its place, and makes the nodes over these places."""
        self.count += slide.fresh - slide.gone
        in_window = slide.places + list(range(self.count - slide.fresh, self.count))
        changed = [(slide.first + place) % self.places for place in in_window]
        for place, leaf in zip(changed, came):
            self.halves.put(0, place, leaf)
        self.halves.remake(changed, self.height)

    @property
    def root(self):
        """The node over all leaves."""
        return self.halves.root(self.height)

    def bound(self, slide, _count):
        """The most merges of an advance."""
        return (slide.fresh + len(slide.places)) * self.height
