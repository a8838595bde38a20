"""The tree of a window that only grows, by docs/formats/trees.md."""


class CoalescingTree:
    """The node over all leaves."""

    def __init__(self, merges):
        self.merges, self.root = merges, None

    def advance(self, _slide, came):
        """Merges the leaves that came from left to right, then the root with their merge. Only the root is kept."""
        if not came:
            return
        over_fresh = came[0]
        for leaf in came[1:]:
            over_fresh = self.replace(over_fresh, leaf)
        self.root = self.replace(self.root, over_fresh) if self.root else over_fresh

    def replace(self, left, right):
        """The merge of two nodes, which are let go."""
        node = self.merges.merge(left, right)
        self.merges.let_go(left)
        self.merges.let_go(right)
        return node

    def bound(self, slide, _count):
        """The most merges of an advance."""
        return slide.fresh
