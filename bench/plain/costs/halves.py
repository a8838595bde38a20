"""Full trees of places, in which each node is over two halves. The rotating and the folding tree are such trees."""


class Halves:
    """Nodes by their level and their number in it. Level 0 has the places. A node that is not there is void."""

    def __init__(self, merges):
        self.merges, self.nodes = merges, {}

    def put(self, level, number, node):
        """Replaces a node by another one, or by none."""
        self.merges.let_go(self.nodes.pop((level, number), None))
        if node:
            self.nodes[level, number] = node

    def remake(self, changed, height):
        """Makes each node over a changed place, once, from the lowest level to the root."""
        for level in range(1, height + 1):
            changed = sorted({number // 2 for number in changed})
            for number in changed:
                left, right = self.nodes.get((level - 1, 2 * number)), self.nodes.get((level - 1, 2 * number + 1))
                self.put(level, number, self.merges.join(left, right))

    def root(self, height):
        """The node over all places of a tree of this height."""
        return self.nodes.get((height, 0))
