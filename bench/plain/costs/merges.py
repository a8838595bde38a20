"""The merges of a tree, which go through the memo."""

from typing import NamedTuple, Optional, Tuple

from .sheets import Sheet, common_keys, merged
from .work import Work


class Node(NamedTuple):
    """The sheet over some leaves, and the pair that it is the merge of, which is pinned. There is no pair if the sheet
    is that of a leaf, or is passed up from another node."""

    sheet: Sheet
    pair: Optional[Tuple[bytes, bytes]] = None


class Merges:
    """What the tree of a part asks of the memo, and which nodes it gave up in this run."""

    def __init__(self, job, part, memo):
        self.job, self.part, self.memo = job, part, memo
        self.unused = []

    def merge(self, left, right):
        """The node over two, the left one first."""
        sheets, pair = (left.sheet, right.sheet), (left.sheet.bytes, right.sheet.bytes)
        work = Work(merges=1, joins=len(common_keys(*sheets)))
        return Node(self.memo.fetch(self.part, pair, work, lambda: merged(self.job, *sheets)), pair)

    def join(self, left, right):
        """The node over two halves. A half that is alone is passed up, and over two void ones there is no node."""
        if left and right:
            return self.merge(left, right)
        half = left or right
        return Node(half.sheet) if half else None

    def let_go(self, node):
        """The tree no longer has this node. Its pin stays until the end of the run."""
        if node and node.pair:
            self.unused.append(node.pair)

    def settle(self):
        """Gives up the pins of nodes that were let go."""
        for pair in self.unused:
            self.memo.release(pair)
        self.unused = []
