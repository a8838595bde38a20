"""One run: lanes bring the leaves that came, a tree for each part merges them, and both memos are swept."""

from .coalescing_tree import CoalescingTree
from .folding_tree import FoldingTree
from .lanes import Lanes, text_of
from .memo import Memo
from .merges import Merges, Node
from .random_tree import RandomTree
from .rotating_tree import RotatingTree
from .work import Cost, Work


def tree_of(name, merges, places):
    """The tree of a name, without leaves."""
    if name == "rotating":
        return RotatingTree(merges, places)
    return {"coalescing": CoalescingTree, "folding": FoldingTree, "random": RandomTree}[name](merges)


class Engine:
    """The memos, lanes and trees that stay from run to run, and the leaves of the last run."""

    def __init__(self, plan, job):
        self.leaf_memo, self.merge_memo = Memo(plan["keep"]), Memo(plan["keep"])
        self.lanes = Lanes(job, plan["parts"], self.leaf_memo)
        self.merges = [Merges(job, part, self.merge_memo) for part in range(plan["parts"])]
        self.trees = [tree_of(plan["tree"], merges, plan["buckets"]) for merges in self.merges]
        self.leaves, self.runs = [], 0

    def run(self, leaves, change):
        """What a run over these leaves costs. `change` leads to them from the leaves of the last run."""
        self.runs += 1
        # One worker does the tasks in order: all lanes before the sweep of their memo, all trees before the other one.
        sheets = self.bring(leaves, change)
        self.leaf_memo.sweep()
        self.advance(change, sheets)
        self.merge_memo.sweep()
        # What is not used any more is given up last, so that no sweep of this run drops it.
        for each in [self.lanes] + self.merges:
            each.settle()
        bound = self.bound(leaves, change)
        self.leaves = list(leaves)
        exact = self.leaf_memo.exact.plus(self.merge_memo.exact)
        return Cost(exact, self.leaf_memo.most.plus(self.merge_memo.most), bound)

    def bring(self, leaves, change):
        """The sheets of the leaves that came: for each leaf one of each part."""
        self.leaf_memo.begin(self.runs)
        sheets = [self.lanes.bring(records) for records in change.came(leaves)]
        for records in change.left(self.leaves):
            self.lanes.leave(records)
        return sheets

    def advance(self, change, sheets):
        """Has the trees follow the change."""
        self.merge_memo.begin(self.runs)
        for part, tree in enumerate(self.trees):
            tree.advance(change, [Node(of_leaf[part]) for of_leaf in sheets])

    def bound(self, leaves, change):
        """The bound that docs/guide/windows.md promises of this run."""
        before = set(map(text_of, self.leaves))
        new = {text_of(records): len(records) for records in leaves}
        merges = self.trees[0].bound(change, len(leaves))
        keys = sum(len(tree.root.sheet.table) for tree in self.trees if tree.root)
        maps = sum(count for text, count in new.items() if text not in before)
        return Work(maps, merges * len(self.trees), merges * keys)
