"""The tree of a document's chunks, by docs/formats/trees.md."""

from typing import List, NamedTuple

from .merges import Node
from .splices import Splice

MOST_MEMBERS = 8
MARK = 128


class Group(NamedTuple):
    """Members of the level below, merged from left to right: the nodes over the first one, the first two, and so on. It
    has ended if its last member ends it, whatever comes after that."""

    nodes: List[Node]
    has_ended: bool

    def size(self):
        """How many members it has."""
        return len(self.nodes)

    def whole(self):
        """The node over all of them."""
        return self.nodes[-1]


class RandomTree:
    """The groups of each level. On the lowest one each leaf is a group by itself."""

    def __init__(self, merges):
        self.merges, self.levels = merges, [[]]

    def advance(self, splice, came):
        """Replaces leaves, and then has each level follow the one below until one does not change."""
        change = self.replace(0, splice, [Group([leaf], False) for leaf in came])
        level = 1
        while not change.is_nothing():
            if level == len(self.levels):
                self.levels.append([])
            change = self.regroup(level, change)
            level += 1

    def replace(self, level, splice, groups):
        """Puts these groups in the place of those that a splice takes away, and returns the splice."""
        end = splice.first + splice.gone
        for group in self.levels[level][splice.first : end]:
            for node in group.nodes[1:]:  # the first node is that of a member
                self.merges.let_go(node)
        self.levels[level][splice.first : end] = groups
        return splice

    def regroup(self, level, change):
        """Makes groups anew where the level below changed, and returns how this level changed."""
        old, members = self.levels[level], self.levels[level - 1]
        if len(members) < 2:
            return self.replace(level, Splice(0, len(old), 0), [])
        kept, at = kept_in_front(old, change.first)
        starts, groups = starts_of(old), []
        while at < len(members):
            # After the change, at a place where an old group began, that one and all others after it stay.
            old_at = at - change.fresh + change.gone
            if at >= change.first + change.fresh and old_at in starts:
                return self.replace(level, Splice(kept, starts.index(old_at) - kept, len(groups)), groups)
            groups.append(self.group(members[at : at + MOST_MEMBERS]))
            at += groups[-1].size()
        return self.replace(level, Splice(kept, len(old) - kept, len(groups)), groups)

    def group(self, members):
        """The group that begins with the first of these members."""
        nodes = [members[0].whole()]
        for member in members[1:]:
            nodes.append(self.merges.merge(nodes[-1], member.whole()))
            if member.whole().sheet.first_byte() >= MARK or len(nodes) == MOST_MEMBERS:
                return Group(nodes, True)
        return Group(nodes, False)

    @property
    def root(self):
        """The node over all leaves."""
        return next((groups[0].whole() for groups in self.levels if len(groups) == 1), None)

    def bound(self, _splice, count):
        """The most merges of an advance to so many leaves."""
        return max(count - 1, 0)


def kept_in_front(groups, count):
    """How many groups ended by themselves within the first `count` members, and how many members they have."""
    kept, members = 0, 0
    for group in groups:
        if not group.has_ended or members + group.size() > count:
            break
        kept, members = kept + 1, members + group.size()
    return kept, members


def starts_of(groups):
    """At which member each group begins."""
    starts, members = [], 0
    for group in groups:
        starts.append(members)
        members += group.size()
    return starts
