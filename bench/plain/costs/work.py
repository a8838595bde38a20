"""Work that is counted."""

from typing import NamedTuple


class Work(NamedTuple):
    """Records that are mapped, tables that are merged, and values that are joined in merges."""

    maps: int = 0
    merges: int = 0
    joins: int = 0

    def plus(self, other):
        """This work and some other."""
        return Work(*(mine + its for mine, its in zip(self, other)))

    def is_at_most(self, other):
        """Whether no count is greater than the other's."""
        return all(mine <= its for mine, its in zip(self, other))


class Cost(NamedTuple):
    """What a run costs with one worker; the most that it may cost with several; and the bound that is promised,
    whatever the memos found."""

    exact: Work
    most: Work
    bound: Work
