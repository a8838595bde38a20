"""How the buckets of a window changed since the last run."""

from typing import List, NamedTuple


class Slide(NamedTuple):
    """`gone` buckets left at the front, and `fresh` ones came at the end. Of those that stayed, the ones at these
    `places` of the window gained records. The first bucket of the window has the number `first`, counted from 0 over
    the script."""

    first: int
    gone: int
    places: List[int]
    fresh: int

    def left(self, leaves):
        """Which leaves of the last run are no longer there as they were."""
        return leaves[: self.gone] + [leaves[self.gone + place] for place in self.places]

    def came(self, leaves):
        """Which leaves of the present window are new: the changed ones, then the fresh ones."""
        return [leaves[place] for place in self.places] + leaves[len(leaves) - self.fresh :]


class BucketWatch:
    """Follows the commands of a window of buckets, by the numbers of the buckets in it."""

    def __init__(self, window):
        self.window, self.count = window, 0
        self.numbers, self.numbers_before = [], []
        self.late = set()

    def follow(self, command):
        """Takes note of a command that the window has just carried out."""
        if command.word == b"bucket":
            self.numbers.append(self.count)
            self.count += 1
        elif command.word == b"late" and command.records:
            self.late.add(self.numbers[command.fields[0]])
        # Those that were dropped, or that a circle lost, are the oldest.
        del self.numbers[: len(self.numbers) - len(self.window.buckets)]

    def leaves(self):
        """The leaves of the window."""
        return self.window.buckets

    def change(self):
        """The slide since the last run; the present window is that of the next one."""
        before, now = set(self.numbers_before), set(self.numbers)
        slide = Slide(
            first=self.numbers[0] if self.numbers else self.count,
            gone=len(before - now),
            places=[place for place, number in enumerate(self.numbers) if number in before & self.late],
            fresh=len(now - before),
        )
        self.numbers_before, self.late = list(self.numbers), set()
        return slide
