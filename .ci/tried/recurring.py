"""Calls that are made from numbers so that trees grow deep, and leaves come back after some runs. So what a run costs
depends on what the memos have kept."""

from plain.arguments import JOBS
from plain.generated import Draws

VALUES = {
    "k": [1, 2, 10],
    "buckets": [1, 2, 3, 5, 6, 8, 13, 32, 33],
    "parts": [1, 1, 2, 4, 16],
    "workers": [1, 4],
    "shards": [1, 3, 8],
    "keep": [0, 1, 2, 3, 4, 7],
}
TREES = ["coalescing", "folding", "random", "rotating"]
TREES_OF_LATEST = TREES[:3]
COMMANDS = {
    "coalescing": ["bucket", "bucket", "run"],
    "rotating": ["bucket", "bucket", "late", "run", "run"],
    "folding": ["bucket", "bucket", "drop", "late", "run", "run"],
    "random": ["file", "load", "edit", "edit", "edit", "remove", "run", "run", "run"],
}
WORDS = ["a", "b", "c", "d", "e", "f"]
NAMES = ["", "a", "b"]
MOST_COMMANDS = 40
MOST_TOGETHER = 9  # buckets that come, or records that an edit brings
MOST_LOADED = 40
# These 16 bytes have the hash of a marker, and no word is in them. A record with them that has 512 bytes ends a chunk.
MARKER = "-------------$-="
PADDING = 512


class Maker:
    """Makes the call of a number. The same number makes the same call everywhere."""

    def __init__(self, number):
        self.draws = Draws(number)
        self.job = self.one_of(JOBS)
        self.tree = self.one_of(TREES_OF_LATEST if self.job == "latest" else TREES)
        self.values = {name: self.one_of(some) for name, some in VALUES.items()}
        self.buckets, self.loads = [], []
        self.standing, self.name, self.sizes = 0, "", {}

    def below(self, limit):
        return self.draws.draw(limit)

    def one_of(self, some):
        return some[self.below(len(some))]

    def call(self):
        """The arguments and the script."""
        options = {"job": self.job, "tree": self.tree, **self.values}
        lines = [line for _ in range(MOST_COMMANDS) for line in getattr(self, self.one_of(COMMANDS[self.tree]))()]
        arguments = [f"--{name}={value}".encode() for name, value in options.items()]
        return arguments + [b"--work"], "".join(f"{line}\n" for line in lines + ["run"]).encode()

    def record(self):
        """One of few records."""
        words = " ".join(self.one_of(WORDS) for _ in range(self.below(4)))
        if self.tree == "random" and self.below(4):
            words = f"{words}{'-' * PADDING}{MARKER}"
        if self.job == "count":
            return words
        if self.job == "index":
            return f"{self.below(3)}\t{words}"
        if self.job == "latest":
            return f"{self.one_of(WORDS)}\t{self.below(3)}{words}"
        return f"{self.one_of(WORDS)}\t{self.below(3)}\t{words}"

    def records(self, most):
        return [self.record() for _ in range(self.below(most + 1))]

    def old_or_new(self, olds, most):
        """Some records that came before, or new ones."""
        if olds and self.below(3) == 0:
            return self.one_of(olds)
        olds.append(self.records(most))
        return olds[-1]

    def run(self):
        return ["run"]

    def bucket(self):
        lines = []
        for _ in range(1 + self.below(MOST_TOGETHER)):
            records = self.old_or_new(self.buckets, 2)
            lines += [f"bucket {len(records)}"] + records
            self.standing += 1
        if self.tree == "rotating":
            self.standing = min(self.standing, self.values["buckets"])
        return lines

    def late(self):
        if not self.standing:
            return []
        records = self.records(2)
        return [f"late {self.below(self.standing)} {len(records)}"] + records

    def drop(self):
        gone = self.below(self.standing + 1)
        self.standing -= gone
        return [f"drop {gone}"]

    def file(self):
        self.name = self.one_of(NAMES)
        return [f"file {self.name}"]

    def remove(self):
        name = self.one_of(NAMES)
        self.sizes[name] = 0
        return [f"remove {name}"]

    def load(self):
        records = self.old_or_new(self.loads, MOST_LOADED)
        self.sizes[self.name] = len(records)
        return [f"load {len(records)}"] + records

    def edit(self):
        size, records = self.sizes.get(self.name, 0), self.records(MOST_TOGETHER)
        at = self.below(size + 1)
        gone = min(self.below(MOST_TOGETHER), size - at)
        self.sizes[self.name] = size - gone + len(records)
        return [f"edit {at} {gone} {len(records)}"] + records


def recurring_call(number):
    """The arguments and the script of a number."""
    return Maker(number).call()
