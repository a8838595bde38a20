"""How the chunks of a document changed since the last run."""

from typing import NamedTuple

from .chunks import change_of_edit, chunks_of


class Splice(NamedTuple):
    """From `first` on, `gone` leaves became `fresh` others."""

    first: int = 0
    gone: int = 0
    fresh: int = 0

    def is_nothing(self):
        """Whether it takes no leaf away and brings none."""
        return self.gone == 0 and self.fresh == 0

    def left(self, leaves):
        """Which leaves of the last run it takes away."""
        return leaves[self.first : self.first + self.gone]

    def came(self, leaves):
        """Which leaves of the present window it brings."""
        return leaves[self.first : self.first + self.fresh]


def put_together(one, other, counts):
    """Two splices in a row as one, which keeps the leaves that both keep: some at the front, some at the end. `counts`
    says how many leaves there were before, between and after them."""
    if other.is_nothing():
        return one
    if one.is_nothing():
        return other
    before, between, after = counts
    first = min(one.first, other.first)
    kept = min(before - one.first - one.gone, between - other.first - other.gone)
    return Splice(first, before - kept - first, after - kept - first)


class DocumentWatch:
    """Follows the commands of a document, by the chunks of its files."""

    def __init__(self, window):
        self.window, self.chunks = window, {}
        self.splice, self.count_before = Splice(), 0

    def follow(self, command):
        """Takes note of a command that the window has just carried out."""
        if command.word == b"file":
            return
        name = command.fields[0] if command.word == b"remove" else self.window.current
        between = len(self.leaves())
        splice = self.cut(name, command)
        self.splice = put_together(self.splice, splice, (self.count_before, between, len(self.leaves())))

    def cut(self, name, command):
        """Cuts a file whose records changed, and returns the splice of all chunks."""
        old, new = self.chunks.get(name, []), chunks_of(self.window.files.get(name, []))
        self.chunks[name] = new
        before = sum(len(chunks) for other, chunks in self.chunks.items() if other < name)
        if command.word == b"edit":
            first, gone, fresh = change_of_edit(old, new, *command.fields)
            return Splice(before + first, gone, fresh)
        return Splice(before, len(old), len(new))

    def leaves(self):
        """The leaves of the window."""
        return [chunk for name in sorted(self.chunks) for chunk in self.chunks[name]]

    def change(self):
        """The splice since the last run; the present window is that of the next one."""
        splice, self.splice = self.splice, Splice()
        self.count_before = len(self.leaves())
        return splice
