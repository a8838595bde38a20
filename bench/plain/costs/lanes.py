"""Leaves by their texts: each text is mapped once, and held while a leaf has it.

A text belongs to one of 16 lanes, by its digest. Since no two lanes share a text, one dictionary does for all of them.
"""

from collections import Counter

from .sheets import mapped
from .work import Work


def text_of(records):
    """The text of some records."""
    return b"".join(record + b"\n" for record in records)


class Lanes:
    """The sheets of each text that a leaf has, and how many leaves have it."""

    def __init__(self, job, parts, memo):
        self.job, self.parts, self.memo = job, parts, memo
        self.sheets, self.uses = {}, Counter()

    def bring(self, records):
        """The sheets of a leaf that comes. The memo is not asked for a text that is held, so it does not count as used
        in this run."""
        text = text_of(records)
        if text not in self.sheets:
            work = Work(maps=len(records))
            self.sheets[text] = self.memo.fetch("lanes", text, work, lambda: mapped(self.job, records, self.parts))
        self.uses[text] += 1
        return self.sheets[text]

    def leave(self, records):
        """A leaf leaves."""
        self.uses[text_of(records)] -= 1

    def settle(self):
        """Gives up the texts that no leaf has, once all leaves of a run came and left."""
        for text in [text for text, count in self.uses.items() if count == 0]:
            del self.uses[text], self.sheets[text]
            self.memo.release(text)
