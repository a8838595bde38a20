"""A memo, by docs/formats/memo.md: results by their whole inputs, until a sweep drops those that nobody holds.

Shards change nothing here: a run sweeps them all.
"""

from .work import Work


class Entry:
    """A result, the last run that asked for it, and how many pins are on it."""

    def __init__(self, result):
        self.result, self.used, self.pins = result, 0, 0


class Memo:
    """Entries by their inputs, and the work of the present run: with one worker, and at most with several."""

    def __init__(self, keep):
        self.keep, self.run, self.entries = keep, 0, {}
        self.certain, self.asked = set(), set()
        self.exact = self.most = Work()

    def begin(self, run):
        """A run begins. Entries that its sweep does not drop are found, whatever the order of its tasks."""
        self.run, self.asked = run, set()
        self.certain = {wanted for wanted, entry in self.entries.items() if not self.is_dropped(entry)}
        self.exact = self.most = Work()

    def is_dropped(self, entry):
        """Whether the sweep of this run drops an entry as it is now."""
        return entry.pins == 0 and entry.used < self.run - self.keep

    def fetch(self, caller, wanted, work, make):
        """Pins the result of an input for a caller, and returns it. If there is no entry, it is made, which takes this
        work. A caller that asked for it before, in the same run, holds it and makes it no second time."""
        if wanted not in self.certain and (caller, wanted) not in self.asked:
            self.most = self.most.plus(work)
        self.asked.add((caller, wanted))
        if wanted not in self.entries:
            self.exact = self.exact.plus(work)
            self.entries[wanted] = Entry(make())
        entry = self.entries[wanted]
        entry.used = self.run
        entry.pins += 1
        return entry.result

    def release(self, wanted):
        """Takes one pin from an entry."""
        self.entries[wanted].pins -= 1

    def sweep(self):
        """Drops the entries that have no pins and that no run has asked for since the horizon."""
        self.entries = {wanted: entry for wanted, entry in self.entries.items() if not self.is_dropped(entry)}
