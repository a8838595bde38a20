"""The four jobs, by docs/formats/jobs.md. What the values of a key become is computed from all of them at once."""

import re
from collections import defaultdict

from .scripts import number_of

MOST_COUNT = 2**64 - 1


def words_of(text):
    """The words of a text, in order."""
    return re.findall(rb"[A-Za-z0-9]+", text)


class Count:
    """How often each word occurs."""

    def accepts(self, record):
        return True

    def pairs(self, record):
        return [(word, 1) for word in words_of(record)]

    def reduced(self, values):
        return min(sum(values), MOST_COUNT)

    def lines(self, key, value):
        return b"%b\t%d\n" % (key, value)


class Index:
    """In which documents each word occurs."""

    def accepts(self, record):
        document, tab, _ = record.partition(b"\t")
        return tab != b"" and number_of(document) is not None

    def pairs(self, record):
        document, _, text = record.partition(b"\t")
        return [(word, [int(document)]) for word in words_of(text)]

    def reduced(self, values):
        return sorted(set().union(*values))

    def lines(self, key, value):
        return b"%b\t%b\n" % (key, b",".join(b"%d" % document for document in value))


class Latest:
    """The value of each key that came last."""

    def accepts(self, record):
        key, tab, _ = record.partition(b"\t")
        return key != b"" and tab != b""

    def pairs(self, record):
        key, _, value = record.partition(b"\t")
        return [(key, value)]

    def reduced(self, values):
        return values[-1]

    def lines(self, key, value):
        return b"%b\t%b\n" % (key, value)


class TopK:
    """The first k members of each group."""

    def __init__(self, k):
        self.k = k

    def accepts(self, record):
        fields = record.split(b"\t", 2)
        return len(fields) == 3 and fields[0] != b"" and number_of(fields[1]) is not None

    def pairs(self, record):
        group, score, item = record.split(b"\t", 2)
        return [(group, [(int(score), item)])]

    def reduced(self, values):
        members = [member for value in values for member in value]
        return sorted(members, key=lambda member: (-member[0], member[1]))[: self.k]

    def lines(self, key, value):
        return b"".join(b"%b\t%d\t%b\n" % (key, score, item) for score, item in value)


def job_of(name, k):
    """The job of a name."""
    return TopK(k) if name == "topk" else {"count": Count, "index": Index, "latest": Latest}[name]()


def table_of(job, records):
    """Each key, in byte order, with what its values become; these are in the order of their records."""
    values = defaultdict(list)
    for record in records:
        for key, value in job.pairs(record):
            values[key].append(value)
    return {key: job.reduced(values[key]) for key in sorted(values)}


def answer_of(job, number, records):
    """What run `number` writes over these records."""
    table = table_of(job, records)
    return b"# run %d keys %d\n" % (number, len(table)) + b"".join(job.lines(*entry) for entry in table.items())
