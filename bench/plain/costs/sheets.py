"""Tables of partial results, one for each part, by docs/formats/digests.md."""

from functools import lru_cache
from hashlib import sha256

from ..jobs import table_of
from .encodings import bytes_of_table

START = 2166136261
MULTIPLIER = 16777619


class Sheet:
    """A table with its encoding, which tells it from all others; its digest alone never does."""

    def __init__(self, job, table):
        self.table, self.bytes = table, bytes_of_table(job, table)

    def first_byte(self):
        """The first byte of its digest."""
        return sha256(self.bytes).digest()[0]


@lru_cache(maxsize=100000)
def part_of(key, parts):
    """The part that a key belongs to, by its hash."""
    value = START
    for byte in key:
        value = (value ^ byte) * MULTIPLIER % 2**32
    return value % parts


def mapped(job, records, parts):
    """The sheets of a leaf, one for each part."""
    tables = [{} for _ in range(parts)]
    for key, value in table_of(job, records).items():
        tables[part_of(key, parts)][key] = value
    return [Sheet(job, table) for table in tables]


def common_keys(left, right):
    """The keys at which a merge joins two values."""
    return left.table.keys() & right.table.keys()


def merged(job, left, right):
    """The sheet of both tables. At a common key the left value is joined with the right one."""
    both = {**left.table, **right.table}
    for key in common_keys(left, right):
        both[key] = job.reduced([left.table[key], right.table[key]])
    return Sheet(job, {key: both[key] for key in sorted(both)})
