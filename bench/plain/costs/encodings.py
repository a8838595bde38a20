"""The bytes of a value, by docs/formats/jobs.md, and of a table, by docs/formats/digests.md."""

from ..jobs import Count, Index, Latest, TopK


def four_bytes(number):
    """A number, its highest byte first."""
    return number.to_bytes(4, "big")


def with_length(some):
    """Some bytes after their length in 8 bytes."""
    return len(some).to_bytes(8, "big") + some


ENCODINGS = {
    Count: lambda value: value.to_bytes(8, "big"),
    Index: lambda value: b"".join(map(four_bytes, value)),
    Latest: lambda value: value,
    TopK: lambda value: b"".join(four_bytes(score) + four_bytes(len(item)) + item for score, item in value),
}


def bytes_of_table(job, table):
    """The encoding of a table. Different tables of a job have different ones."""
    encode = ENCODINGS[type(job)]
    return b"".join(with_length(key) + with_length(encode(value)) for key, value in table.items())
