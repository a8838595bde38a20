"""Where a file is cut into chunks, by docs/formats/chunks.md. Each list is cut from nothing."""

from functools import lru_cache

WINDOW = 16  # bytes in which a marker is recognized
MULTIPLIER = 16777619
MODULUS = 4096  # it divides 2^32, so that hashes can be computed modulo it
MARK = 4095
LEAST_SIZE = 512  # of the text of a chunk that ends at a marker
MOST_SIZE = 65536


@lru_cache(maxsize=100000)
def is_marker(record):
    """Whether a window of the record's text, or the whole text if it is shorter, has the hash of a marker."""
    text = record + b"\n"
    leaving = pow(MULTIPLIER, WINDOW, MODULUS)
    value = 0
    for at, byte in enumerate(text):
        value = value * MULTIPLIER + byte
        if at >= WINDOW:
            value -= text[at - WINDOW] * leaving
        value %= MODULUS
        if value == MARK and at >= min(WINDOW, len(text)) - 1:
            return True
    return False


def first_chunk(records):
    """How many records the first chunk has."""
    size = 0
    for place, record in enumerate(records):
        size += len(record) + 1
        is_last = place + 1 == len(records)
        if is_last or size + len(records[place + 1]) + 1 > MOST_SIZE or (size >= LEAST_SIZE and is_marker(record)):
            return place + 1
    return 0


def chunks_of(records):
    """The chunks of a list of records, each a list of records."""
    chunks = []
    while records:
        count = first_chunk(records)
        chunks.append(records[:count])
        records = records[count:]
    return chunks


def ends_of(chunks):
    """How many records the first 0, 1, 2 .. chunks have."""
    ends = [0]
    for chunk in chunks:
        ends.append(ends[-1] + len(chunk))
    return ends


def change_of_edit(old, new, at, gone, came):
    """Which chunks change if `gone` records from `at` on become `came` others: how many chunks come before, how many
    old ones go, and how many new ones take their place."""
    old_ends, new_ends = ends_of(old), ends_of(new)
    first = max((place for place, end in enumerate(old_ends) if end < at), default=0)
    for last, end in enumerate(old_ends):
        new_end = end - gone + came
        # If both have a chunk that ends here, after the edit, both cut the same records from here on.
        if last >= first and end >= at + gone and new_end in new_ends:
            return first, last - first, new_ends.index(new_end) - first
    raise AssertionError("the last chunks end together, if no others do")
