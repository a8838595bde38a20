"""Scripts: their lines, their commands and the faults of form, by docs/formats/scripts.md."""

from typing import List, NamedTuple, Optional

MOST_RECORD = 65535
MOST_NUMBER = 4294967295
MOST_NAME = 255
MOST_TEXT = 268435456
MOST_SCRIPT = 4294967296

# The fields after each command word.
FIELDS = {
    b"bucket": ["number"],
    b"drop": ["number"],
    b"late": ["number", "number"],
    b"file": ["name"],
    b"remove": ["name"],
    b"edit": ["number", "number", "number"],
    b"load": ["number"],
    b"run": [],
}
# After the line of each of these there are as many record lines as its last number says.
WITH_RECORDS = {b"bucket", b"late", b"edit", b"load"}


class Fault(Exception):
    """What ends a script: the number of a line, and why."""

    def __init__(self, line, word):
        super().__init__(line, word)
        self.line, self.word = line, word


class Command(NamedTuple):
    """A command that was read whole."""

    line: int
    word: bytes
    fields: list
    records: List[bytes]


def number_of(text: bytes) -> Optional[int]:
    """The number that these bytes are, or None."""
    has_form = 1 <= len(text) <= 10 and all(48 <= byte <= 57 for byte in text) and (text[0] != 48 or text == b"0")
    return int(text) if has_form and int(text) <= MOST_NUMBER else None


def text_size(records):
    """The bytes of the text of records, each with one LF."""
    return sum(len(record) + 1 for record in records)


class Lines:
    """The lines of a script, of which the first `most` bytes count. `number` is that of the line read last."""

    def __init__(self, script, most):
        self.bytes, self.is_cut = script[:most], len(script) >= most
        self.at, self.number = 0, 0

    def next(self):
        """The next line, or None at the end."""
        self.number += 1
        end = self.bytes.find(b"\n", self.at)
        line = self.bytes[self.at : end] if end >= 0 else self.bytes[self.at :]
        if len(line) > MOST_RECORD:
            raise Fault(self.number, "long")
        if end < 0 and self.is_cut:
            raise Fault(self.number, "script")
        if end < 0 and not line:
            return None
        self.at = end + 1 if end >= 0 else len(self.bytes)
        return line


def fields_of(line_number, word, fields):
    """The fields of a command line, as numbers and names."""
    kinds = FIELDS.get(word)
    if kinds is None or len(fields) != len(kinds):
        raise Fault(line_number, "unknown")
    read = [number_of(field) if kind == "number" else field for kind, field in zip(kinds, fields)]
    if None in read:
        raise Fault(line_number, "number")
    if any(kind == "name" and len(field) > MOST_NAME for kind, field in zip(kinds, fields)):
        raise Fault(line_number, "name")
    return read


def records_of(lines, count):
    """So many record lines after the command line that was read last."""
    line_number, records, size = lines.number, [], 0
    while len(records) < count:
        record = lines.next()
        if record is None:
            raise Fault(line_number, "short")
        records.append(record)
        size += len(record) + 1
        if size > MOST_TEXT:
            raise Fault(line_number, "window")
    return records


def commands(script: bytes, most=MOST_SCRIPT):
    """The commands of a script, one after the other. If a fault of form ends it, it is raised after them."""
    lines = Lines(script, most)
    while True:
        line = lines.next()
        if line is None:
            return
        line_number = lines.number
        word, *rest = line.split(b" ")
        fields = fields_of(line_number, word, rest)
        records = records_of(lines, fields[-1] if word in WITH_RECORDS else 0)
        yield Command(line_number, word, fields, records)
