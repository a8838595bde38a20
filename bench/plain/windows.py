"""The windows of the four trees, and what they refuse, by docs/guide/windows.md and docs/guide/documents.md."""

from .scripts import MOST_TEXT, Fault, text_size

MOST_BUCKETS = 65536
MOST_FILES = 65536
# The commands of each window besides run.
COMMANDS = {
    "coalescing": {b"bucket"},
    "rotating": {b"bucket", b"late"},
    "folding": {b"bucket", b"late", b"drop"},
    "random": {b"file", b"remove", b"edit", b"load"},
}


class Buckets:
    """Buckets in the order in which they came: at most `places` in a circle, or else up to the limit."""

    def __init__(self, places=None):
        self.places, self.buckets, self.size = places, [], 0

    def records(self):
        """The records of the window, in order."""
        return [record for bucket in self.buckets for record in bucket]

    def asks_too_many(self, command):
        """Whether a command asks for more than there is or may be."""
        if command.word == b"bucket":
            return self.places is None and len(self.buckets) >= MOST_BUCKETS
        if command.word == b"drop":
            return command.fields[0] > len(self.buckets)
        return command.fields[0] >= len(self.buckets)

    def apply(self, command):
        """Changes the window as a command says."""
        gone = 0
        if command.word == b"bucket":
            gone = 1 if len(self.buckets) == self.places else 0
            self.buckets.append(command.records)
        elif command.word == b"drop":
            gone = command.fields[0]
        else:
            place = command.fields[0]
            self.buckets[place] = self.buckets[place] + command.records
        self.size += text_size(command.records) - sum(text_size(bucket) for bucket in self.buckets[:gone])
        del self.buckets[:gone]


class Document:
    """Files by their names, and the name of the current one. A file without records is no file."""

    def __init__(self):
        self.files, self.current, self.size = {}, b"", 0

    def records(self):
        """The records of the window, in order."""
        return [record for name in sorted(self.files) for record in self.files[name]]

    def asks_too_many(self, command):
        """Whether a command asks for more than there is or may be."""
        if command.word not in (b"edit", b"load"):
            return False
        file = self.files.get(self.current, [])
        is_past_end = command.word == b"edit" and command.fields[0] + command.fields[1] > len(file)
        is_new = not file and len(command.records) > 0
        return is_past_end or (is_new and len(self.files) >= MOST_FILES)

    def apply(self, command):
        """Changes the window as a command says."""
        if command.word == b"file":
            self.current = command.fields[0]
        elif command.word == b"remove":
            self.put(command.fields[0], [])
        elif command.word == b"load":
            self.put(self.current, command.records)
        else:
            at, gone, _ = command.fields
            file = self.files.get(self.current, [])
            self.put(self.current, file[:at] + command.records + file[at + gone :])

    def put(self, name, records):
        """Makes the file of a name have these records."""
        self.size += text_size(records) - text_size(self.files.pop(name, []))
        if records:
            self.files[name] = records


def window_of(tree, places):
    """The empty window of a tree."""
    return Document() if tree == "random" else Buckets(places if tree == "rotating" else None)


def carry_out(window, tree, job, command):
    """Has the window carry out a command, or raises why it refuses. A refusal ends the script, so that the window may
    have changed then."""
    if command.word not in COMMANDS[tree]:
        raise Fault(command.line, "nothere")
    if window.asks_too_many(command):
        raise Fault(command.line, "many")
    for place, record in enumerate(command.records):
        if not job.accepts(record):
            raise Fault(command.line + 1 + place, "record")
    window.apply(command)
    if window.size > MOST_TEXT:
        raise Fault(command.line, "window")
