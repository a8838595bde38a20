"""Small calls that are made from numbers: arguments and a script, some of them broken. The same number makes the same
call everywhere."""

from plain.arguments import JOBS, TREES
from plain.generated import Draws

# What the value of an option is drawn from.
VALUES = {
    "k": [1, 2, 3, 10, 1000],
    "buckets": [1, 2, 3, 4, 5, 7, 8, 24, 4096],
    "parts": [1, 2, 3, 4, 16],
    "workers": [1, 4],
    "shards": [1, 2, 3, 8],
    "keep": [0, 1, 2, 3, 1000],
}
WORDS = [b"a", b"b", b"c", b"ab", b"A", b"z9", b"0", b"run", b"bucket", b"the"]
BETWEEN = [b" ", b" ", b" ", b"\t", b"-", b"\r", b"\0", b"\xc3\xa9", b"  "]
ODD_RECORDS = [b"", b"run", b"bucket 1", b"\t", b"\t\t", b"a\t-1\tb", b"01\ta", b"4294967296\ta", b"\xff\0\r", b"g\t5"]
NAMES = [b"", b"a", b"b", b"a\r", b"\0", b"\xff", b"b\t", b"n" * 255]
NUMBERS = [0, 1, 2, 5, 7, 9, 10, 4294967295]
NOT_NUMBERS = [b"", b"-1", b"+1", b"01", b"4294967296", b"99999999999", b"1\r", b"x", b"\xd9\xa1"]
LENGTHS = [255, 256, 65528, 65536]
NO_COMMANDS = [b"", b" ", b"\0", b"stop", b"runs"]
ODD_ARGUMENTS = [b"", b"-", b"--", b"x", b"--k=", b"--k=0", b"--parts=17", b"--keep=-1", b"--job", b"--\xff"]
ODD_ARGUMENTS += [b"--work", b"--work=1"]

# What is drawn from for a window: a command comes as often as it is listed.
COMMANDS = {
    "coalescing": ["bucket", "bucket", "bucket", "run", "run"],
    "rotating": ["bucket", "bucket", "bucket", "late", "late", "run", "run", "run"],
    "folding": ["bucket", "bucket", "bucket", "drop", "late", "run", "run"],
    "random": ["file", "file", "load", "load", "edit", "edit", "edit", "edit", "remove", "run", "run", "run"],
}
ALL_COMMANDS = ["bucket", "drop", "late", "file", "remove", "edit", "load", "run"]


class Choices(Draws):
    """Draws that choose."""

    def one_in(self, count):
        """True once in so many draws."""
        return self.draw(count) == 0

    def one_of(self, values):
        return values[self.draw(len(values))]

    def up_to(self, most, past):
        """A number up to the most that there is; sometimes the first past it, or the greatest of all."""
        if self.one_in(64):
            return self.one_of([past, 4294967295])
        return self.draw(most + 1)


class Arguments:
    """The arguments of a call."""

    def __init__(self, choices):
        self.choices = choices
        self.job, self.tree = choices.one_of(JOBS), choices.one_of(TREES)
        if (self.job, self.tree) == ("latest", "rotating") and not choices.one_in(8):
            self.tree = "folding"
        self.values = {name: choices.one_of(values) for name, values in VALUES.items() if choices.one_in(2)}

    def list(self):
        """All options in any order, some of them broken."""
        choices = self.choices
        options = [("job", self.job), ("tree", self.tree)] + list(self.values.items())
        items = [self.item(name, value) for name, value in options] + ([[b"--work"]] if choices.one_in(2) else [])
        if choices.one_in(24):
            items.append([choices.one_of(ODD_ARGUMENTS)])
        if choices.one_in(48):
            items.append(choices.one_of(items))
        if choices.one_in(96):
            items.pop(choices.draw(len(items)))
        listed = []
        while items:
            listed += items.pop(choices.draw(len(items)))
        return listed

    def item(self, name, value):
        """An option in one argument or in two."""
        name, value = f"--{name}".encode(), str(value).encode()
        return [name + b"=" + value] if self.choices.one_in(2) else [name, value]


class Records:
    """Records of a job. Texts come again, so that the memo finds them."""

    def __init__(self, choices, job, is_long):
        self.choices, self.job, self.is_long, self.before = choices, job, is_long, []

    def some(self):
        """A few new records, or some that came before."""
        if self.before and self.choices.one_in(4):
            return self.choices.one_of(self.before)
        records = [self.record() for _ in range(self.choices.draw(24 if self.is_long else 5))]
        self.before.append(records)
        return records

    def record(self):
        one_of = self.choices.one_of
        if self.choices.one_in(96):
            return one_of(ODD_RECORDS)
        text = self.text()
        if self.job == "count":
            return text
        if self.job == "index":
            return b"%d\t%b" % (one_of(NUMBERS), text)
        if self.job == "latest":
            return b"%b\t%b" % (one_of(WORDS), text)
        return b"%b\t%d\t%b" % (one_of(WORDS), one_of(NUMBERS), text)

    def text(self):
        """A few words. With long records they have bytes after them, so that a document has several chunks."""
        choices = self.choices
        text = b"".join(choices.one_of(WORDS) + choices.one_of(BETWEEN) for _ in range(choices.draw(5)))
        if not self.is_long:
            return text
        if choices.one_in(256):
            return text + b"-" * choices.one_of([32767, 40000, 65235])
        return text + b"".join(b"%x" % choices.draw(2**31) for _ in range(choices.draw(24)))


class Script:
    """A script for a window, of which it knows how many buckets and records there are while no command is refused."""

    def __init__(self, choices, arguments):
        self.choices, self.tree = choices, arguments.tree
        self.places = arguments.values.get("buckets", 24) if self.tree == "rotating" else 65536
        self.records = Records(choices, arguments.job, self.tree == "random" and choices.one_in(2))
        self.buckets = 0
        self.current, self.sizes = b"", {}

    def bytes(self):
        """All commands; the end may be cut off."""
        choices = self.choices
        script = b"".join(self.command() for _ in range(choices.one_of([2, 6, 12, 12, 30])))
        script += b"" if choices.one_in(4) else b"run\n"
        if choices.one_in(24):
            script = script[: choices.draw(len(script) + 1)]
        return script[:-1] if choices.one_in(6) else script

    def command(self):
        """The lines of a command, whose first may be broken."""
        name = self.choices.one_of(ALL_COMMANDS if self.choices.one_in(64) else COMMANDS[self.tree])
        line, records = getattr(self, name)()
        if self.choices.one_in(64):
            line = self.broken(line)
        return b"".join(part + b"\n" for part in [line] + records)

    def run(self):
        return b"run", []

    def bucket(self):
        records = self.records.some()
        self.buckets = min(self.buckets + 1, self.places)
        return b"bucket %d" % len(records), records

    def drop(self):
        count = self.choices.up_to(min(self.buckets, 4), self.buckets + 1)
        self.buckets = max(0, self.buckets - count)
        return b"drop %d" % count, []

    def late(self):
        records = self.records.some()
        return b"late %d %d" % (self.choices.up_to(max(0, self.buckets - 1), self.buckets), len(records)), records

    def file(self):
        self.current = self.choices.one_of(NAMES)
        return b"file " + self.current, []

    def remove(self):
        name = self.choices.one_of(NAMES)
        self.sizes.pop(name, None)
        return b"remove " + name, []

    def load(self):
        records = self.records.some()
        self.sizes[self.current] = len(records)
        return b"load %d" % len(records), records

    def edit(self):
        records, size = self.records.some(), self.sizes.get(self.current, 0)
        at = self.choices.up_to(size, size + 1)
        left = max(0, size - at)
        gone = self.choices.up_to(min(left, 3), left + 1)
        self.sizes[self.current] = max(0, size - gone) + len(records)
        return b"edit %d %d %d" % (at, gone, len(records)), records

    def broken(self, line):
        """The line with something wrong."""
        word, *fields = line.split(b" ")
        start = b" ".join([word] + fields[:-1])
        return self.choices.one_of(
            [
                lambda: line.replace(b" ", b"  ", 1) + b" ",
                lambda: line + b"\r",
                line.upper,
                lambda: line.replace(b" ", b"\t"),
                lambda: b" ".join([word] + fields[1:]),
                lambda: line + b" 1",
                lambda: start + b" " + self.choices.one_of(NOT_NUMBERS),
                lambda: start + b" " + b"n" * self.choices.one_of(LENGTHS),
                lambda: self.choices.one_of(NO_COMMANDS),
                lambda: start + b" 4294967295",
            ]
        )()


def made_call(number):
    """The arguments and the script of a number."""
    choices = Choices(number)
    arguments = Arguments(choices)
    return arguments.list(), Script(choices, arguments).bytes()
