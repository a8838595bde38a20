"""Memory that is refused and devices that fail, one call after the other.

A small library that is loaded before the C library does it (failing.c), so this needs a C compiler. What the program
must do if a device fails follows from what it does if none fails."""

import errno
import os
import re
import shutil
import struct
import subprocess
from typing import NamedTuple

from plain.program import run_program
from tried.calls import Called, call, differences

# The counts of failing.c, in its order.
MEMORY, BYTES, INPUT, OUTPUT, ERRORS = range(5)
WHOLE = 2**30  # no call moves more bytes than this
ALL = 2**40  # no count gets as far
MOST_TRIES = 64  # so often an interrupted call of a device is tried


class Faults(NamedTuple):
    """Which calls fail: those that one count counts, from one number to another, and with which error; and how many
    bytes a call of a device moves at most."""

    count: int = MEMORY
    first: int = 1
    last: int = 0
    error: int = errno.EIO
    piece: int = WHOLE


class Failing:
    """A program whose memory and devices fail as they are told to."""

    def __init__(self, program, folder):
        self.program = program
        self.library = os.path.join(folder, "failing.so")
        self.counts = os.path.join(folder, "counts")
        self.calls = 0

    def build(self):
        """Builds the library, and returns whether it could."""
        compiler = shutil.which("cc")
        source = os.path.join(os.path.dirname(os.path.abspath(__file__)), "failing.c")
        command = [compiler, "-O1", "-shared", "-fPIC", "-o", self.library, source, "-ldl"]
        return bool(compiler) and subprocess.run(command, stderr=subprocess.DEVNULL, check=False).returncode == 0

    def call(self, row, faults):
        """A call of a row with these faults, and all counts."""
        self.calls += 1
        with open(self.counts, "wb") as file:
            file.write(bytes(40))
        names = ["FAILS", "FIRST", "LAST", "ERROR", "PIECE"]
        environment = dict(os.environ, LD_PRELOAD=self.library, COUNTS=self.counts)
        environment.update((name, str(value)) for name, value in zip(names, faults))
        called = call(self.program, row.arguments, row.script, env=environment)
        with open(self.counts, "rb") as file:
            return called, struct.unpack("=5Q", file.read())

    def check(self, row, faults, expected):
        """The differences of a call with faults."""
        called, _ = self.call(row, faults)
        return differences(f"{row.name}, with {faults}", called, expected)

    # Memory

    def refuses_each(self, row):
        """Each call for memory is refused, alone and with all after it. The program must end as the row says, or with
        status 6 and a prefix of what the row has, and with no work line of a run whose answer is cut off."""
        whole = Called(row.out, row.err, row.status)
        called, counts = self.call(row, Faults())
        yield from differences(row.name, called, whole)
        for number in range(1, counts[MEMORY] + 1):
            for last in (number, ALL):
                called, _ = self.call(row, Faults(MEMORY, number, last, errno.ENOMEM))
                err = row.err if called.out == row.out else work_after(row, len(called.out))
                is_prefix = row.out.startswith(called.out) and err.startswith(called.err)
                if called != whole and not (called.status == 6 and is_prefix):
                    yield f"{row.name}: without memory from call {number} to {last}: {called}"

    def asks_alike(self, rows):
        """All rows must ask for the same memory."""
        asked = [self.call(row, Faults())[1][: BYTES + 1] for row in rows]
        if len(set(asked)) > 1:
            yield f"{[row.name for row in rows]}: calls for memory and their bytes are {asked}"

    # Devices

    def fails_each(self, row):
        """Each call of each device fails, while a call moves one byte."""
        whole = Called(row.out, row.err, row.status)
        called, counts = self.call(row, Faults(piece=1))
        yield from differences(f"{row.name}, in pieces of 1 byte", called, whole)
        for piece in (2, 3, 7):
            yield from self.check(row, Faults(piece=piece), whole)
        for device, after in ((INPUT, after_reading), (OUTPUT, after_writing), (ERRORS, after_saying)):
            for number in range(1, counts[device] + 1):
                yield from self.check(row, Faults(device, number, number, piece=1), after(row, number - 1))
            if counts[device]:
                yield from self.check(row, Faults(device, 1, MOST_TRIES - 1, errno.EINTR), whole)
                yield from self.check(row, Faults(device, 1, MOST_TRIES, errno.EINTR), after(row, 0))


def after_reading(row, taken):
    """What a call does if so many bytes can be read: it answers the runs among the whole lines of these."""
    lines = row.script[: row.script.rfind(b"\n", 0, taken) + 1]
    ended = run_program(row.arguments, lines)
    return Called(ended.out, first_lines(row.err, ended.runs), 4)


def after_writing(row, written):
    """What a call does if so many bytes, and not all, can be written to standard output."""
    return Called(row.out[:written], work_after(row, written), 5)


def work_after(row, written):
    """The work lines of the runs before the one whose answer is cut off after so many bytes."""
    begun = sum(header.start() <= written for header in re.finditer(rb"^# run ", row.out, re.M))
    return first_lines(row.err, max(0, begun - 1))


def after_saying(row, said):
    """What a call does if a call of standard error fails after so many bytes: the rest of that line is missing."""
    end = row.err.find(b"\n", said) + 1
    return Called(row.out, row.err[:said] + row.err[end:], row.status)


def first_lines(text, count):
    return b"".join(text.splitlines(True)[:count])
