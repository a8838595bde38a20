"""Calls of the program, and how they differ from what is expected."""

import subprocess
from typing import NamedTuple

SECONDS = 600  # the time limit of a call
SHOWN = 200  # so much of a difference is shown


class Called(NamedTuple):
    """What a call wrote to standard output and to standard error, and its status."""

    out: bytes
    err: bytes
    status: int


def call(program, arguments, script, **options):
    """One call over a script, which comes through a pipe."""
    done = subprocess.run(
        [program] + arguments, input=script, capture_output=True, timeout=SECONDS, check=False, **options
    )
    return Called(done.stdout, done.stderr, done.returncode)


def shortened(value):
    """A value as text, of which the middle is left out if it is long."""
    text = repr(value)
    return text if len(text) <= SHOWN else f"{text[: SHOWN * 3 // 4]} .. {text[-SHOWN // 4 :]}"


def differences(name, called, expected):
    """A line for each part of a call that is not as expected."""
    parts = zip(["standard output", "standard error", "status"], called, expected)
    return [
        f"{name}: {part}: {shortened(was)}, not {shortened(wanted)}" for part, was, wanted in parts if was != wanted
    ]
