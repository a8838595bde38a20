"""What the program does, by docs/formats/scripts.md, with ample memory and devices that do not fail."""

import hashlib
from typing import NamedTuple

from .arguments import Usage, plan_of
from .generated import generated
from .jobs import answer_of, job_of
from .scripts import Fault, commands
from .windows import carry_out, window_of


class Ended(NamedTuple):
    """How a call ends: what it writes to standard output, the last line on standard error unless that is a work line,
    the status, and how many runs it answers. With --work there is a work line for each of these."""

    out: bytes
    last: bytes
    status: int
    runs: int


def serve(plan, script):
    """The answers of the runs of a script, and the fault that ends it or None."""
    job, window = job_of(plan["job"], plan["k"]), window_of(plan["tree"], plan["buckets"])
    answers = []
    try:
        for command in commands(script):
            if command.word == b"run":
                answers.append(answer_of(job, len(answers) + 1, window.records()))
            else:
                carry_out(window, plan["tree"], job, command)
    except Fault as fault:
        return answers, fault
    return answers, None


def run_program(arguments, script):
    """How a call with these arguments, each as bytes, ends over this script."""
    try:
        plan = plan_of(arguments)
    except Usage as usage:
        return Ended(b"", f"usage {usage.word}\n".encode(), 2, 0)
    if plan["gen"] is not None:
        answers, _ = serve(plan, generated(plan["job"], plan["tree"], plan["gen"]))
        out = b"".join(answers)
        summary = f"runs {len(answers)} bytes {len(out)} sha256 {hashlib.sha256(out).hexdigest()}\n"
        return Ended(summary.encode(), b"", 0, len(answers))
    answers, fault = serve(plan, script)
    if fault:
        return Ended(b"".join(answers), f"fault {fault.line} {fault.word}\n".encode(), 3, len(answers))
    return Ended(b"".join(answers), b"", 0, len(answers))
