"""What the runs of a script cost."""

from ..generated import generated
from ..jobs import job_of
from ..scripts import Fault, commands
from ..windows import carry_out, window_of
from .engine import Engine
from .slides import BucketWatch
from .splices import DocumentWatch


def costs_of(plan, script):
    """The cost of each run before the first fault of a script, which is generated if the arguments ask for that."""
    if plan["gen"] is not None:
        script = generated(plan["job"], plan["tree"], plan["gen"])
    job, window = job_of(plan["job"], plan["k"]), window_of(plan["tree"], plan["buckets"])
    watch = DocumentWatch(window) if plan["tree"] == "random" else BucketWatch(window)
    engine, costs = Engine(plan, job), []
    try:
        for command in commands(script):
            if command.word == b"run":
                costs.append(engine.run(watch.leaves(), watch.change()))
            else:
                carry_out(window, plan["tree"], job, command)
                watch.follow(command)
    except Fault:
        pass
    return costs


def work_line(run, work):
    """The line on standard error for the work of a run."""
    return b"work %d maps %d merges %d joins %d\n" % (run, *work)


def work_lines(plan, script):
    """The work lines of a script with one worker."""
    return b"".join(work_line(run, cost.exact) for run, cost in enumerate(costs_of(plan, script), 1))
