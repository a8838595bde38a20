"""Work lines, and how they differ from what runs cost."""

import re

from plain.arguments import plan_of
from plain.costs.script import costs_of, work_line
from plain.costs.work import Work

LINE = re.compile(rb"work (\d+) maps (\d+) merges (\d+) joins (\d+)\n")


def may_be(work, cost, workers):
    """Whether a run may cost this: exactly what is counted with one worker, and with several perhaps more. The promised
    bound is never passed."""
    most = cost.exact if workers == 1 else cost.most
    return cost.exact.is_at_most(work) and work.is_at_most(most) and work.is_at_most(cost.bound)


def work_differences(name, arguments, script, lines):
    """A line for each work line that is not what it must be, and one if there are too few or too many. The arguments
    are accepted, and ask for work lines."""
    plan, found = plan_of(arguments), []
    costs = costs_of(plan, script)
    for run, (line, cost) in enumerate(zip(lines, costs), 1):
        counts = LINE.fullmatch(line)
        counts = [int(count) for count in counts.groups()] if counts else [0]
        if counts[0] != run or not may_be(Work(*counts[1:]), cost, plan["workers"]):
            most = b"" if plan["workers"] == 1 else b" or up to %r" % (cost.most,)
            found.append(f"{name}: {line}, not {work_line(run, cost.exact) + most}")
    if len(lines) != len(costs):
        found.append(f"{name}: {len(lines)} work lines for {len(costs)} runs")
    return found
