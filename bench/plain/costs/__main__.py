"""Says on standard error what the runs of the script on standard input cost with one worker:

    python3 bench/plain/costs --job count --tree coalescing < script
"""

import os
import sys

sys.path[0] = os.path.dirname(os.path.dirname(os.path.dirname(os.path.abspath(__file__))))

from plain.arguments import Usage, plan_of  # noqa: E402  (the line above finds the package)
from plain.costs.script import work_lines  # noqa: E402

try:
    plan = plan_of([os.fsencode(argument) for argument in sys.argv[1:]])
except Usage as usage:
    sys.exit(f"usage {usage.word}")
script = sys.stdin.buffer.read() if plan["gen"] is None else b""
sys.stderr.buffer.write(work_lines(plan, script))
