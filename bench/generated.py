#!/usr/bin/env python3
"""Times the program on a generated script for each job and tree.

    bench/generated.py [--seed SEED] [--times TIMES]

Each row is the least of TIMES calls. The script is made in memory and its answers are not written, so a row is the time
of making it, of reading it twice and of its 40 runs. bench/README.md says what the columns are.
"""

import argparse
import os
import subprocess
import sys
import time

TOP = os.path.dirname(os.path.dirname(os.path.abspath(__file__)))
PROGRAM = os.path.join(TOP, "crates", "slider_main", "out", "slider_main")
TREES = ["rotating", "folding", "coalescing", "random"]
ROWS = [(job, tree) for job in ["count", "index", "topk", "latest"] for tree in TREES if (job, tree) != ("latest", "rotating")]


def seconds(words):
    """The time of one call, and the line that it wrote."""
    start = time.perf_counter()
    done = subprocess.run([PROGRAM] + words, stdin=subprocess.DEVNULL, stdout=subprocess.PIPE, check=False)
    spent = time.perf_counter() - start
    if done.returncode != 0:
        sys.exit(f"generated.py: {' '.join(words)} ended with status {done.returncode}")
    return spent, done.stdout.decode()


def main():
    asked = argparse.ArgumentParser(description=__doc__.split("\n", maxsplit=1)[0])
    asked.add_argument("--seed", type=int, default=7)
    asked.add_argument("--times", type=int, default=1)
    given = asked.parse_args()
    if not os.access(PROGRAM, os.X_OK):
        sys.exit("generated.py: the program is not built yet; run ./slider --job count --tree coalescing </dev/null first")
    print(f"seed {given.seed}, least of {given.times}")
    print(f"{'job':>8} {'tree':>11} {'s':>7} {'ms_a_run':>9} {'ratio':>6} {'MB':>7}")
    first = None
    lines = {}
    for job, tree in ROWS:
        words = ["--job", job, "--tree", tree, "--gen", str(given.seed)]
        tries = [seconds(words) for _ in range(given.times)]
        lines[job, tree] = tries[0][1]
        runs, written = int(tries[0][1].split()[1]), int(tries[0][1].split()[3])
        least = min(spent for spent, _ in tries)
        first = first or least
        print(f"{job:>8} {tree:>11} {least:>7.2f} {least * 1e3 / runs:>9.1f} {least / first:>6.2f} {written / 1e6:>7.2f}")
    for job in ["count", "index", "topk"]:
        if lines[job, "rotating"] != lines[job, "folding"]:
            sys.exit(f"generated.py: {job} over the trees rotating and folding is summed up differently")


if __name__ == "__main__":
    main()
