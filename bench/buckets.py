#!/usr/bin/env python3
"""Times the program on one bucket of 200 to 200,000 records of eight words each, compared with sort and uniq.

    bench/buckets.py [--seed SEED] [--times TIMES]

Each size is tried TIMES times, the small ones more often. The least time counts, less the time of an empty script,
which is that of starting the program. The two programs take turns, so that a busy machine slows both.
bench/README.md says what the columns are, and what they do not show.
"""

import argparse
import math
import os
import subprocess
import sys
import time

from plain.generated import Draws, eight_words

TOP = os.path.dirname(os.path.dirname(os.path.abspath(__file__)))
PROGRAM = os.path.join(TOP, "crates", "slider_main", "out", "slider_main")
WORDS = ["--job", "count", "--tree", "coalescing"]
SIZES = [(200, 10), (2_000, 3), (20_000, 1), (200_000, 1)]
PEER = "tr -cs A-Za-z0-9 '\\n' | sort | uniq -c"


def records(draws, count):
    """Records of eight words out of 5,000."""
    for _ in range(count):
        yield eight_words(draws)


def seconds(command, given):
    """The time of one call, and what it wrote."""
    environment = dict(os.environ, LC_ALL="C")
    start = time.perf_counter()
    done = subprocess.run(command, input=given, stdout=subprocess.PIPE, env=environment, check=False)
    spent = time.perf_counter() - start
    if done.returncode != 0:
        sys.exit(f"buckets.py: {command[0]} ended with status {done.returncode}")
    return spent, done.stdout


def counts_of_program(written):
    return {k: int(n) for k, n in (line.split(b"\t") for line in written.split(b"\n")[1:-1])}


def counts_of_peer(written):
    return {w: int(n) for n, w in (line.split() for line in written.split(b"\n")[:-1])}


def least_times(times, program, peer, script, text):
    """The least time of the program and of the peer, which take turns and must agree."""
    best = [math.inf, math.inf]
    for _ in range(times):
        own, written = seconds(program, script)
        other, sorted_words = seconds(peer, text)
        if script and counts_of_program(written) != counts_of_peer(sorted_words):
            sys.exit("buckets.py: the program and the peer count differently")
        best = [min(best[0], own), min(best[1], other)]
    return best


def main():
    asked = argparse.ArgumentParser(description=__doc__.split("\n", maxsplit=1)[0])
    asked.add_argument("--seed", type=int, default=7)
    asked.add_argument("--times", type=int, default=15)
    given = asked.parse_args()
    if not os.access(PROGRAM, os.X_OK):
        sys.exit("buckets.py: the program is not built yet; run ./slider --job count --tree coalescing </dev/null first")
    program, peer = [PROGRAM] + WORDS, ["sh", "-c", PEER]
    start, peer_start = least_times(10 * given.times, program, peer, b"", b"")
    print(f"seed {given.seed}, least of {given.times} and more; start {start * 1e3:.2f} ms, peer's {peer_start * 1e3:.2f} ms")
    print(f"{'records':>8} {'ms':>9} {'us_each':>9} {'n log n':>9} {'peer':>9}")
    first = None
    for size, factor in SIZES:
        text = "".join(f"{r}\n" for r in records(Draws(given.seed), size)).encode()
        script = f"bucket {size}\n".encode() + text + b"run\n"
        own, other = least_times(factor * given.times, program, peer, script, text)
        own, other = own - start, other - peer_start
        if own <= 0 or other <= 0:
            print(f"{size:>8}  less than the start varies")
            continue
        per = own / (size * math.log2(size))
        first = first or per
        print(f"{size:>8} {own * 1e3:>9.2f} {own * 1e6 / size:>9.2f} {per / first:>9.2f} {own / other:>9.2f}")


if __name__ == "__main__":
    main()
