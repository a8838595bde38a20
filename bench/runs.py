#!/usr/bin/env python3
"""Times the runs of full circles with 1, 2 and 4 workers, and measures the program's memory over 1,000 runs.

    bench/runs.py [--seed SEED] [--times TIMES] [--runs RUNS] [--keep FILE] [--program PATH]

The circles have 24, 168 and 1,024 buckets of 2,000 records, and the keys 4 parts. Each circle is filled before its
first run, and each later run has one bucket more. Each setting is tried TIMES times, and the least time of each run
counts. The memory is that of a circle of 24 buckets with --keep 1, beside the text and the tables of its window.
bench/README.md says what the columns are, and what they do not show. It needs Linux.
"""

import argparse
import os
import sys

from buckets import Draws
from keeping import add_keep, keeping
from stepping import Coprocess, bucket, circle, find_program, least_of, program_words

PARTS = 4
LATER = 12


def rotating(places):
    return ["--tree", "rotating", "--buckets", str(places)]


def show_times(program, seed, times):
    """A row for each circle and each number of workers."""
    titles = ["first_s", "later_ms", "of first", "of 24", "of 1", "processor_ms"]
    print(f"{'buckets':>8} {'workers':>8}" + "".join(f"{title:>13}" for title in titles))
    smallest = {}
    for places in [24, 168, 1024]:
        blocks = circle(Draws(seed), places, LATER)
        settings = [(n, [program] + program_words(rotating(places), PARTS, n)) for n in [1, 2, 4]]
        least = least_of(times, settings, blocks)
        for workers, played in least.items():
            wall, first = played.later_wall(), played.walls[0]
            of_24 = wall / smallest.setdefault(workers, wall)
            of_1 = wall / least[1].later_wall()
            columns = [first, wall * 1e3, wall / first, of_24, of_1, played.later() * 1e3]
            print(f"{places:>8} {workers:>8}" + "".join(f"{column:>13.3f}" for column in columns))
        sys.stdout.flush()


def window_size(texts):
    """The bytes of the text of a circle's buckets, which stand at their places, and of the tables of its tree: of each
    bucket and of each merge the bytes that are hashed of its table, 24 and the word for each word."""
    level = [set(text.split()) for text in texts]
    size = sum(len(text) for text in texts) + sum(map(table_size, level))
    while len(level) > 1:
        pairs = [level[at : at + 2] for at in range(0, len(level), 2)]
        level = [set().union(*pair) for pair in pairs]
        size += sum(table_size(table) for table, pair in zip(level, pairs) if len(pair) == 2)
    return size


def table_size(words):
    return sum(24 + len(word) for word in words)


def show_memory(program, seed, runs, places=24):
    """What the program holds at some runs of a circle, to which each run brings a bucket."""
    draws, texts = Draws(seed), [""] * places
    timed = Coprocess([program] + program_words(rotating(places), 1, 1) + ["--keep", "1"])
    shown = [number for number in [50, 100, 300, 1000, 3000, 10000] if number < runs] + [runs]
    print(f"{'run':>8} {'MB':>8} {'of window':>10} {'bytes_a_run':>12}")
    before = None
    for number in range(1, runs + 1):
        command = bucket(draws)
        texts[(number - 1) % places] = command[command.index("\n") + 1 :]
        timed.answer(f"{command}run\n".encode())
        if number in shown:
            held = timed.memory("VmRSS")
            grown = (held - before[1]) / (number - before[0]) if before else 0
            print(f"{number:>8} {held / 1e6:>8.1f} {held / window_size(texts):>10.2f} {grown:>12.0f}")
            sys.stdout.flush()
            before = number, held
    print(f"peak {timed.memory('VmHWM') / 1e6:.1f} MB")
    timed.end()


def main():
    asked = argparse.ArgumentParser(description=__doc__.split("\n", maxsplit=1)[0])
    asked.add_argument("--seed", type=int, default=7)
    asked.add_argument("--times", type=int, default=3)
    asked.add_argument("--runs", type=int, default=1000)
    asked.add_argument("--program")
    add_keep(asked)
    given = asked.parse_args()
    program = find_program(given.program)
    with keeping(given.keep):
        print(f"seed {given.seed}, least of {given.times}, {PARTS} parts, {os.cpu_count()} processors")
        show_times(program, given.seed, given.times)
        show_memory(program, given.seed, given.runs)


if __name__ == "__main__":
    main()
