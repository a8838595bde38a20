#!/usr/bin/env python3
"""Counts what a later run maps and merges, by the size of the change before it, and the same from nothing.

    bench/changes.py [--seed SEED] [--keep FILE] [--program PATH]

A window of 20,480 records of eight words each is answered, changed and answered again. From nothing it is answered
after the change alone. Both answers are compared. One worker counts the same at each call, on a busy machine too.
bench/README.md says which changes are made, and what the columns are.
"""

import argparse
import subprocess

from buckets import Draws
from keeping import add_keep, keeping
from stepping import bucket, find_program, give_up, lines, program_words

BUCKETS, EACH = 1024, 20
CIRCLE, DOCUMENT = ["--tree", "rotating", "--buckets", str(BUCKETS)], ["--tree", "random"]


def full_circle(draws):
    return "".join(bucket(draws, EACH) for _ in range(BUCKETS))


def document(draws):
    return f"load {BUCKETS * EACH}\n{lines(draws, BUCKETS * EACH)}"


def places(draws, count, below):
    """The given number of distinct places."""
    left = list(range(below))
    for at in range(count):
        other = at + draws.draw(below - at)
        left[at], left[other] = left[other], left[at]
    return left[:count]


def slides(draws, size):
    """Buckets come, and as many go."""
    return "".join(bucket(draws, EACH) for _ in range(size // EACH))


def late(draws, size):
    """Records come late, each to another bucket."""
    return "".join(f"late {at} 1\n{lines(draws, 1)}" for at in places(draws, size, BUCKETS))


def edits(draws, size):
    """Records of a document are replaced, each at another place."""
    return "".join(f"edit {at} 1 1\n{lines(draws, 1)}" for at in places(draws, size, BUCKETS * EACH))


# Each change: its tree, its window, its commands, and how many records it brings.
POWERS = [2**n for n in range(11)]
CHANGES = [
    (CIRCLE, full_circle, slides, [EACH * power for power in POWERS]),
    (CIRCLE, full_circle, late, POWERS),
    (DOCUMENT, document, edits, POWERS + [2048, 4096]),
]


def last_run(program, tree, script):
    """The answer of the last run of a script, without its number, and what it maps, merges and joins."""
    words = [program] + program_words(tree, 1, 1) + ["--work"]
    done = subprocess.run(words, input=script.encode(), stdout=subprocess.PIPE, stderr=subprocess.PIPE, check=False)
    if done.returncode != 0:
        give_up(f"{' '.join(words)} ended with status {done.returncode}")
    answer = done.stdout[done.stdout.rindex(b"# run ") :].split(b" ", 3)[3]
    work = done.stderr.decode().splitlines()[-1].split()
    return answer, [int(number) for number in work[3::2]]


def show(program, seed):
    print(f"seed {seed}")
    columns = ["records", "maps", "merges", "joins", "all_maps", "all_merges", "all_joins", "of_all"]
    print(f"{'change':<8}" + "".join(f"{column:>11}" for column in columns))
    for tree, window, change, sizes in CHANGES:
        draws = Draws(seed)
        before = window(draws)
        for size in sizes:
            after = change(draws, size)
            answer, work = last_run(program, tree, f"{before}run\n{after}run\n")
            plain, all_work = last_run(program, tree, f"{before}{after}run\n")
            if answer != plain:
                give_up(f"{change.__name__}: a change of {size} records is answered otherwise than from nothing")
            numbers = "".join(f"{number:>11}" for number in [size] + work + all_work)
            print(f"{change.__name__:<8}{numbers}{sum(work[:2]) / sum(all_work[:2]):>11.4f}", flush=True)


def main():
    asked = argparse.ArgumentParser(description=__doc__.split("\n", maxsplit=1)[0])
    asked.add_argument("--seed", type=int, default=7)
    asked.add_argument("--program")
    add_keep(asked)
    given = asked.parse_args()
    program = find_program(given.program)
    with keeping(given.keep):
        show(program, given.seed)


if __name__ == "__main__":
    main()
