#!/usr/bin/env python3
"""Times a later run of the program, in step, compared with plain programs that count the same words.

    bench/step.py [--seed SEED] [--times TIMES] [--only NAME].. [--keep FILE] [--program PATH] [--profile]

The scripts are the generated ones of the four trees, a day of logs in minutes, circles of 24, 168 and 1,024 buckets of
2,000 records, and a document of 400,000 records that is edited. The peers are in bench/peers, and are built here if
there is a C compiler. Every answer is compared with the program's. Each script is tried TIMES times, and the least time
of each run counts; the programs take turns, so that a busy machine slows all. With --only a part of the scripts is
played; with --program another program is timed, as one that was built before. --profile adds where the time of a later
run goes, if perf is installed. bench/README.md says what is printed, and what it does not show. It needs Linux.
"""

import argparse
import os
import shutil
import signal
import subprocess
import tempfile
import time

from buckets import Draws
from keeping import add_keep, keeping
from stepping import Coprocess, bucket, circle, find_program, least_of, lines, program_words, runs_of

PEERS = os.path.join(os.path.dirname(os.path.abspath(__file__)), "peers")
GENERATED = ["folding", "rotating", "coalescing", "random"]
BESIDE = {"recompute": [], "counting": [], "segments": [], "segments-sha": ["--sha"]}


def buckets_of(seed, drops):
    """The generated script of a tree of buckets, whose oldest one is dropped from the 25th round on, or never."""
    draws = Draws(seed)
    return runs_of([("drop 1\n" if drops and number > 24 else "") + bucket(draws) for number in range(1, 41)])


def document(seed, count):
    """The generated script of the tree of documents, with the given number of records."""
    draws = Draws(seed)
    commands = [f"load {count}\n{lines(draws, count)}"]
    for _ in range(39):
        at = draws.draw(count - 19)
        commands.append(f"edit {at} 20 20\n{lines(draws, 20)}")
    return runs_of(commands)


def minutes(seed):
    """A day of logs in 1,440 buckets of 100 to 299 requests, each with a host, a method, a path and a status."""
    draws = Draws(seed)
    methods, codes = ["GET", "GET", "GET", "HEAD", "POST"], [200, 200, 200, 304, 404, 500]
    commands = []
    for _ in range(1440):
        count = 100 + draws.draw(200)
        requests = [
            f"host{draws.draw(400)} {methods[draws.draw(5)]} /page/{draws.draw(3000)}.html {codes[draws.draw(6)]}\n"
            for _ in range(count)
        ]
        commands.append(f"bucket {count}\n{''.join(requests)}")
    return runs_of(commands)


def of_circle(places, later):
    return (["--tree", "rotating", "--buckets", str(places)], lambda seed: circle(Draws(seed), places, later))


# Each script: the options of its tree, and its blocks by the seed.
SCRIPTS = {
    "folding": (["--tree", "folding"], lambda seed: buckets_of(seed, True)),
    "rotating": (["--tree", "rotating", "--buckets", "24"], lambda seed: buckets_of(seed, False)),
    "coalescing": (["--tree", "coalescing"], lambda seed: buckets_of(seed, False)),
    "random": (["--tree", "random"], lambda seed: document(seed, 40_000)),
    "minutes": (["--tree", "rotating", "--buckets", "60"], minutes),
    "circle-24": of_circle(24, 24),
    "circle-168": of_circle(168, 24),
    "circle-1024": of_circle(1024, 12),
    "document": (["--tree", "random"], lambda seed: document(seed, 400_000)),
}


def build_peers(folder):
    """The command of each peer; none without a C compiler."""
    compiler = shutil.which("cc")
    if not compiler:
        print("there is no C compiler here, so the peers are left out")
        return {}
    for name in ["recompute", "counting", "segments"]:
        subprocess.run([compiler, "-O2", "-o", f"{folder}/{name}", f"{PEERS}/{name}.c"], check=True)
    return {name: [f"{folder}/{name.split('-')[0]}"] + words for name, words in BESIDE.items()}


def show(script, best):
    """A row for each program."""
    one = best["slider"]
    for name, played in best.items():
        of_time, of_wall = one.later() / played.later(), one.later_wall() / played.later_wall()
        taken = f"{played.later() * 1e3:>13.2f}{played.later_wall() * 1e3:>10.2f}{played.peak / 1e6:>9.1f}"
        print(f"{script:<12} {name:<13}{taken}{of_time:>10.3f}{of_wall:>10.3f}{one.peak / played.peak:>9.2f}", flush=True)


def aims(all_best):
    """Each aim with its number, and what was measured."""
    generated = [all_best[name] for name in GENERATED if name in all_best]
    has_peers = all("recompute" in best for best in all_best.values())
    if generated and has_peers:
        worst = max(best["slider"].later() / best["segments-sha"].later() for best in generated)
        yield "generated scripts, time beside the segment tree with SHA-256, at most 0.7", worst
        yield "generated scripts, times below the recompute, at least 3", min(map(times_below, generated))
    if "circle-1024" in all_best and has_peers:
        yield "1,024 buckets, times below the recompute, at least 40", times_below(all_best["circle-1024"])
    if "random" in all_best and "document" in all_best:
        ratio = all_best["document"]["slider"].later() / all_best["random"]["slider"].later()
        yield "an edit of 400,000 records beside one of 40,000, at most 3", ratio
    if generated:
        worst = max(best["slider-4"].later_wall() / best["slider"].later_wall() for best in generated)
        yield "generated scripts, wall time with 4 parts and 4 workers beside 1 and 1, at most 0.5", worst
    if all_best and has_peers:
        most = max(best["slider"].peak / best["segments"].peak for best in all_best.values())
        yield "all scripts, peak of memory beside the segment tree's, at most 4", most


def times_below(best):
    return best["recompute"].later() / best["slider"].later()


def profile(program, seed):
    """Shows where the time of the later runs of the generated script of the rotating tree goes."""
    perf = shutil.which("perf")
    if not perf:
        print("profile: left out, there is no perf here")
        return
    tree, blocks_of = SCRIPTS["rotating"]
    blocks = blocks_of(seed)
    with tempfile.TemporaryDirectory() as folder:
        kept = os.path.join(folder, "perf.data")
        timed = Coprocess([program] + program_words(tree, 1, 1))
        timed.answer(blocks[0])
        watch = [perf, "record", "-q", "-F", "4000", "-o", kept, "-p", str(timed.child.pid)]
        with subprocess.Popen(watch, stdout=subprocess.DEVNULL, stderr=subprocess.PIPE) as watching:
            time.sleep(1)
            for block in blocks[1:]:
                timed.answer(block)
            watching.send_signal(signal.SIGINT)
            said = watching.stderr.read().decode(errors="replace")
        timed.end()
        report = [perf, "report", "-i", kept, "--stdio", "--no-children", "--percent-limit", "0.5", "--sort", "symbol"]
        done = subprocess.run(report, stdout=subprocess.PIPE, stderr=subprocess.DEVNULL, check=False)
    report = done.stdout.decode(errors="replace").splitlines()
    shown = [line.rstrip(" -") for line in report if line.strip() and not line.startswith("#")]
    if not shown:
        print(f"profile: left out, perf has nothing to say here: {said.strip()}")
        return
    print("profile: shares of the time of the later runs of the script rotating")
    print("\n".join(shown))


def play_all(program, seed, times, names):
    """Plays these scripts, and shows what each took."""
    print(f"seed {seed}, least of {times}, {os.cpu_count()} processors")
    all_best = {}
    with tempfile.TemporaryDirectory() as folder:
        peers = build_peers(folder)
        titles = f"{'processor_ms':>13}{'wall_ms':>10}{'peak_MB':>9}{'of_time':>10}{'of_wall':>10}{'of_peak':>9}"
        print(f"{'script':<12} {'program':<13}{titles}")
        for name in names:
            tree, blocks_of = SCRIPTS[name]
            programs = [(f"slider{end}", [program] + program_words(tree, n, n)) for end, n in [("", 1), ("-4", 4)]]
            programs += [(peer, words + tree) for peer, words in peers.items()]
            all_best[name] = least_of(times, programs, blocks_of(seed))
            show(name, all_best[name])
    for what, measured in aims(all_best):
        print(f"aim: {what}: {measured:.2f}")


def main():
    asked = argparse.ArgumentParser(description=__doc__.split("\n", maxsplit=1)[0])
    asked.add_argument("--seed", type=int, default=7)
    asked.add_argument("--times", type=int, default=3)
    asked.add_argument("--only", action="append", choices=list(SCRIPTS))
    asked.add_argument("--program")
    asked.add_argument("--profile", action="store_true")
    add_keep(asked)
    given = asked.parse_args()
    program = find_program(given.program)
    with keeping(given.keep):
        play_all(program, given.seed, given.times, given.only or SCRIPTS)
        if given.profile:
            profile(program, given.seed)


if __name__ == "__main__":
    main()
