"""Common parts of step.py and runs.py: scripts in blocks, each of which ends with a run, and programs that get them in
step: the whole answer of a run is read before more is written. It needs Linux."""

import os
import subprocess
import sys
import time
from typing import NamedTuple

from buckets import PROGRAM, Draws, records


def lines(draws, count):
    """The given number of records of eight words out of 5,000, as buckets.py draws them."""
    return "".join(f"{record}\n" for record in records(draws, count))


def bucket(draws, count=2000):
    return f"bucket {count}\n{lines(draws, count)}"


def runs_of(commands):
    """A block for each of these commands, which run at once."""
    return [f"{command}run\n".encode() for command in commands]


def circle(draws, places, later):
    """A circle that is filled before its first run, and then one bucket for each later run."""
    filled = "".join(bucket(draws) for _ in range(places))
    return runs_of([filled] + [bucket(draws) for _ in range(later)])


def give_up(why):
    sys.exit(f"{os.path.basename(sys.argv[0])}: {why}")


class Coprocess:
    """A running program."""

    def __init__(self, words):
        self.words = words
        self.child = subprocess.Popen(words, stdin=subprocess.PIPE, stdout=subprocess.PIPE)
        self.to, self.out = self.child.stdin, self.child.stdout.fileno()

    def answer(self, block):
        """Gives it a block, and reads the answer of its run: a line with the number of keys, and one for each key."""
        try:
            self.to.write(block)
            self.to.flush()
        except BrokenPipeError:
            self.fails()
        answer, had, wanted = bytearray(), 0, None
        while wanted is None or had < wanted:
            piece = os.read(self.out, 1 << 20)
            if not piece:
                self.fails()
            answer += piece
            had += piece.count(b"\n")
            if wanted is None and had > 0:
                wanted = 1 + int(answer[: answer.index(b"\n")].split()[4])
        return bytes(answer)

    def fails(self):
        give_up(f"{' '.join(self.words)} ended early, with status {self.child.wait()}")

    def processor_time(self):
        """What all its threads took so far, in seconds, for the program and for the system. Linux has a clock for each
        process, of this number."""
        return time.clock_gettime((~self.child.pid << 3) | 2)

    def memory(self, which):
        """The peak of its memory, "VmHWM", or what it has now, "VmRSS", in bytes."""
        with open(f"/proc/{self.child.pid}/status", encoding="ascii") as status:
            for line in status:
                if line.startswith(f"{which}:"):
                    return 1024 * int(line.split()[1])
        return 0

    def end(self):
        self.to.close()
        self.child.stdout.close()
        if self.child.wait() != 0:
            self.fails()


class Played(NamedTuple):
    """What each run of a script took, in seconds of wall time and of processor time, from the answer before it to its
    own; and the peak of memory in bytes."""

    walls: list
    spent: list
    peak: int

    def later_wall(self):
        return sum(self.walls[1:]) / (len(self.walls) - 1)

    def later(self):
        """The processor time of a later run, as the mean of all runs but the first."""
        return sum(self.spent[1:]) / (len(self.spent) - 1)


def play(words, blocks, answers):
    """Plays a script. Its answers must be these; where there are none, they are put there."""
    program = Coprocess(words)
    walls, spent = [time.perf_counter()], [0.0]
    for number, block in enumerate(blocks):
        answer = program.answer(block)
        walls.append(time.perf_counter())
        spent.append(program.processor_time())
        if number == len(answers):
            answers.append(answer)
        elif answer != answers[number]:
            give_up(f"at run {number + 1} {' '.join(words)} answers otherwise than the program")
    peak = program.memory("VmHWM")
    program.end()
    return Played(differences(walls), differences(spent), peak)


def differences(numbers):
    return [after - before for before, after in zip(numbers, numbers[1:])]


def least_of(times, programs, blocks):
    """What each program of a list took, of each run the least of all tries. They take turns, and must answer alike."""
    answers, least = [], {}
    for _ in range(times):
        for name, words in programs:
            played = play(words, blocks, answers)
            before = least.get(name, played)
            walls = [min(pair) for pair in zip(before.walls, played.walls)]
            spent = [min(pair) for pair in zip(before.spent, played.spent)]
            least[name] = Played(walls, spent, min(before.peak, played.peak))
    return least


def program_words(tree, parts, workers):
    """The options of the program that counts words over a tree."""
    return ["--job", "count"] + tree + ["--parts", str(parts), "--workers", str(workers)]


def find_program(asked):
    """The program to be timed, which must be there."""
    program = asked or PROGRAM
    if not os.access(program, os.X_OK):
        give_up("the program is not built yet; run ./slider --job count --tree coalescing </dev/null first")
    return program
