"""Large scripts, and windows at their limits. Each check yields a line for what is not as it must be."""

import resource
import subprocess
import tempfile
from collections import Counter
from operator import mul

from plain.arguments import JOBS, TREES
from plain.generated import Draws, eight_words
from plain.program import run_program
from plain.scripts import MOST_RECORD, MOST_SCRIPT, MOST_TEXT
from plain.windows import MOST_BUCKETS, MOST_FILES
from stepping import Coprocess
from tried.calls import Called, differences

LONGEST = b"-" * MOST_RECORD + b"\n"
FULL = MOST_TEXT // len(LONGEST)  # so many of the longest records are all the text of a window
GIB = 2**30
MOST_MEMORY = 2**28  # bytes of address space for a long script over a small window


def fault(line, word):
    """How a call ends that has this fault before any run."""
    return Called(b"", f"fault {line} {word}\n".encode(), 3)


class Blocks:
    """Blocks of 1,000 records, of which buckets are made, with how often each word occurs in each block. So a window is
    counted without looking at its records."""

    def __init__(self, draws, count=16):
        blocks = [[eight_words(draws).encode() for _ in range(1000)] for _ in range(count)]
        self.texts = [b"".join(record + b"\n" for record in block) for block in blocks]
        counted = [Counter(text.split()) for text in self.texts]
        self.counts = [(word, [counts[word] for counts in counted]) for word in sorted(set().union(*counted))]

    def bucket(self, draws):
        """The places of 20 blocks."""
        return [draws.draw(len(self.texts)) for _ in range(20)]

    def script(self, bucket):
        """The commands that add a bucket and run."""
        return b"bucket 20000\n" + b"".join(self.texts[block] for block in bucket) + b"run\n"

    def answer(self, run, window):
        """What a run over these buckets writes."""
        times = [sum(bucket.count(block) for bucket in window) for block in range(len(self.texts))]
        sums = [(word, sum(map(mul, times, counts))) for word, counts in self.counts]
        lines = [b"%b\t%d\n" % entry for entry in sums if entry[1]]
        return b"# run %d keys %d\n" % (run, len(lines)) + b"".join(lines)


class Load:
    """The checks, with how many calls they made and how many bytes of scripts the program was given."""

    def __init__(self, program):
        self.program, self.calls, self.served = program, 0, 0

    def feed(self, line, pieces, most_memory=resource.RLIM_INFINITY):
        """A call whose script is given piece by piece, so that it is nowhere held whole."""

        def limit():
            resource.setrlimit(resource.RLIMIT_AS, (most_memory, most_memory))

        self.calls += 1
        with tempfile.TemporaryFile() as out, tempfile.TemporaryFile() as err:
            command = [self.program] + line.split()
            child = subprocess.Popen(command, stdin=subprocess.PIPE, stdout=out, stderr=err, preexec_fn=limit)
            try:
                with child:
                    for piece in pieces:
                        child.stdin.write(piece)
                        self.served += len(piece)
            except BrokenPipeError:
                pass  # it has ended, and needs no more of the script
            out.seek(0)
            err.seek(0)
            return Called(out.read(), err.read(), child.returncode)

    def check(self, name, line, pieces, expected, **limits):
        """The differences of a call with these arguments."""
        return differences(name, self.feed(line, pieces, **limits), expected)

    def check_plainly(self, line, script=b""):
        """The differences of a call from the plain program."""
        called = self.feed(line, [script])
        ended = run_program([word.encode() for word in line.split()], script)
        return differences(line, called, (ended.out, ended.last, ended.status))

    def checks(self):
        """All checks by their names."""
        return {
            "2 GiB of records over many runs": self.slides,
            "65,536 buckets": self.fills_buckets,
            "65,536 files": self.fills_files,
            "268,435,456 bytes in buckets": self.fills_windows,
            "268,435,456 bytes in files": self.fills_documents,
            "268,435,456 records of no bytes": self.fills_memory,
            "a script of 4,294,967,296 bytes": self.fills_script,
            "generated scripts": self.generates,
        }

    def slides(self):
        """A circle of 24 buckets is answered after each, in an eighth of the memory that the script would take."""
        self.calls += 1
        draws, window, run = Draws(1), [], 0
        blocks = Blocks(draws)
        program = Coprocess([self.program] + "--job count --tree rotating --parts 4".split())
        resource.prlimit(program.child.pid, resource.RLIMIT_AS, (MOST_MEMORY, MOST_MEMORY))
        while self.served < 2 * GIB:
            run += 1
            window = window[-23:] + [blocks.bucket(draws)]
            script = blocks.script(window[-1])
            self.served += len(script)
            if program.answer(script) != blocks.answer(run, window):
                yield f"run {run} is not as counted plainly"
                break
        program.end()

    def fills_buckets(self):
        """As many buckets as there may be, some of them changed and dropped, and at last one too many."""
        buckets = b"".join(b"bucket 1\nw%d x\n" % (number % 5000) for number in range(MOST_BUCKETS))
        few_keys = b"bucket 1\na\n" * MOST_BUCKETS  # a growing window merges each bucket with all before it
        changes = b"run\nlate 40000 1\ny\nrun\ndrop 1\nbucket 1\nz\nrun\ndrop 40000\nrun\n"
        more = b"bucket 1\nv\n" * 40000 + b"run\nbucket 0\n"
        for how in ("--workers 1", "--workers 4 --parts 4 --shards 8"):
            yield from self.check_plainly(f"--job count --tree folding {how}", buckets + changes + more)
            yield from self.check_plainly(f"--job count --tree coalescing {how}", few_keys + b"run\nbucket 0\n")

    def fills_files(self):
        """As many files as may have records, some of them changed and removed, and at last one too many."""
        files = b"".join(b"file f%d\nload 1\nw%d x\n" % (number, number % 5000) for number in range(MOST_FILES))
        changes = b"run\nfile f77\nedit 1 0 1\ny\nfile none\nload 0\nedit 0 0 0\nrun\nremove f9\nload 1\nz\nrun\n"
        for how in ("--workers 1", "--workers 4 --parts 4 --shards 8"):
            for last in (b"file more\nload 1\na\n", b"file more\nedit 0 0 1\na\n", b"file more\nload 0\nrun\n"):
                yield from self.check_plainly(f"--job count --tree random {how}", files + changes + last)

    def fills_windows(self):
        """All the text that a window of buckets may have is answered, and one empty record more is refused."""
        fill, at = [b"bucket 1\n" + LONGEST] * FULL, 2 * FULL + 1
        answer = Called(b"# run 1 keys 0\n", b"", 0)
        line = "--job count --tree folding"
        yield from self.check("no late records", line, fill + [b"late 5 0\nrun\n"], answer)
        yield from self.check("a late record", line, fill + [b"late 5 1\n\n"], fault(at, "window"))
        yield from self.check("a drop makes room", line, fill + [b"drop 1\nbucket 1\n", LONGEST, b"run\n"], answer)
        line = "--job count --tree rotating --buckets 4096"
        yield from self.check("a circle makes room", line, fill + [b"bucket 1\n", LONGEST, b"run\n"], answer)
        yield from self.check("a late record in a circle", line, fill + [b"late 0 1\n\n"], fault(at, "window"))
        over = [b"bucket %d\n" % (FULL + 1)] + [LONGEST] * FULL + [b"\n"]
        yield from self.check("one bucket with more", line, over, fault(1, "window"))

    def fills_documents(self):
        """All the text that a document may have is answered, and one empty record more is refused."""
        load, at = [b"load %d\n" % FULL] + [LONGEST] * FULL, FULL + 2
        answer = Called(b"# run 1 keys 0\n", b"", 0)
        line = "--job count --tree random"
        yield from self.check("an edit in place", line, load + [b"edit 7 1 1\n", LONGEST, b"run\n"], answer)
        yield from self.check("an edit that adds", line, load + [b"edit 7 0 1\n\n"], fault(at, "window"))
        yield from self.check("a file beside it", line, load + [b"file a\nload 1\n\n"], fault(at + 1, "window"))
        yield from self.check("a load in its place", line, load + load + [b"run\n"], answer)
        for command in (b"load", b"edit 0 0"):
            over = [command + b" %d\n" % (FULL + 1)] + [LONGEST] * FULL + [b"\n"]
            yield from self.check("one command with more", line, over, fault(1, "window"))

    def fills_memory(self):
        """Each record takes room beside its text. If that is not available, nothing is written."""
        empty = [b"\n" * 2**20] * (MOST_TEXT // 2**20)
        ended = Called(b"", b"", 6)
        for tree, command in (("coalescing", b"bucket"), ("random", b"load")):
            script = [command + b" %d\n" % MOST_TEXT] + empty + [b"run\n"]
            yield from self.check(command.decode(), f"--job count --tree {tree}", script, ended, most_memory=GIB)

    def fills_script(self):
        """A script may have one byte less. The first line that is needed after that many bytes is refused."""
        line = "--job count --tree rotating --buckets 1"
        bucket = b"bucket 1\n" + LONGEST
        many, rest = divmod(MOST_SCRIPT, len(bucket))
        whole = [bucket] * many + [b"bucket 1\n" + b"-" * (rest - 11) + b"\n"]
        yield from self.check("one byte less", line, whole, Called(b"", b"", 0))
        yield from self.check("a line begins at the last byte", line, whole + [b"r"], fault(2 * many + 3, "script"))
        whole[-1] = b"bucket 1\n" + b"-" * (rest - 10) + b"\n"
        yield from self.check("as many bytes", line, whole, fault(2 * many + 3, "script"))
        yield from self.check("a line across the limit", line, whole[:-1] + [bucket], fault(2 * many + 2, "script"))
        whole[-2:] = [b"r" * 2 * len(bucket)]
        yield from self.check("a long line across the limit", line, whole, fault(2 * many - 1, "long"))

    def generates(self):
        """The generated script of each job and tree, and of the seeds at the limits."""
        for job in JOBS:
            for tree in TREES:
                if (job, tree) != ("latest", "rotating"):
                    yield from self.check_plainly(f"--job {job} --tree {tree} --gen 11 --workers 4 --parts 4")
        for seed in (0, 4294967295):
            yield from self.check_plainly(f"--job topk --tree random --gen {seed}")
