"""Hostile arguments and scripts, each with exactly what the program must write and its status. All of it was worked
out by hand from docs/formats/scripts.md, docs/formats/jobs.md, docs/formats/trees.md and docs/guide/options.md."""

from typing import NamedTuple


class Row(NamedTuple):
    """A call, and what it must write to standard output and standard error, and its status."""

    name: str
    arguments: list
    script: bytes
    out: bytes
    err: bytes
    status: int


# The commands that the window of a tree lacks, with all their record lines.
FOREIGN = {
    "coalescing": ["drop 0", "late 0 1\na", "file a", "remove a", "edit 0 0 1\na", "load 1\na"],
    "rotating": ["drop 0", "file a", "remove a", "edit 0 0 1\na", "load 1\na"],
    "folding": ["file a", "remove a", "edit 0 0 1\na", "load 1\na"],
    "random": ["bucket 1\na", "drop 0", "late 0 1\na"],
}

# Scripts that the job count ends with a fault, before any run: the tree, the script and its line on standard error.
FAULTS = [
    ("one LF alone", "coalescing", "\n", "fault 1 unknown"),
    ("the greatest number, and nothing after it", "coalescing", "bucket 4294967295\n", "fault 1 short"),
    ("the same without LF", "coalescing", "bucket 4294967295", "fault 1 short"),
    ("one record of so many", "folding", "bucket 4294967295\na\n", "fault 1 short"),
    ("a load of so many", "random", "load 4294967295\n", "fault 1 short"),
    ("an edit of so many", "random", "edit 0 0 4294967295\n", "fault 1 short"),
    ("late records of so many, without a bucket", "folding", "late 0 4294967295\n", "fault 1 short"),
    ("a number that is one too large", "coalescing", "bucket 4294967296\n", "fault 1 number"),
    ("ten digits", "coalescing", "bucket 9999999999\n", "fault 1 number"),
    ("eleven digits", "coalescing", "bucket 10000000000\n", "fault 1 number"),
    ("2^64 and one", "coalescing", "bucket 18446744073709551617\na\n", "fault 1 number"),
    ("two spaces", "coalescing", "bucket  1\n", "fault 1 unknown"),
    ("a space first", "coalescing", " bucket 1\na\n", "fault 1 unknown"),
    ("a space last", "coalescing", "bucket 1 \na\n", "fault 1 unknown"),
    ("a space after a run", "coalescing", "run \n", "fault 1 unknown"),
    ("an empty number", "coalescing", "bucket \n", "fault 1 number"),
    ("no number", "coalescing", "bucket\n", "fault 1 unknown"),
    ("one number too many", "coalescing", "bucket 1 1\n", "fault 1 unknown"),
    ("a minus sign", "coalescing", "bucket -1\n", "fault 1 number"),
    ("a minus sign before 0", "folding", "drop -0\n", "fault 1 number"),
    ("a plus sign", "coalescing", "bucket +1\na\n", "fault 1 number"),
    ("a leading zero", "coalescing", "bucket 01\na\n", "fault 1 number"),
    ("two zeros", "folding", "drop 00\n", "fault 1 number"),
    ("a number in base 16", "coalescing", "bucket 0x1\na\n", "fault 1 number"),
    ("a number with a point", "coalescing", "bucket 1.0\na\n", "fault 1 number"),
    ("a digit outside ASCII", "coalescing", "bucket \u0661\na\n", "fault 1 number"),
    ("a TAB instead of a space", "coalescing", "bucket\t1\na\n", "fault 1 unknown"),
    ("a TAB after a number", "coalescing", "bucket 1\t\na\n", "fault 1 number"),
    ("CR before LF", "coalescing", "run\r\n", "fault 1 unknown"),
    ("CR before LF after a number", "coalescing", "bucket 1\r\na\r\n", "fault 1 number"),
    ("CR alone", "coalescing", "run\rrun\r", "fault 1 unknown"),
    ("NUL alone", "coalescing", "\0", "fault 1 unknown"),
    ("NUL after a command", "coalescing", "run\0\n", "fault 1 unknown"),
    ("a byte order mark", "coalescing", "\ufeffrun\n", "fault 1 unknown"),
    ("upper case", "coalescing", "RUN\n", "fault 1 unknown"),
    ("half a command", "coalescing", "ru", "fault 1 unknown"),
    ("two commands in one line", "coalescing", "run run\n", "fault 1 unknown"),
    ("an option", "coalescing", "--job\n", "fault 1 unknown"),
    ("one record more than its bucket has", "coalescing", "bucket 1\na\nb\n", "fault 3 unknown"),
    ("an empty line after a bucket", "coalescing", "bucket 0\n\n", "fault 2 unknown"),
    ("a record that is missing", "coalescing", "bucket 2\na\n", "fault 1 short"),
    ("a record that is missing after an empty one", "coalescing", "bucket 2\n\n", "fault 1 short"),
    ("a run that is the first of two records", "coalescing", "bucket 2\nrun\n", "fault 1 short"),
    ("short before nothere", "rotating", "load 1\n", "fault 1 short"),
    ("unknown before nothere", "rotating", "load\n", "fault 1 unknown"),
    ("number before nothere", "rotating", "load x\n", "fault 1 number"),
    ("unknown before number", "random", "edit x 0\n", "fault 1 unknown"),
    ("the last of three numbers", "random", "edit 0 0 x\n", "fault 1 number"),
    ("no name", "random", "file\n", "fault 1 unknown"),
    ("two names", "random", "file a b\n", "fault 1 unknown"),
    ("two empty names", "random", "file  \n", "fault 1 unknown"),
    ("a name of 256 bytes", "random", "file " + "n" * 256 + "\n", "fault 1 name"),
    ("a name of 128 letters in 256 bytes", "random", "remove " + "\u00e9" * 128 + "\n", "fault 1 name"),
    ("name before nothere", "coalescing", "file " + "n" * 256 + "\n", "fault 1 name"),
    ("a command of 65,536 bytes", "coalescing", "r" * 65536 + "\n", "fault 1 long"),
    ("a command of 65,535 bytes", "coalescing", "r" * 65535 + "\n", "fault 1 unknown"),
    ("a number of 65,529 bytes", "coalescing", "bucket " + "1" * 65529 + "\n", "fault 1 long"),
    ("a number of 65,528 bytes", "coalescing", "bucket " + "1" * 65528 + "\n", "fault 1 number"),
    ("spaces alone", "coalescing", " " * 65535 + "\n", "fault 1 unknown"),
    ("a record of 65,536 bytes", "coalescing", "bucket 1\n" + "-" * 65536 + "\n", "fault 2 long"),
    ("the same without LF", "coalescing", "bucket 1\n" + "-" * 65536, "fault 2 long"),
    ("long before short", "coalescing", "bucket 3\na\n" + "-" * 70000, "fault 3 long"),
    ("an edit past the end", "random", "edit 1 0 0\n", "fault 1 many"),
    ("an edit of one record too many", "random", "load 2\na\nb\nedit 1 2 0\n", "fault 4 many"),
    ("an edit one place past the end", "random", "load 2\na\nb\nedit 3 0 1\nc\n", "fault 4 many"),
    ("an edit of the largest numbers", "random", "edit 4294967295 4294967295 0\n", "fault 1 many"),
    ("an edit of an empty file beside another", "random", "load 1\na\nfile b\nedit 0 1 0\n", "fault 4 many"),
    ("an edit of a file that was removed", "random", "file a\nload 1\na\nremove a\nedit 0 1 0\n", "fault 5 many"),
    ("a drop without a bucket", "folding", "drop 1\n", "fault 1 many"),
    ("a drop of one too many", "folding", "bucket 0\nbucket 0\ndrop 3\n", "fault 3 many"),
    ("a drop of the greatest number", "folding", "bucket 0\ndrop 4294967295\n", "fault 2 many"),
    ("late without a bucket", "folding", "late 0 0\n", "fault 1 many"),
    ("late one place past the end", "rotating", "bucket 0\nlate 1 0\n", "fault 2 many"),
    ("late at the greatest place", "rotating", "bucket 0\nlate 4294967295 0\n", "fault 2 many"),
    ("late at a place that a drop took away", "folding", "bucket 0\nbucket 0\ndrop 1\nlate 1 0\n", "fault 4 many"),
]

# Records that a job does not accept. Each is tried after two that it does.
REFUSED_RECORDS = {
    "index": ["", "a", "1 a", "\ta", "-1\ta", "01\ta", "4294967296\ta", "1\r\ta", " 1\ta"],
    "latest": ["", "k", "\tv", "\t"],
    "topk": ["", "g", "g\t1", "\t1\ta", "g\t\ta", "g\t-1\ta", "g\t01\ta", "g\t4294967296\ta", "g\t1 \ta", "1\tg\ta"],
}
ACCEPTED_RECORDS = {"index": "0\t", "latest": "k\t", "topk": "g\t0\t"}

# Scripts of the job index with a record that it does not accept and another fault, which comes first.
BEFORE_RECORD = [
    ("short", "folding", "bucket 2\na\n"),
    ("nothere", "coalescing", "load 1\na\n"),
    ("many", "folding", "late 0 1\na\n"),
]

# Scripts that are answered: the arguments, the script and the output.
ANSWERED = [
    ("no byte", "--job count --tree coalescing", "", ""),
    ("a run over nothing, without LF", "--job count --tree random", "run", "# run 1 keys 0\n"),
    (
        "records that look like commands",
        "--job count --tree coalescing",
        "bucket 1\nrun\nrun\n",
        "# run 1 keys 1\nrun\t1\n",
    ),
    (
        "records that look like buckets",
        "--job count --tree folding",
        "bucket 2\nbucket 2\ndrop 1\nrun\n",
        "# run 1 keys 4\n1\t1\n2\t1\nbucket\t1\ndrop\t1\n",
    ),
    ("an empty record at the end", "--job count --tree coalescing", "bucket 1\n\nrun\n", "# run 1 keys 0\n"),
    ("a last record without LF", "--job count --tree coalescing", "run\nbucket 1\na", "# run 1 keys 0\n"),
    ("a bucket without records", "--job count --tree rotating", "bucket 0\nrun", "# run 1 keys 0\n"),
    (
        "bytes of every kind in a record",
        "--job count --tree coalescing",
        b"bucket 1\n\0a\xff\xfeB\r\tc9\x80\nrun\n",
        "# run 1 keys 3\nB\t1\na\t1\nc9\t1\n",
    ),
    (
        "words that begin alike, and case",
        "--job count --tree coalescing --parts 16",
        "bucket 1\nab a aa A Z 0 abc z\nrun\n",
        "# run 1 keys 8\n0\t1\nA\t1\nZ\t1\na\t1\naa\t1\nab\t1\nabc\t1\nz\t1\n",
    ),
    (
        "a word of 65,535 bytes",
        "--job count --tree coalescing",
        "bucket 1\n" + "w" * 65535 + "\nrun\n",
        "# run 1 keys 1\n" + "w" * 65535 + "\t1\n",
    ),
    (
        "records of 65,535 bytes without a word",
        "--job count --tree random",
        "load 2\n" + "-" * 65535 + "\n" + "-" * 65535 + "\nrun\n",
        "# run 1 keys 0\n",
    ),
    (
        "the greatest numbers of documents",
        "--job index --tree folding",
        "bucket 4\n4294967295\ta\n0\ta\n4294967295\ta a\n1\t\nrun\n",
        "# run 1 keys 1\na\t0,4294967295\n",
    ),
    (
        "a value with TABs, and an empty one",
        "--job latest --tree coalescing",
        "bucket 3\nk\ta\tb\nj\tx\nj\t\nrun\n",
        "# run 1 keys 2\nj\t\nk\ta\tb\n",
    ),
    (
        "a key of 65,534 bytes",
        "--job latest --tree folding",
        "bucket 1\n" + "k" * 65534 + "\t\nrun\n",
        "# run 1 keys 1\n" + "k" * 65534 + "\t\n",
    ),
    (
        "members of one score, twice, and the greatest scores",
        "--job topk --k 4 --tree coalescing",
        "bucket 6\ng\t0\tz\ng\t4294967295\t\ng\t9\tb\ng\t10\ta\ng\t9\tb\ng\t9\ta\nrun\n",
        "# run 1 keys 1\ng\t4294967295\t\ng\t10\ta\ng\t9\ta\ng\t9\tb\n",
    ),
    (
        "the best one alone",
        "--job topk --k 1 --tree rotating --buckets 1",
        "bucket 2\ng\t1\tb\tc\ng\t1\tb\nrun\nbucket 1\nh\t0\t\nrun\n",
        "# run 1 keys 1\ng\t1\tb\n# run 2 keys 1\nh\t0\t\n",
    ),
    ("an edit of nothing", "--job count --tree random", "edit 0 0 0\nrun\n", "# run 1 keys 0\n"),
    (
        "an edit at the end, and of all",
        "--job count --tree random",
        "load 2\na\nb\nedit 2 0 1\nc\nrun\nedit 0 3 1\nd\nrun\nedit 1 0 0\nedit 0 1 0\nrun\n",
        "# run 1 keys 3\na\t1\nb\t1\nc\t1\n# run 2 keys 1\nd\t1\n# run 3 keys 0\n",
    ),
    (
        "an empty load, and files that do not exist",
        "--job count --tree random",
        "load 1\na\nload 0\nremove q\nfile a\nload 0\nrun\n",
        "# run 1 keys 0\n",
    ),
    (
        "names of every kind, in byte order",
        "--job latest --tree random",
        b"file \xff\nload 1\nk\t1\nfile a\r\nload 1\nk\t2\nfile \0\tb\nload 1\nk\t3\nrun\n"
        b"remove \xff\nrun\nremove a\r\nrun\n",
        "# run 1 keys 1\nk\t1\n# run 2 keys 1\nk\t2\n# run 3 keys 1\nk\t3\n",
    ),
    (
        "a name of 255 bytes, and the empty one",
        "--job count --tree random",
        "file " + "n" * 255 + "\nload 1\nb\nfile \nload 1\na\nremove " + "n" * 255 + "\nrun\n",
        "# run 1 keys 1\na\t1\n",
    ),
    (
        "drops of no bucket and of all",
        "--job count --tree folding",
        "drop 0\nbucket 1\na\nbucket 1\nb\ndrop 0\nrun\ndrop 2\nrun\nbucket 1\nc\nrun\n",
        "# run 1 keys 2\na\t1\nb\t1\n# run 2 keys 0\n# run 3 keys 1\nc\t1\n",
    ),
    (
        "no late records, and late records of an empty bucket",
        "--job count --tree rotating --buckets 2",
        "bucket 0\nlate 0 0\nlate 0 1\na\nrun\nbucket 0\nbucket 0\nlate 1 1\nb\nrun\n",
        "# run 1 keys 1\na\t1\n# run 2 keys 1\nb\t1\n",
    ),
    (
        "a circle of the most places",
        "--job count --tree rotating --buckets 4096",
        "bucket 1\na\n" + "bucket 0\n" * 4095 + "run\nbucket 0\nrun\n",
        "# run 1 keys 1\na\t1\n# run 2 keys 0\n",
    ),
    (
        "the latest value through late records and drops",
        "--job latest --tree folding",
        "bucket 1\nk\t1\nbucket 1\nk\t2\nlate 0 1\nk\t3\nrun\ndrop 1\nrun\n",
        "# run 1 keys 1\nk\t2\n# run 2 keys 1\nk\t2\n",
    ),
]

# Arguments, divided at spaces, and the line that refuses them.
REFUSED = [
    ("", "usage job"),
    ("run", "usage words"),
    ("--help", "usage words"),
    ("-h", "usage words"),
    ("--version", "usage words"),
    ("--", "usage words"),
    ("- --job count --tree folding", "usage words"),
    ("--job count --tree folding run", "usage words"),
    ("--job", "usage words"),
    ("--job=", "usage words"),
    ("--job count= --tree folding", "usage words"),
    ("--job count --tree", "usage words"),
    ("--job --tree folding", "usage words"),
    ("--job count --job count --tree folding", "usage words"),
    ("--job=count --job index --tree folding", "usage words"),
    ("--jo count --tree folding", "usage words"),
    ("-job count --tree folding", "usage words"),
    ("--Job count --tree folding", "usage words"),
    ("--JOB=count --tree folding", "usage words"),
    ("--job count --tree folding --work=1", "usage words"),
    ("--job count --tree folding --work 1", "usage words"),
    ("--work --job count --tree folding --work", "usage words"),
    ("--job count --tree folding --k --work", "usage words"),
    ("--job count --tree folding --k -3", "usage words"),
    ("--job count --tree folding --k 3 4", "usage words"),
    ("--job count --tree folding --seed 3", "usage words"),
    ("--tree folding", "usage job"),
    ("--job sum --tree folding", "usage job"),
    ("--job Count --tree folding", "usage job"),
    ("--job=a=b --tree folding", "usage job"),
    ("--job=- --tree folding", "usage job"),
    ("--job=--tree --tree folding", "usage job"),
    ("--job count", "usage tree"),
    ("--job count --tree oak", "usage tree"),
    ("--job count --tree folding --k 0", "usage k"),
    ("--job count --tree folding --k 1001", "usage k"),
    ("--job count --tree folding --k=-3", "usage k"),
    ("--job count --tree folding --k 03", "usage k"),
    ("--job count --tree folding --k +3", "usage k"),
    ("--job count --tree folding --k 0x3", "usage k"),
    ("--job count --tree folding --k 4294967299", "usage k"),
    ("--job count --tree folding --k 18446744073709551619", "usage k"),
    ("--job count --tree folding --k \u0663", "usage k"),
    ("--job count --tree folding --buckets 0", "usage buckets"),
    ("--job count --tree folding --buckets 4097", "usage buckets"),
    ("--job count --tree folding --parts 0", "usage parts"),
    ("--job count --tree folding --parts 17", "usage parts"),
    ("--job count --tree folding --workers 0", "usage workers"),
    ("--job count --tree folding --workers 17", "usage workers"),
    ("--job count --tree folding --shards 0", "usage shards"),
    ("--job count --tree folding --shards 9", "usage shards"),
    ("--job count --tree folding --keep 1001", "usage keep"),
    ("--job count --tree folding --keep=-1", "usage keep"),
    ("--job count --tree folding --gen 4294967296", "usage gen"),
    ("--job count --tree folding --gen x", "usage gen"),
    ("--job latest --tree rotating", "usage tree"),
    ("--job latest --tree rotating --gen x", "usage gen"),
    ("--job latest --tree rotating --buckets 0", "usage buckets"),
    ("--gen x --keep x --shards x --workers x --parts x --buckets x --tree x --k x --job x", "usage job"),
    ("--gen x --keep x --shards x --workers x --parts x --buckets x --tree x --k x --job count", "usage k"),
    ("--gen x --keep x --shards x --workers x --parts x --buckets x --tree x --job count", "usage tree"),
    ("--gen x --keep x --shards x --workers x --parts x --buckets x --tree random --job count", "usage buckets"),
    ("--gen x --keep x --shards x --workers x --parts x --tree random --job count", "usage parts"),
    ("--gen x --keep x --shards x --workers x --tree random --job count", "usage workers"),
    ("--gen x --keep x --shards x --tree random --job count", "usage shards"),
    ("--gen x --keep x --tree random --job count", "usage keep"),
]

# Arguments that can't be divided at spaces, or are no text. They are refused with usage words.
NOT_WELL_FORMED = [
    ("an empty argument", [b"--job", b"count", b"--tree", b"folding", b""]),
    ("an empty value", [b"--job", b"", b"--tree", b"folding"]),
    ("a value that is no text", [b"--job", b"\xff", b"--tree", b"folding"]),
    ("half a letter as a name", [b"--job", b"count", b"--tree", b"folding", b"--\xc3", b"1"]),
    ("a surrogate", [b"--job=count", b"--tree=\xed\xa0\x80"]),
]

# Arguments with every number at its limit.
LIMITS = [
    "--k 1 --buckets 1 --parts 1 --workers 1 --shards 1 --keep 0",
    "--k 1000 --buckets 4096 --parts 16 --workers 16 --shards 8 --keep 1000",
]

# A record of which two make a chunk full.
LONG = "-" * 40000

# A script of each kind of window, with the work of its runs.
WITH_WORK = [
    (
        "one bucket",
        "--job count --tree coalescing --work",
        "bucket 1\na b a\nrun\nbucket 1\nb\nrun\n",
        "# run 1 keys 2\na\t2\nb\t1\n# run 2 keys 2\na\t2\nb\t2\n",
        "work 1 maps 1 merges 0 joins 0\nwork 2 maps 1 merges 1 joins 1\n",
        0,
    ),
    (
        "a circle with a late record",
        "--job count --tree rotating --buckets 2 --work",
        "bucket 1\na\nbucket 1\nb\nrun\nlate 0 1\nc\nrun\n",
        "# run 1 keys 2\na\t1\nb\t1\n# run 2 keys 3\na\t1\nb\t1\nc\t1\n",
        "work 1 maps 2 merges 1 joins 0\nwork 2 maps 2 merges 1 joins 0\n",
        0,
    ),
    (
        "a fault after two runs",
        "--job count --tree folding --work",
        "bucket 2\na b\na\nrun\nbucket 1\na\nrun\ndrop 3\nrun\n",
        "# run 1 keys 2\na\t2\nb\t1\n# run 2 keys 2\na\t3\nb\t1\n",
        "work 1 maps 2 merges 0 joins 0\nwork 2 maps 1 merges 1 joins 1\nfault 8 many\n",
        3,
    ),
    (
        "a file that is edited",
        "--job count --tree random --work",
        "file f\nload 1\na\nrun\nedit 1 0 1\nb\nrun\n",
        "# run 1 keys 1\na\t1\n# run 2 keys 2\na\t1\nb\t1\n",
        "work 1 maps 1 merges 0 joins 0\nwork 2 maps 2 merges 0 joins 0\n",
        0,
    ),
]

# Scripts of tests of the program, which have these names. Each call for memory of these is refused in turn.
OUT_OF_MEMORY = [
    (
        "one_bucket_is_counted",
        "--job count --tree coalescing",
        "bucket 1\na b a\nrun\n",
        "# run 1 keys 2\na\t2\nb\t1\n",
        "",
        0,
    ),
    (
        "a_circle_of_one_maps_and_never_merges",
        "--job count --tree rotating --buckets 1 --work",
        "bucket 1\na\nrun\nbucket 1\nb\nrun\n",
        "# run 1 keys 1\na\t1\n# run 2 keys 1\nb\t1\n",
        "work 1 maps 1 merges 0 joins 0\nwork 2 maps 1 merges 0 joins 0\n",
        0,
    ),
    (
        "an_edit_cuts_where_nothing_would",
        "--job count --tree random --work",
        f"load 3\n{LONG}\n{LONG}\nx\nrun\nedit 1 1 1\ny\nrun\n",
        "# run 1 keys 1\nx\t1\n# run 2 keys 2\nx\t1\ny\t1\n",
        "work 1 maps 3 merges 1 joins 0\nwork 2 maps 3 merges 0 joins 0\n",
        0,
    ),
    (
        "reloading_a_document_costs_no_merge",
        "--job count --tree random --workers 4 --keep 0 --work",
        f"load 3\n{LONG}\n{LONG}\nx\nrun\n" * 2,
        "# run 1 keys 1\nx\t1\n# run 2 keys 1\nx\t1\n",
        "work 1 maps 3 merges 1 joins 0\nwork 2 maps 0 merges 0 joins 0\n",
        0,
    ),
]

# The generated script of docs/formats/generator.md.
GENERATED = [
    (
        "a generated script",
        "--job count --tree rotating --gen 7",
        "",
        "runs 40 bytes 1741990 sha256 636aa9ee010940a82874932f0d1a243e60b196c31bb75e2cfb12f567a3f791c8\n",
        "",
        0,
    ),
]

# Trees with the start of a command whose last number says how many records follow.
NUMBERED = [
    ("coalescing", "bucket"),
    ("rotating", "bucket"),
    ("folding", "late 0"),
    ("random", "load"),
    ("random", "edit 0 0"),
]


def as_bytes(text):
    return text if isinstance(text, bytes) else text.encode()


def row(name, arguments, script, out, err, status):
    """A row whose arguments are a list, or a text that is divided at spaces."""
    if isinstance(arguments, str):
        arguments = [as_bytes(argument) for argument in arguments.split()]
    return Row(name, arguments, as_bytes(script), as_bytes(out), as_bytes(err), status)


def fault_row(name, tree, script, fault):
    return row(name, f"--job count --tree {tree}", script, "", f"{fault}\n", 3)


def rows_with_faults():
    for tree, commands in FOREIGN.items():
        for command in commands:
            yield fault_row(f"{command!r} over {tree}", tree, f"{command}\n", "fault 1 nothere")
    for cells in FAULTS:
        yield fault_row(*cells)
    for fault, tree, script in BEFORE_RECORD:
        yield row(f"{fault} before record", f"--job index --tree {tree}", script, "", f"fault 1 {fault}\n", 3)
    for job, records in REFUSED_RECORDS.items():
        accepted = ACCEPTED_RECORDS[job]
        for record in records:
            script = f"run\nbucket 3\n{accepted}\n{accepted}\n{record}\n"
            name, arguments = f"{job} of {record!r}", f"--job {job} --tree folding"
            yield row(name, arguments, script, "# run 1 keys 0\n", "fault 5 record\n", 3)
    yield from rows_at_limits()


def rows_at_limits():
    """As many buckets and files as there may be, and then one more."""
    for tree in ("coalescing", "folding"):
        yield fault_row(f"one bucket too many over {tree}", tree, "bucket 0\n" * 65537, "fault 65537 many")
    arguments = "--job count --tree rotating --buckets 1"
    yield row("more buckets than a circle holds", arguments, "bucket 0\n" * 65537 + "run\n", "# run 1 keys 0\n", "", 0)
    files = "".join(f"file {number}\nload 1\n\n" for number in range(65536))
    yield fault_row("one file too many", "random", f"{files}file \nload 0\nedit 0 0 1\n\n", "fault 196611 many")


def rows_with_refused_arguments():
    for arguments, usage in REFUSED:
        yield row(f"arguments {arguments!r}", arguments, "run\n", "", f"{usage}\n", 2)
    for name, arguments in NOT_WELL_FORMED:
        yield row(name, arguments, "run\n", "", "usage words\n", 2)


def rows_with_answers():
    for name, arguments, script, out in ANSWERED:
        yield row(name, arguments, script, out, "", 0)
    for arguments in LIMITS:
        yield row(arguments, f"--job count --tree rotating {arguments}", "run\n", "# run 1 keys 0\n", "", 0)
    yield from rows_with_work()
    yield from rows_out_of_memory()


def rows_with_work():
    return [row(*cells) for cells in WITH_WORK]


def rows_generated():
    return [row(*cells) for cells in GENERATED]


def rows_out_of_memory():
    return [row(*cells) for cells in OUT_OF_MEMORY]


def numbered_rows(tree, command):
    """One record, and as many as can be named, of which there is none."""
    lines = [f"{command} {number}\n" for number in (1, 4294967295)]
    return [fault_row(f"{line!r} over {tree}", tree, line, "fault 1 short") for line in lines]


def rows():
    """All rows."""
    yield from rows_with_faults()
    yield from rows_with_refused_arguments()
    yield from rows_with_answers()
    for cells in NUMBERED:
        yield from numbered_rows(*cells)
