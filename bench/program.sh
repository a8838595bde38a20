# Common functions of the scripts that make a program of their own, which source this file.
top=$(cd "$(dirname "${BASH_SOURCE[0]}")/.." && pwd)
work=$(mktemp -d)
trap 'rm -rf "$work"' EXIT

# begin_program NAME DEPENDENCIES CRATE..: lists the crate NAME with its dependencies, next to copies of these crates of
# the repository, which are all that it depends on. Its folder is then $bench.
begin_program() {
    local name=$1 dependencies=$2 crate
    shift 2
    mkdir -p "$work/crates"
    for crate in "$@"; do
        cp -r "$top/crates/$crate" "$work/crates/"
        rm -rf "$work/crates/$crate/out"
        grep "^$crate:" "$top/crates.txt" >> "$work/crates.txt"
    done
    cp "$top/HANDLES" "$work/"
    printf '%s: %s\n' "$name" "$dependencies" >> "$work/crates.txt"
    bench="$work/crates/$name"
    mkdir -p "$bench/src" "$bench/specs" "$bench/proofs"
}

# run_program PATTERN: proves, builds and runs the program, and shows the lines of its output that fit the pattern; the
# kit's messages only if that fails.
run_program() {
    echo "$(basename "$0"): proving and building; this takes some minutes" >&2
    (cd "$bench" && rt run) > "$work/output" 2> "$work/said" || {
        cat "$work/output" "$work/said" >&2
        exit 1
    }
    grep "$1" "$work/output"
}

# try_program PATTERN: runs the program with `rt try`, which proves nothing and is some hundred times slower than a
# built program, and shows the lines of its output that fit the pattern; all of it if that fails.
try_program() {
    echo "$(basename "$0"): running it unproved; this takes some minutes" >&2
    (cd "$bench" && rt try --steps 1000000000000 --seconds 7200) > "$work/output" 2>&1 || {
        cat "$work/output" >&2
        exit 1
    }
    grep "$1" "$work/output"
}

# draw_code: the code of the draws.
draw_code() {
    cat <<'RATTLE'

/// The next draw of a linear congruential generator, below `bound`.
fn draw(state: &mut u64, bound: u64) -> u64
    requires { 0 < bound }
    ensures { result < bound }
{
    *state = state
        .wrapping_mul(6364136223846793005)
        .wrapping_add(1442695040888963407);
    (*state >> 33) % bound
}
RATTLE
}

# recipe_code: the code of a recipe of the memo over numbers, whose digests differ for numbers below 16,777,216 and
# spread them over shards. The definition of the digest goes into the program's specs.
recipe_code() {
    echo 'pub mod Digests' > "$bench/specs/Lib.antt"
    cat > "$bench/specs/Digests.antt" <<'ANTT'
-- The digest of a number.
use Rattle.std.specs.Prelude.{ℕ, ◌/◌, ◌%◌, List, ◌∷◌, replicate}

-- It tells numbers below 16,777,216 apart.
abbrev pub last_bytes : ℕ → List ℕ
last_bytes n = (n / 65536 % 256) ∷ (n % 256) ∷ (n / 256 % 256) ∷ replicate 29 0
ANTT
    sed "s/PROGRAM/$(basename "$bench")/" <<'RATTLE'

/// A number, kept with itself.
#[derive(Drop)]
struct Same;

impl Recipe for Same {
    ghost use Rattle.std.specs.Prelude.{◌≡◌};
    ghost use Rattle.PROGRAM.specs.Digests.{last_bytes};

    type In = u64;

    type Out = u64;

    ghost fits = { λ input out. out ≡ input };

    ghost digest_of = { last_bytes };

    fn digest(input: &u64) -> [u8; 32] {
        let n = *input;
        let (a, b, c) = (
            (n / 65536 % 256) as u8,
            (n % 256) as u8,
            (n / 256 % 256) as u8,
        );
        [
            a, b, c, 0, 0, 0, 0, 0, 0, 0, 0, 0, 0, 0, 0, 0, 0, 0, 0, 0, 0, 0, 0, 0, 0, 0, 0, 0, 0,
            0, 0, 0,
        ]
    }

    fn same(a: &u64, b: &u64) -> bool {
        *a == *b
    }

    fn share_in(_alloc: Global, input: &u64) -> Result<u64, AllocError> {
        Ok(*input)
    }

    fn share_out(_alloc: Global, out: &u64) -> Result<u64, AllocError> {
        Ok(*out)
    }
}
RATTLE
}

# begin_tree_program NAME TREE: begins a program over the crate of a tree and its dependencies.
begin_tree_program() {
    begin_program "$1" "job_laws jobs_basic record_text sheets memo_core memo_server pin_table tree_laws $2" \
        definitions slider_io record_text job_laws jobs_basic partition sheets memo_core shared_seats turn_lock \
        memo_server pin_table tree_laws "$2"
}

# tree_code: the code of a tree with its memo, its leaves, and the cost of some runs of it. It has no contracts, for
# programs that are not proved.
tree_code() {
    cat <<'RATTLE'
#![tactic(auto)]

use job_laws::{CountMeter, Meter};
use jobs_basic::Count;
use pin_table::{Caller, Memo};
use record_text::{Places, Records, Shift};
use sheets::{Sheet, map_sheets};
use std::alloc::{AllocError, Global};
use std::io;
use std::sync::Wait;
use std::time::{Clock, Instant};
use tree_laws::{MergeRecipe, Tree};

/// How many passes are made, of which the least time and the most merges count.
const PASSES: usize = 5;

type Words = Count<CountMeter>;

/// A leaf of two words, which each occur up to 31 times, so that few merges have equal inputs.
fn leaf(alloc: Global, n: u64) -> Result<Sheet<Words>, AllocError> {
    let mut record = Vec::new(alloc);
    for _ in 0..n % 31 + 1 {
        record.extend_from_slice(b"a ".as_slice())?;
    }
    for _ in 0..n / 31 % 31 + 1 {
        record.extend_from_slice(b"b ".as_slice())?;
    }
    let mut records = Records::new(alloc);
    records.push(record.as_slice())?;
    let mut m = CountMeter::new();
    match map_sheets(alloc, &Count::new(), &records, 1, &mut m)?.pop() {
        Some(sheet) => Ok(sheet),
        None => Sheet::empty(alloc, 0),
    }
}

/// A number of drawn leaves.
fn leaves(alloc: Global, state: &mut u64, count: usize) -> Result<Vec<Sheet<Words>>, AllocError> {
    let mut sheets = Vec::new(alloc);
    for _ in 0..count {
        sheets.push(leaf(alloc, draw(state, 961))?)?;
    }
    Ok(sheets)
}

/// A shift, and the sheets that it brings.
#[derive(Drop)]
struct Step {
    shift: Shift,
    news: Vec<Sheet<Words>>,
}

/// A slide by which `gone` buckets go and `fresh` ones come; `first` is the number of the first one afterwards.
fn slide(
    alloc: Global,
    state: &mut u64,
    first: u64,
    gone: usize,
    fresh: usize,
) -> Result<Step, AllocError> {
    let shift = Shift::Slide {
        first,
        gone,
        places: Places::new(alloc),
        fresh,
    };
    let news = leaves(alloc, state, fresh)?;
    Ok(Step { shift, news })
}

/// A tree, and all that its calls ask for.
#[derive(Drop)]
struct Desk<T: Tree<Words>> {
    memo: Memo<MergeRecipe<Words>>,
    caller: Caller<MergeRecipe<Words>>,
    tree: T,
    m: CountMeter,
}

impl<T: Tree<Words>> Desk<T> {
    fn new(alloc: Global, places: u32) -> Result<Desk<T>, AllocError> {
        let (memo, mut callers) = Memo::new(alloc, 1, 1)?;
        let caller = match callers.pop() {
            Some(caller) => caller,
            None => unreachable!(),
        };
        let tree = T::fresh(alloc, 0, places)?;
        let m = CountMeter::new();
        Ok(Desk {
            memo,
            caller,
            tree,
            m,
        })
    }

    /// What a run does with the tree.
    fn run<W: Wait>(&mut self, alloc: Global, rt: &W, step: &Step) -> Result<(), AllocError> {
        self.tree.advance(
            alloc,
            rt,
            &self.memo,
            &mut self.caller,
            &Count::new(),
            0,
            &step.shift,
            step.news.as_slice(),
            &mut self.m,
        )?;
        self.tree.settle(rt, &self.memo, &mut self.caller);
        Ok(())
    }

    /// What one of these runs takes on average.
    fn cost<R: Wait + Clock>(
        &mut self,
        alloc: Global,
        rt: &R,
        steps: &[Step],
    ) -> io::Result<Cost> {
        let before = self.m.counts().merges;
        let start = Instant::now(rt)?;
        for step in steps {
            self.run(alloc, rt, step)?;
        }
        let count = steps.len().max(1) as u64;
        Ok(Cost {
            nanos: start.elapsed(rt)?.as_nanos() as u64 / count,
            tenths: (self.m.counts().merges - before) * 10 / count,
        })
    }
}

/// Nanoseconds, and tenths of merges.
#[derive(Clone, Copy)]
struct Cost {
    nanos: u64,
    tenths: u64,
}

impl Cost {
    /// The least time and the most merges of both.
    fn least(self, before: Option<Cost>) -> Cost {
        match before {
            Some(other) => Cost {
                nanos: self.nanos.min(other.nanos),
                tenths: self.tenths.max(other.tenths),
            },
            None => self,
        }
    }

    /// Its time in hundredths of that of the first one; it becomes the first if there is none yet.
    fn beside(&self, first: &mut Option<Cost>) -> u64 {
        let nanos = match first {
            Some(cost) => cost.nanos,
            None => self.nanos,
        };
        if first.is_none() {
            *first = Some(*self);
        }
        self.nanos * 100 / nanos.max(1)
    }
}
RATTLE
    draw_code
}
