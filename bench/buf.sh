#!/usr/bin/env bash
# Reads a second of the running cache, beside a plain cache of the same design over std's Mutex and Condvar (plain_buf.rs, by rustc -O),
# with 1, 4 and 16 threads. Usage: bench/buf.sh [RUNS]   Both take turns, and the best of RUNS runs is shown (5 if none is given).
#
# A read is `bread`, a look at one byte, and `brelse`. The disk is in memory and has 32 blocks.
# own blocks      each thread reads two blocks that no other reads; all blocks have buffers
# common blocks   each thread reads all blocks in order, from the same one on; all blocks have buffers
# one block       all threads read one block
# misses          16 buffers; each thread reads all blocks, mixed up; a transfer takes 50 microseconds of work
#
# The contracts and proofs of the program over the running cache are those of its test with threads, with 32 blocks in place of ten.
set -eu
root=$(cd "$(dirname "$0")/.." && pwd)
runs=${1:-5}
work=$(mktemp -d)
trap 'rm -rf "$work"' EXIT
below='sv_form|sv_dev|sv_links|sv_cache|sv_turn|sv_request|sv_store|sv_buf'
for crate in ${below//|/ }; do
    mkdir -p "$work/crates/$crate"
    for folder in src specs proofs; do
        [ ! -d "$root/crates/$crate/$folder" ] || cp -r "$root/crates/$crate/$folder" "$work/crates/$crate/"
    done
done
cp "$root/HANDLES" "$work/"
{ grep -E "^($below)[ :]" "$root/crates.txt"; echo 'buf_bench: sv_buf sv_turn sv_cache sv_store sv_dev sv_form'; } >"$work/crates.txt"
mkdir -p "$work/crates/buf_bench/src" "$work/crates/buf_bench/specs" "$work/crates/buf_bench/proofs"
cd "$work/crates/buf_bench"

# From the test with threads: its word for a share, the lemmas about shares, and the answers of the functions of the same names.
taken() {
    sed -e 's/\b10\b/32/g' -e 's/\bten\b/32/g' -e 's/ten_blocks/all_blocks/g' \
        -e 's/sv_buf\.\(specs\|proofs\)\.Sharing/buf_bench.\1.Sharing/' \
        -e 's/sv_buf\.proofs\.tests\.\(threads\.\|calls\.\)\?/buf_bench.proofs./' "$root/crates/sv_buf/$1"
}
answers() { # FUNCTION FOLDER
    mkdir -p "proofs/$1"
    for file in Invariants Answers; do
        [ ! -e "$root/crates/sv_buf/proofs/tests/$2$1/$file.antt" ] || taken "proofs/tests/$2$1/$file.antt" >"proofs/$1/$file.antt"
    done
}
taken specs/Sharing.antt >specs/Sharing.antt
echo 'pub mod Sharing' >specs/Lib.antt
echo 'pub mod Sharing' >proofs/Lib.antt
blocks=$(for b in $(seq 31 -1 0); do printf 'in_block first count %d ∷ ' "$b"; done)
{
    taken proofs/Sharing.antt | sed -e '/^pub all_blocks : /,/^all_blocks first/d'
    printf '\npub all_blocks : (first count : ℕ) → %s[] ≡ lines_below first count 32\n' "$blocks"
    printf 'unfolding lines_below\nall_blocks first count = refl\n'
    cat <<'ANTT'

-- whoever has all lines has the first ones
pub first-share : {o : Origin} {h : Held} {m : Lent} (count : ℕ) → count ≤ 16 → IsShare 0 16 o h m → IsShare 0 count o h m
first-share count most share = record {
  size = share.size;
  blocks = share.blocks;
  within = λ b l below from to. share.within b l below from (omega (arith, to, most));
  idle = share.idle;
}
ANTT
} >proofs/Sharing.antt
answers open ''
answers end ''
answers stop_all ''
sed -i -e 's/ g c =$/ c =/' proofs/end/Answers.antt
answers cut threads/
answers work threads/
answers '+fn-share-join+arg2+fn-share-join+arg3+share' threads/
answers read calls/
sed -i -e 's/whole-get c/share-get c.args.line c/' -e 's/whole-get/share-get/' proofs/read/Answers.antt
mkdir -p proofs/lines proofs/read_often
{
    echo 'use Rattle.buf_bench.proofs.Sharing.{all_blocks}'
    echo 'use Rattle.buf_bench.proofs.lines.Goals as goal'
    printf '\npub returns : goal.returns\nreturns c = rw (c.lines_in.ensures'
    for i in $(seq 2 32); do printf ', c.lines_in-%d.ensures' "$i"; done
    printf ')\n    (all_blocks c.args.first c.args.count)\n'
} >proofs/lines/Answers.antt
taken proofs/tests/threads/exchange_often/Invariants.antt \
    | sed -e 's/exchange_often/read_often/g' -e 's/invariant-loop/invariant-loop-i/g' >proofs/read_often/Invariants.antt
lines=$(for b in $(seq 31 -1 0); do printf '        lines_in(%d, first, count),\n' "$b"; done)
sed -e "s/^        LINES\$/${lines//$'\n'/\\n}/" >src/main.rt <<'RATTLE'
#![tactic(auto)]
ghost use Rattle.std.specs.Prelude.{◌≡◌, ◌+◌, ◌<◌, ◌≤◌, [], IfOk, IfSome, IfNone, length, vec_capacity};
ghost use Rattle.std.specs.Thread.{IsSync};
ghost use Rattle.sv_cache.specs.Cache.{IsBufferCount};
ghost use Rattle.sv_turn.specs.Passes.{first_view};
ghost use Rattle.sv_buf.specs.Ending.{HasAll, IsWorkers};
ghost use Rattle.buf_bench.specs.Sharing.{AreCut, IsFew, IsShare, KeepsLines, lines_below};

use std::alloc::Global;
use std::env;
use std::sync::Wait;
use std::test::Fail;
use std::thread::{Threads, join};
use std::time::{Clock, Instant};
use sv_buf::{Cache, CachePass, NoMemory};
use sv_dev::{Disk, Failed, MemDisk};
use sv_form::Geometry;
use sv_store::{LineRange, Refusal, Stake};

const SIZES: Geometry = Geometry {
    block_size: 1024,
    blocks: 32,
    first_data: 3,
};

fn mix(number: u64) -> u64 {
    let x = (number ^ (number >> 30)).wrapping_mul(13787848793156543929);
    let y = (x ^ (x >> 27)).wrapping_mul(10723151780598845931);
    y ^ (y >> 31)
}

// Work that no compiler leaves out, of as many rounds.
fn worked(rounds: u64, seed: u64) -> u64 {
    let mut x = seed;
    for _ in 0..rounds {
        x = mix(x).wrapping_add(1);
    }
    x
}

// A disk in memory of which each transfer takes some rounds of work.
#[derive(Drop)]
struct SlowDisk {
    inner: MemDisk,
    rounds: u64,
    spent: u64,
    asked: u64,
}

impl Disk for SlowDisk {
    ghost content = { λ d. d.inner.content };

    ghost reads = { λ d. d.inner.reads };

    ghost writes = { λ d. d.inner.writes };

    ghost faults = { λ d. d.inner.faults };

    fn length(&self) -> u64 {
        self.inner.length()
    }

    fn read(&mut self, at: u64, into: &mut [u8]) -> Result<(), Failed> {
        self.asked = self.asked.wrapping_add(1);
        self.spent = worked(self.rounds, self.spent);
        self.inner.read(at, into)
    }

    fn write(&mut self, at: u64, from: &[u8]) -> Result<(), Failed> {
        self.spent = worked(self.rounds, self.spent);
        self.inner.write(at, from)
    }
}

// The reads of each thread, how far apart their blocks begin, how far a thread goes at each read, and whether that is mixed up.
#[derive(Clone, Copy)]
struct Load {
    times: u64,
    apart: u64,
    step: u64,
    mixed: bool,
}

impl Load {
    fn block_of(self, thread: u8, i: u64) -> u32
        ensures { result < 32 }
    {
        let place = u64::from(thread).wrapping_mul(self.apart).wrapping_add(i.wrapping_mul(self.step));
        let number = if self.mixed { mix(place) } else { place };
        (number % 32) as u32
    }
}

fn lines_in(block: u32, first: u8, count: u8) -> LineRange
    ensures { result ≡ record { block = block; first = first; count = count } }
{
    LineRange { block, first, count }
}

fn lines(first: u8, count: u8) -> [LineRange; 32]
    ensures { result ≡ lines_below first count 32 }
{
    [
        LINES
    ]
}

fn read<R: Wait, S: Stake>(rt: &R, stake: &mut S, line: u8, block: u32) -> Result<u8, Refusal>
    requires share { IsShare line 1 (S.origin stake.old) (S.held stake.old) (S.lent stake.old) }
    requires block { block < 32 }
    ensures kept { KeepsLines S.held S.lent S.origin stake.old stake.new }
{
    let buf = stake.bread(rt, block)?;
    let got = buf.bytes()[0];
    stake.brelse(rt, buf);
    Ok(got)
}

// The reads of one thread, and the sum of what it read.
fn read_often<R: Wait, S: Stake>(rt: &R, stake: &mut S, line: u8, load: Load) -> u64
    requires share { IsShare line 1 (S.origin stake.old) (S.held stake.old) (S.lent stake.old) }
    ensures kept { KeepsLines S.held S.lent S.origin stake.old stake.new }
{
    let mut sum = 0u64;
    for i in 0..load.times {
        let got = read(rt, stake, line, load.block_of(line, i));
        sum = sum.wrapping_add(u64::from(got.unwrap_or(1)));
    }
    sum
}

fn cut<S: Stake>(alloc: Global, stake: &mut S, first: u8, half: u8, rest: u8) -> Option<S>
    requires share { IsShare first (half + rest) (S.origin stake.old) (S.held stake.old) (S.lent stake.old) }
    requires few { IsFew first half × IsFew (first + half) rest }
    ensures parts { IfSome result (AreCut S.held S.origin stake.old stake.new) }
    ensures kept { IfSome result (λ other. IsShare first half (S.origin stake.new) (S.held stake.new) (S.lent stake.new)) }
    ensures given { IfSome result (λ other. IsShare (first + half) rest (S.origin other) (S.held other) (S.lent other)) }
    ensures whole { IfNone result (KeepsLines S.held S.lent S.origin stake.old stake.new) }
{
    match stake.part(alloc, &lines(first + half, rest)) {
        Ok(other) => Some(other),
        Err(_) => None,
    }
}

// A line of each block to each thread.
fn share<R: Threads + Wait + Sync, S: Stake + Drop>(
    rt: &R,
    alloc: Global,
    mut stake: S,
    first: u8,
    count: u8,
    load: Load,
) -> (S, Result<u64, NoMemory>)
    requires share { IsShare first count (S.origin stake) (S.held stake) (S.lent stake) }
    requires few { IsFew first count }
    ensures kept { KeepsLines S.held S.lent S.origin stake result.0 }
{
    if count == 1 {
        let sum = read_often(rt, &mut stake, first, load);
        return (stake, Ok(sum));
    }
    let half = count / 2;
    let rest = count - half;
    let from = first + half;
    let Some(other) = cut(alloc, &mut stake, first, half, rest) else {
        return (stake, Err(NoMemory));
    };
    let ((mut stake, mine), (other, theirs)) = join(
        rt,
        move || -> (S, Result<u64, NoMemory>)
            requires { IsSync R.row × IsShare first half (S.origin stake) (S.held stake) (S.lent stake) × IsFew first half }
            ensures { KeepsLines S.held S.lent S.origin stake result.0 }
        { share(rt, alloc, stake, first, half, load) },
        move || -> (S, Result<u64, NoMemory>)
            requires { IsSync R.row × IsShare from rest (S.origin other) (S.held other) (S.lent other) × IsFew from rest }
            ensures { KeepsLines S.held S.lent S.origin other result.0 }
        { share(rt, alloc, other, from, rest, load) },
    );
    stake.merge(other);
    (stake, both(mine, theirs))
}

fn both(mine: Result<u64, NoMemory>, theirs: Result<u64, NoMemory>) -> Result<u64, NoMemory> {
    Ok(mine?.wrapping_add(theirs?))
}

fn work<R: Threads + Wait + Sync>(
    rt: &R,
    alloc: Global,
    cache: &Cache<SlowDisk>,
    first: CachePass<SlowDisk>,
    threads: u8,
    load: Load,
) -> (CachePass<SlowDisk>, Result<u64, NoMemory>)
    requires all { HasAll cache.now.turn first }
    requires sizes { (first_view cache.now.turn).opening.sizes ≡ record { block_size = 1024; blocks = 32; first_data = 3 } }
    requires threads { IsFew 0 threads }
    ensures { HasAll cache.now.turn result.0 }
{
    let stake = cache.stake(first);
    let (stake, sum) = share(rt, alloc, stake, 0, threads, load);
    let mut first = stake.give_up();
    stop_all(rt, cache, &mut first);
    (first, sum)
}

fn stop_all<R: Wait>(rt: &R, cache: &Cache<SlowDisk>, first: &mut CachePass<SlowDisk>)
    requires all { HasAll cache.now.turn first.old }
    ensures all { HasAll cache.now.turn first.new }
{
    cache.stop(rt, first);
}

fn run<R: Threads + Wait + Sync>(
    rt: &R,
    alloc: Global,
    cache: &Cache<SlowDisk>,
    first: CachePass<SlowDisk>,
    worker: CachePass<SlowDisk>,
    threads: u8,
    load: Load,
) -> (CachePass<SlowDisk>, CachePass<SlowDisk>, Result<u64, NoMemory>)
    requires all { HasAll cache.now.turn first }
    requires worker { IsWorkers cache.now.turn worker }
    requires sizes { (first_view cache.now.turn).opening.sizes ≡ record { block_size = 1024; blocks = 32; first_data = 3 } }
    requires threads { IsFew 0 threads }
    ensures all { HasAll cache.now.turn result.0 }
    ensures worker { IsWorkers cache.now.turn result.1 }
{
    let ((first, sum), worker) = join(
        rt,
        move || -> (CachePass<SlowDisk>, Result<u64, NoMemory>)
            requires { IsSync R.row × HasAll cache.now.turn first × IsFew 0 threads
                × ((first_view cache.now.turn).opening.sizes ≡ record { block_size = 1024; blocks = 32; first_data = 3 }) }
            ensures { HasAll cache.entry.now.turn result.0 }
        { work(rt, alloc, cache, first, threads, load) },
        move || -> CachePass<SlowDisk>
            requires { IsSync R.row × IsWorkers cache.now.turn worker }
            ensures { IsWorkers cache.entry.now.turn result }
        { cache.worker(rt, worker) },
    );
    (first, worker, sum)
}

fn open<D: Disk + Drop>(
    alloc: Global,
    disk: D,
    buffers: u32,
) -> Result<(Cache<D>, CachePass<D>, CachePass<D>, Vec<CachePass<D>>), NoMemory>
    requires length { length (D.content disk) ≡ 32768 }
    requires buffers { IsBufferCount buffers }
    ensures sizes { IfOk result (λ r. (first_view r.0.turn).opening.sizes ≡ record { block_size = 1024; blocks = 32; first_data = 3 }) }
    ensures all { IfOk result (λ r. HasAll r.0.turn r.1) }
    ensures worker { IfOk result (λ r. IsWorkers r.0.turn r.2) }
    ensures passes { IfOk result (λ r. (r.3.items ≡ []) × (vec_capacity r.3 ≡ 2)) }
{
    let passes = Vec::with_capacity(alloc, 2)?;
    match Cache::new(alloc, disk, buffers, SIZES) {
        Ok((cache, first, worker)) => Ok((cache, first, worker, passes)),
        Err((_, refused)) => {
            passes.destroy_empty();
            Err(refused)
        }
    }
}

fn end(
    mut passes: Vec<CachePass<SlowDisk>>,
    cache: Cache<SlowDisk>,
    first: CachePass<SlowDisk>,
    worker: CachePass<SlowDisk>,
) -> (SlowDisk, Result<(), Failed>)
    requires none { passes.items ≡ [] }
    requires room { vec_capacity passes ≡ 2 }
    requires all { HasAll cache.turn first }
    requires worker { IsWorkers cache.turn worker }
{
    passes.push_reserved(first);
    passes.push_reserved(worker);
    cache.close(passes)
}

fn nanos(rt: &impl Clock, start: Instant) -> Result<u64, Fail> {
    Ok(u64::try_from(start.elapsed(rt)?.as_nanos()).unwrap_or(u64::MAX))
}

fn disk(alloc: Global, rounds: u64) -> Result<SlowDisk, NoMemory>
    ensures { IfOk result (λ d. length d.inner.content ≡ 32768) }
{
    let content = vec![in alloc; 0u8; 32768]?;
    Ok(SlowDisk {
        inner: MemDisk::new(content, Vec::new(alloc)),
        rounds,
        spent: 0,
        asked: 0,
    })
}

// The nanoseconds in all, the reads of the disk, and a sum.
fn played<R: Threads + Wait + Clock + Sync>(
    rt: &R,
    alloc: Global,
    threads: u8,
    load: Load,
    buffers: u32,
    rounds: u64,
) -> Result<(u64, u64, u64), Fail>
    requires threads { IsFew 0 threads }
    requires buffers { IsBufferCount buffers }
{
    let disk = disk(alloc, rounds)?;
    let start = Instant::now(rt)?;
    let (cache, first, worker, passes) = open(alloc, disk, buffers)?;
    let (first, worker, sum) = run(rt, alloc, &cache, first, worker, threads, load);
    let taken = nanos(rt, start);
    let (disk, _) = end(passes, cache, first, worker);
    Ok((taken?, disk.asked, sum?.wrapping_add(disk.spent % 2)))
}

// Threads, the reads of each, how far apart their blocks begin, how far a thread goes at each read, buffers, rounds of work a transfer.
// Writes the nanoseconds in all, the reads of the disk, and a sum.
fn main(rt: HostRuntime) -> Result<(), Fail> {
    let mut words = env::args(&rt)?.skip(1);
    let threads: u8 = words.next().ok_or("threads")?.parse::<u8>()?;
    let times: u64 = words.next().ok_or("times")?.parse::<u64>()?;
    let apart: u64 = words.next().ok_or("apart")?.parse::<u64>()?;
    let step: u64 = words.next().ok_or("step")?.parse::<u64>()?;
    let buffers: u32 = words.next().ok_or("buffers")?.parse::<u32>()?;
    let rounds: u64 = words.next().ok_or("rounds")?.parse::<u64>()?;
    if threads == 0 || threads > 16 || buffers < 4 || buffers > 65536 {
        return Ok(());
    }
    let mixed = rounds > 0;
    let load = Load { times, apart, step, mixed };
    let (taken, asked, sum) = played(&rt, rt.alloc(), threads, load, buffers, rounds)?;
    println!(rt; "{taken} {asked} {sum}")?;
    Ok(())
}
RATTLE
rt run --jobs 1 -- 1 1000 1 16 64 0 >"$work/log" 2>&1 || { cat "$work/log"; exit 1; }
rustc -O --edition 2021 -o "$work/plain_buf" "$root/bench/plain_buf.rs"
programs=(out/buf_bench "$work/plain_buf")
rounds=$("$work/plain_buf" 50) # of work in 50 microseconds, for the disks of both
row() { # NAME READS-OF-THE-RUNNING-CACHE READS-OF-THE-PLAIN-ONE THREADS APART STEP BUFFERS ROUNDS-A-TRANSFER
    local reads=("$2" "$3") best=(0 0) transfers=(0 0) nanos asked side
    for _ in $(seq "$runs"); do
        for side in 0 1; do
            read -r nanos asked _ < <("${programs[side]}" "$4" $((reads[side] / $4)) "${@:5}")
            if ((best[side] == 0 || nanos < best[side])); then best[side]=$nanos transfers[side]=$asked; fi
        done
    done
    awk -v name="$1" -v n="$4" -v all="$2" -v plain="$3" -v a="${best[0]}" -v b="${best[1]}" \
        -v ra="${transfers[0]}" -v rb="${transfers[1]}" \
        'BEGIN { printf "%-14s %2d threads: running cache %8.0f/s, plain %8.0f/s, %.2f of it; a transfer in %.1f and in %.1f reads\n",
            name, n, all * 1e9 / a, plain * 1e9 / b, all * b / (plain * a), all / ra, plain / rb }'
}
# The plain one makes more reads where it hits, so that its threads are at work at the same time too.
for threads in 1 4 16; do row 'own blocks' 160000 3200000 $threads 1 16 64 0; done
for threads in 1 4 16; do row 'common blocks' 160000 3200000 $threads 0 1 64 0; done
for threads in 1 4 16; do row 'one block' 160000 3200000 $threads 0 0 64 0; done
for threads in 1 4 16; do row 'misses' 8000 8000 $threads 1000003 1 16 "$rounds"; done
