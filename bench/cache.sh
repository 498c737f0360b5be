#!/usr/bin/env bash
# Nanoseconds a call of the lists and of the cache core, with 64, 8,192 and 65,536 buffers. Usage: bench/cache.sh
#
# push, next, unlink   a list of all numbers is filled, walked, and emptied from the middle on; the three calls together
# taken                a search for a block that no buffer names, with lend and give_back
# hit                  a search for a block that a buffer names, with lend and give_back; the hash queue is gone along to its end on
#                      average half way, and has a 64th of the buffers
# release              lend and give_back alone
# next_delayed         one walk of the whole free list, where no buffer is delayed; by the buffer
set -eu
root=$(cd "$(dirname "$0")/.." && pwd)
work=$(mktemp -d)
trap 'rm -rf "$work"' EXIT
for crate in sv_form sv_dev sv_links sv_cache; do
    mkdir -p "$work/crates/$crate"
    cp -r "$root/crates/$crate/src" "$root/crates/$crate/specs" "$root/crates/$crate/proofs" "$work/crates/$crate/"
done
cp "$root/HANDLES" "$work/"
{ grep -E '^(sv_form|sv_dev|sv_links|sv_cache):' "$root/crates.txt"; echo 'cache_bench: sv_cache sv_links sv_dev sv_form'; } >"$work/crates.txt"
mkdir -p "$work/crates/cache_bench/src"
cd "$work/crates/cache_bench"
cat >src/main.rt <<'RATTLE'
#![tactic(auto)]
ghost use Rattle.std.specs.Prelude.{◌≡◌, ◌<◌, ◌≤◌, IfOk, IfSome, length};
ghost use Rattle.sv_cache.specs.Cache.{IsBufferCount};
ghost use Rattle.sv_cache.specs.Held.{IsHeld};

use std::alloc::{AllocError, Global};
use std::env;
use std::test::Fail;
use std::time::Instant;
use sv_cache::{CacheCore, Release, Scenario};
use sv_dev::MemDisk;
use sv_form::Geometry;
use sv_links::Lists;

fn push(lists: &mut Lists, n: u32, x: u32)
    requires { (length lists.old.lists ≡ 1) × (lists.old.numbers ≡ n) }
    ensures { (length lists.new.lists ≡ 1) × (lists.new.numbers ≡ n) }
{
    if x < n && lists.list_of(x).is_none() {
        lists.push_tail(0, x);
    }
}

fn unlink(lists: &mut Lists, n: u32, x: u32)
    requires { (length lists.old.lists ≡ 1) × (lists.old.numbers ≡ n) }
    ensures { (length lists.new.lists ≡ 1) × (lists.new.numbers ≡ n) }
{
    if x < n && lists.list_of(x).is_some() {
        lists.unlink(x);
    }
}

fn step(lists: &Lists, n: u32, x: u32) -> Option<u32>
    requires { lists.now.numbers ≡ n }
{
    if x >= n {
        return None;
    }
    lists.list_of(x)?;
    lists.next(x)
}

fn push_all(lists: &mut Lists, n: u32)
    requires { (length lists.old.lists ≡ 1) × (lists.old.numbers ≡ n) }
    ensures { (length lists.new.lists ≡ 1) × (lists.new.numbers ≡ n) }
{
    for x in 0..n {
        push(lists, n, x);
    }
}

// From the middle on, then from the beginning.
fn unlink_all(lists: &mut Lists, n: u32)
    requires { (length lists.old.lists ≡ 1) × (lists.old.numbers ≡ n) }
    ensures { (length lists.new.lists ≡ 1) × (lists.new.numbers ≡ n) }
{
    for x in n / 2..n {
        unlink(lists, n, x);
    }
    for x in 0..n / 2 {
        unlink(lists, n, x);
    }
}

// How many numbers the list has.
fn walk(lists: &Lists, n: u32) -> u32
    requires { (length lists.now.lists ≡ 1) × (lists.now.numbers ≡ n) }
{
    let mut next = lists.first(0);
    let mut count = 0u32;
    for _ in 0..n {
        let Some(x) = next else {
            break;
        };
        count = count.saturating_add(1);
        next = step(lists, n, x);
    }
    count
}

fn get(core: &mut CacheCore<MemDisk>, block: u32) -> Option<u32>
    ensures { IfSome result (IsHeld core.new) }
{
    match core.attempt(block) {
        Scenario::Hit(buffer) | Scenario::Taken(buffer) | Scenario::Delayed(buffer) => Some(buffer),
        Scenario::Empty | Scenario::Busy(_) => None,
    }
}

fn release(core: &mut CacheCore<MemDisk>, buffer: u32)
    requires { IsHeld core.old buffer }
{
    let bytes = core.lend(buffer);
    core.give_back(buffer, bytes, Release::Valid);
}

fn use_block(core: &mut CacheCore<MemDisk>, block: u32) {
    if let Some(buffer) = get(core, block) {
        release(core, buffer);
    }
}

fn use_all(core: &mut CacheCore<MemDisk>, blocks: u32) {
    for block in 0..blocks {
        use_block(core, block);
    }
}

fn make(alloc: Global, buffers: u32) -> Result<CacheCore<MemDisk>, AllocError>
    requires { IsBufferCount buffers }
{
    let geometry = Geometry {
        block_size: 1024,
        blocks: 65536,
        first_data: 1000,
    };
    let disk = MemDisk::new(vec![in alloc; 0u8; 67108864]?, Vec::new(alloc));
    match CacheCore::new(alloc, disk, buffers, geometry) {
        Ok(core) => Ok(core),
        Err((_, refusal)) => Err(refusal),
    }
}

fn nanos(rt: &HostRuntime, start: Instant) -> Result<u128, Fail> {
    Ok(start.elapsed(rt)?.as_nanos())
}

// Fills the list, goes along it, and empties it, so many times.
fn cycle(lists: &mut Lists, n: u32, rounds: u32) -> u32
    requires { (length lists.old.lists ≡ 1) × (lists.old.numbers ≡ n) }
    ensures { (length lists.new.lists ≡ 1) × (lists.new.numbers ≡ n) }
{
    let mut seen = 0u32;
    for _x in 0..rounds {
        push_all(lists, n);
        seen = walk(lists, n);
        unlink_all(lists, n);
    }
    seen
}

fn time_lists(rt: &HostRuntime, n: u32, rounds: u32) -> Result<(), Fail> {
    let calls = u128::from(n) * u128::from(rounds);
    let mut lists = Lists::new(rt.alloc(), n, 1)?;
    let start = Instant::now(rt)?;
    let seen = cycle(&mut lists, n, rounds);
    let taken = nanos(rt, start)?;
    if calls > 0 {
        println!(rt; "{n} buffers, {seen} seen: push, next and unlink {}", taken / calls)?;
    }
    Ok(())
}

// What the calls took, in nanoseconds in all.
#[derive(Clone, Copy)]
struct Times {
    taken: u128,
    hit: u128,
    delayed: u128,
    found: u32,
}

fn time_cache(rt: &HostRuntime, core: &mut CacheCore<MemDisk>, n: u32, rounds: u32) -> Result<Times, Fail> {
    let start = Instant::now(rt)?;
    use_all(core, n);
    let taken = nanos(rt, start)?;
    let start = Instant::now(rt)?;
    for _ in 0..rounds {
        use_all(core, n);
    }
    let hit = nanos(rt, start)?;
    let start = Instant::now(rt)?;
    let mut found = 0u32;
    for _ in 0..rounds {
        if core.next_delayed().is_some() {
            found = found.saturating_add(1);
        }
    }
    Ok(Times { taken, hit, delayed: nanos(rt, start)?, found })
}

// The number of buffers and how often; writes the nanoseconds a call.
fn main(rt: HostRuntime) -> Result<(), Fail> {
    let mut words = env::args(&rt)?.skip(1);
    let n: u32 = words.next().ok_or("buffers")?.parse::<u32>()?;
    let rounds: u32 = words.next().ok_or("rounds")?.parse::<u32>()?;
    if n < 4 || n > 65536 || rounds == 0 {
        return Ok(());
    }
    time_lists(&rt, n, rounds)?;
    let mut core = make(rt.alloc(), n)?;
    let times = time_cache(&rt, &mut core, n, rounds);
    let _ = core.into_device();
    let times = times?;
    let (once, calls) = (u128::from(n), u128::from(n) * u128::from(rounds));
    println!(rt; "{n} buffers, {} delayed: taken {}, hit {}, next_delayed {} a buffer", times.found, times.taken / once, times.hit / calls, times.delayed / calls)?;
    Ok(())
}
RATTLE
for f in push_all unlink_all; do
    mkdir -p "proofs/$f"
    cat >"proofs/$f/Invariants.antt" <<ANTT
use Rattle.std.specs.Prelude.{◌≡◌, length}
use Rattle.cache_bench.proofs.$f.Given as goal

abbrev pub invariant-loop-x : goal.invariant-loop-x
invariant-loop-x l = (length l.lists.lists ≡ 1) × (l.lists.numbers ≡ l.n)
ANTT
done
cat >>proofs/unlink_all/Invariants.antt <<'ANTT'

abbrev pub invariant-loop-x-2 : goal.invariant-loop-x-2
invariant-loop-x-2 l = (length l.lists.lists ≡ 1) × (l.lists.numbers ≡ l.n)
ANTT
mkdir -p proofs/cycle
sed -e 's/push_all/cycle/' proofs/push_all/Invariants.antt >proofs/cycle/Invariants.antt
rt run -- 64 10 >"$work/log" 2>&1 || { cat "$work/log"; exit 1; }
for row in '64 20000' '8192 200' '65536 20'; do
    out/cache_bench $row
done
