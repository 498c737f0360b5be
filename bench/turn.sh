#!/usr/bin/env bash
# Entries a second of the turn, beside std's Mutex with a Condvar, with 1, 4 and 16 threads. Both are built by the kit.
# Usage: bench/turn.sh [RUNS]   The best of RUNS runs is shown (5 if none is given).
# Three loads: entries back to back; the same with a sleep and a wake at each hundredth; some work before each entry.
set -eu
root=$(cd "$(dirname "$0")/.." && pwd)
runs=${1:-5}
work=$(mktemp -d)
trap 'rm -rf "$work"' EXIT
mkdir -p "$work/crates/sv_turn" "$work/crates/turn_bench"
cp -r "$root/crates/sv_turn/"{src,specs,proofs} "$work/crates/sv_turn/"
cp "$root/HANDLES" "$work/"
printf 'sv_turn: atomic_table crossbeam_utils\nturn_bench: sv_turn\n' > "$work/crates.txt"
cd "$work/crates/turn_bench"
mkdir -p src specs proofs/enter_turn
echo 'pub mod Halves' > specs/Lib.antt
cat > specs/Halves.antt <<'ANTT'
-- A rule that asks nothing of the state. A view is its weight.
use Rattle.std.specs.Prelude.{◌≡◌, ℕ, ◌+◌, ◌<◌, ◌≤◌, List}
use Rattle.sv_turn.specs.declared.pass.Pass.{Pass}
use Rattle.sv_turn.specs.declared.turn.Turn.{Turn}
use Rattle.sv_turn.specs.Passes.{pass_view, IsOut, IsPassOf, turn_events}

abbrev pub Free : ℕ → List ℕ → Type 0
Free n views = Unit {0}

abbrev pub IsCut : ℕ → ℕ → ℕ → Type 0
IsCut v a b = (v ≡ a + b) × (0 < a) × (0 < b)

abbrev pub Has : {R S : Type 0} → Turn R S ℕ → Pass R S ℕ → ℕ → Type 0
Has t p n = IsPassOf t p × IsOut p × (n ≤ pass_view p) × (0 < n) × (0 < turn_events t)

abbrev pub Back : {R S : Type 0} → Turn R S ℕ → Pass R S ℕ → Pass R S ℕ → Type 0
Back t old new = IsPassOf t new × IsOut new × (pass_view new ≡ pass_view old)
ANTT
cat > proofs/enter_turn/Invariants.antt <<'ANTT'
use Rattle.turn_bench.specs.Halves.{Has, Back}
use Rattle.turn_bench.proofs.enter_turn.Given as goal

abbrev pub invariant-loop-i : goal.invariant-loop-i
invariant-loop-i g l = Has l.turn l.pass 1 × Back l.turn l.fn.pass l.pass
ANTT
for f in in_turns in_locks; do
    cycle="+fn-$f-join+arg2+fn-$f-join+arg3+$f"
    mkdir -p "proofs/$cycle"
    cat > "proofs/$cycle/Invariants.antt" <<ANTT
use Rattle.std.proofs.Common.{◌+◌, ◌*◌}
use Rattle.turn_bench.proofs.$cycle.Given as goal

abbrev pub decreases-join+arg2 : goal.decreases-join+arg2
decreases-join+arg2 g l = 2 * l.most + 1

abbrev pub decreases-join+arg3 : goal.decreases-join+arg3
decreases-join+arg3 g l = 2 * l.half + 1

abbrev pub decreases-$f : goal.decreases-$f
decreases-$f g l = 2 * l.threads
ANTT
done
cat > src/main.rt <<'RATTLE'
#![tactic(auto)]
ghost use Rattle.std.specs.Prelude.{◌≡◌, ◌+◌, ◌-◌, ◌/◌, ◌<◌, ◌≤◌, refl};
ghost use Rattle.std.specs.Thread.{IsSync};
ghost use Rattle.sv_turn.specs.Passes.{turn_events};
ghost use Rattle.turn_bench.specs.Halves.{Free, IsCut, Has, Back};

use std::alloc::Global;
use std::env;
use std::sync::atomic::AtomicU64;
use std::sync::atomic::Ordering::SeqCst;
use std::sync::{Condvar, Mutex, Wait};
use std::test::Fail;
use std::thread::{Threads, join, yield_now};
use std::time::Instant;
use sv_turn::{CutView, FirstView, NewView, Pass, Turn, TurnRule, WholeView};

struct Count;

impl TurnRule for Count {
    type State = u64;
    type View = u64;
    ghost holds = { Free };
    ghost blank = { 0 };
    ghost weight = { λ v. v };
    ghost cuts = { IsCut };
    ghost any_order = { λ s xs ys same h. tt };
    ghost blank_light = { refl };
    ghost blank_more = { λ s xs h. tt };
    ghost blank_less = { λ s xs h. tt };
    ghost cut = { λ s v a b xs c h. tt };
    ghost uncut = { λ s v a b xs c h. tt };
    ghost weighs = { λ v a b c. c };
}

struct Sixteen;

impl FirstView<u64> for Sixteen {
    ghost first = { 16 };
}

struct Same;

impl NewView<u64> for Same {
    ghost next = { λ v. v };
}

struct Halves;

impl CutView<u64> for Halves {
    ghost left = { λ v. v - v / 2 };
    ghost right = { λ v. v / 2 };
}

impl WholeView<u64> for Halves {
    ghost whole = { λ v w. v + w };
}

// The entries of each thread, whether each hundredth sleeps, how much work lies before each, and the threads still at it.
#[derive(Drop)]
struct Load {
    entries: u64,
    sleeps: bool,
    rounds: u64,
    working: AtomicU64,
}

fn worked(load: &Load, seed: u64) -> u64 {
    let mut x = seed;
    for _ in 0..load.rounds {
        x = x.wrapping_mul(6364136223846793005).wrapping_add(1442695040888963407);
    }
    x
}

fn enter_once<R: Wait>(rt: &R, turn: &Turn<Count>, pass: &mut Pass<Count>, x: u64, sleeps: bool)
    requires { Has turn.now pass.old 1 }
    ensures { Back turn.now pass.old pass.new }
{
    let count = turn.enter(rt, pass);
    if !sleeps {
        turn.leave::<Same>(pass, count.wrapping_add(x));
        return;
    }
    let count = turn.sleep_on::<Same, R>(rt, pass, count.wrapping_add(x), 0);
    turn.leave::<Same>(pass, count);
    turn.wake(0);
}

fn enter_turn<R: Wait>(rt: &R, turn: &Turn<Count>, load: &Load, mut pass: Pass<Count>) -> Pass<Count>
    requires { Has turn.now pass 1 }
    ensures { Back turn.now pass result }
{
    for i in 0..load.entries {
        enter_once(rt, turn, &mut pass, worked(load, i), load.sleeps && i % 100 == 99);
    }
    load.working.fetch_sub(1, SeqCst);
    pass
}

fn in_turns<R: Threads + Wait + Sync>(rt: &R, turn: &Turn<Count>, load: &Load, threads: u64, mut pass: Pass<Count>) -> Pass<Count>
    requires { Has turn.now pass threads }
    ensures { Back turn.now pass result }
{
    if threads == 1 {
        return enter_turn(rt, turn, load, pass);
    }
    let Ok(other) = turn.split::<Halves>(&mut pass) else {
        return pass;
    };
    let half = threads / 2;
    let most = threads - half;
    let (mut pass, other) = join(
        rt,
        move || -> Pass<Count>
            requires { IsSync R.row × Has turn.now pass most }
            ensures { Back turn.entry.now pass result }
        { in_turns(rt, turn, load, most, pass) },
        move || -> Pass<Count>
            requires { IsSync R.row × Has turn.now other half }
            ensures { Back turn.entry.now other result }
        { in_turns(rt, turn, load, half, other) },
    );
    turn.join::<Halves>(&mut pass, other);
    pass
}

fn enter_lock<R: Wait>(rt: &R, lock: &Mutex<u64>, event: &Condvar, load: &Load) {
    for i in 0..load.entries {
        let x = worked(load, i);
        let mut count = lock.lock(rt);
        *count = count.wrapping_add(x);
        if load.sleeps && i % 100 == 99 {
            drop(event.wait(rt, count));
            event.notify_all();
        }
    }
    load.working.fetch_sub(1, SeqCst);
}

fn in_locks<R: Threads + Wait + Sync>(rt: &R, lock: &Mutex<u64>, event: &Condvar, load: &Load, threads: u64) {
    if threads <= 1 {
        enter_lock(rt, lock, event, load);
        return;
    }
    let half = threads / 2;
    let most = threads - half;
    join(
        rt,
        move || requires { IsSync R.row } { in_locks(rt, lock, event, load, most) },
        move || requires { IsSync R.row } { in_locks(rt, lock, event, load, half) },
    );
}

// Wakes those that sleep until the work is done.
fn wake_turn<R: Wait>(rt: &R, turn: &Turn<Count>, load: &Load)
    requires { 0 < turn_events turn.now }
{
    for _ in rt.forever() {
        if !load.sleeps || load.working.load(SeqCst) == 0 {
            break;
        }
        turn.wake(0);
        yield_now();
    }
}

fn wake_lock<R: Wait>(rt: &R, event: &Condvar, load: &Load) {
    for _ in rt.forever() {
        if !load.sleeps || load.working.load(SeqCst) == 0 {
            break;
        }
        event.notify_all();
        yield_now();
    }
}

fn run_turn<R: Threads + Wait + Sync>(rt: &R, alloc: Global, load: &Load, threads: u64)
    requires { (0 < threads) × (threads ≤ 16) }
{
    let Ok((turn, first)) = Turn::<Count>::new::<Sixteen>(alloc, 0, 1) else {
        return;
    };
    let shared = &turn;
    let (first, ()) = join(
        rt,
        move || -> Pass<Count>
            requires { IsSync R.row × Has shared.now first threads }
            ensures { Back shared.entry.now first result }
        { in_turns(rt, shared, load, threads, first) },
        move || wake_turn(rt, shared, load),
    );
    let _ = turn.close(first);
}

fn run_lock<R: Threads + Wait + Sync>(rt: &R, load: &Load, threads: u64) {
    let lock = Mutex::new(0);
    let event = Condvar::new();
    let (held, told) = (&lock, &event);
    join(rt, move || in_locks(rt, held, told, load, threads), move || wake_lock(rt, told, load));
}

fn load_of(entries: u64, sleeps: bool, rounds: u64, threads: u64) -> Load {
    Load { entries, sleeps, rounds, working: AtomicU64::new(threads) }
}

// Threads, entries of each, 0 or 1 for sleeping, rounds of work; writes the microseconds of the turn and of the mutex.
fn main(rt: HostRuntime) -> Result<(), Fail> {
    let mut words = env::args(&rt)?.skip(1);
    let threads: u64 = words.next().ok_or("threads")?.parse::<u64>()?;
    let entries: u64 = words.next().ok_or("entries")?.parse::<u64>()?;
    let sleeps = words.next().ok_or("sleeps")?.parse::<u64>()? == 1;
    let rounds: u64 = words.next().ok_or("rounds")?.parse::<u64>()?;
    if threads == 0 || threads > 16 {
        return Ok(());
    }
    let start = Instant::now(&rt)?;
    run_turn(&rt, rt.alloc(), &load_of(entries, sleeps, rounds, threads), threads);
    let turn = start.elapsed(&rt)?.as_micros();
    let start = Instant::now(&rt)?;
    run_lock(&rt, &load_of(entries, sleeps, rounds, threads), threads);
    let lock = start.elapsed(&rt)?.as_micros();
    println!(rt; "{turn} {lock}")?;
    Ok(())
}
RATTLE
rt run -- 1 1000 0 0 > "$work/log" 2>&1 || { cat "$work/log"; exit 1; }
row() { # NAME THREADS ENTRIES SLEEPS ROUNDS
    local best_turn=999999999 best_lock=999999999 turn lock
    for _ in $(seq "$runs"); do
        read -r turn lock < <(out/turn_bench "${@:2}")
        if ((turn < best_turn)); then best_turn=$turn; fi
        if ((lock < best_lock)); then best_lock=$lock; fi
    done
    awk -v name="$1" -v n="$2" -v e="$3" -v t="$best_turn" -v l="$best_lock" \
        'BEGIN { printf "%-22s %2d threads: turn %9.0f/s, mutex %9.0f/s, %.2f of it\n", name, n, n * e * 1e6 / t, n * e * 1e6 / l, l / t }'
}
for threads in 1 4 16; do row 'back to back' $threads $((1600000 / threads)) 0 0; done
for threads in 1 4 16; do row 'a sleep in a hundred' $threads $((320000 / threads)) 1 0; done
for threads in 1 4 16; do row 'work before each' $threads $((320000 / threads)) 0 4000; done
