//! A plain buffer cache of the design of `sv_buf`, over std's Mutex and Condvar, and the loads of buf.sh over it.
//!
//! 64 hash queues, a free list, buffers with state; the lock is given up during a transfer, and the device is out meanwhile. A thread that
//! waits sleeps on the condition variable of one buffer, of any buffer or of the device, and looks again. Nobody is told where nobody
//! waits: those who sleep are counted under the lock.

use std::env;
use std::hint::black_box;
use std::sync::{Condvar, Mutex, MutexGuard};
use std::thread;
use std::time::Instant;

const HASH_QUEUES: u32 = 64;
const BLOCK: usize = 1024;
const BLOCKS: u32 = 32;

fn mix(number: u64) -> u64 {
    let x = (number ^ (number >> 30)).wrapping_mul(13787848793156543929);
    let y = (x ^ (x >> 27)).wrapping_mul(10723151780598845931);
    y ^ (y >> 31)
}

// Work that no compiler leaves out, of as many rounds.
fn work(rounds: u64, seed: u64) -> u64 {
    let mut x = seed;
    for _ in 0..rounds {
        x = mix(x).wrapping_add(1);
    }
    x
}

// How many rounds of work take so many microseconds, by the quickest of many tries.
fn rounds_in(microseconds: u64) -> u64 {
    let mut best = u64::MAX;
    for seed in 0..500 {
        let start = Instant::now();
        black_box(work(100_000, seed));
        best = best.min(start.elapsed().as_nanos() as u64);
    }
    microseconds * 100_000_000 / best.max(1)
}

// A disk in memory of which each transfer takes some rounds of work.
struct Disk {
    content: Vec<u8>,
    rounds: u64,
    spent: u64,
    reads: u64,
}

impl Disk {
    fn read(&mut self, block: u32, into: &mut [u8]) {
        self.reads += 1;
        self.spent = work(self.rounds, self.spent);
        let at = block as usize * BLOCK;
        into.copy_from_slice(&self.content[at..at + BLOCK]);
    }

    fn write(&mut self, block: u32, from: &[u8]) {
        self.spent = work(self.rounds, self.spent);
        let at = block as usize * BLOCK;
        self.content[at..at + BLOCK].copy_from_slice(from);
    }
}

struct Header {
    block: Option<u32>,
    free: bool,
    valid: bool,
    delayed: bool,
    bytes: Option<Vec<u8>>,
    sleepers: u32,
}

const NONE: u32 = u32::MAX;

// Circular lists of buffers, linked by number. The heads have the numbers from the count of buffers on.
struct Lists {
    next: Vec<u32>,
    before: Vec<u32>,
    buffers: u32,
}

impl Lists {
    fn new(buffers: u32, lists: u32) -> Lists {
        let mut next = vec![NONE; buffers as usize];
        next.extend(buffers..buffers + lists);
        Lists { before: next.clone(), next, buffers }
    }

    fn first(&self, list: u32) -> Option<u32> {
        self.after(self.buffers + list)
    }

    fn after(&self, x: u32) -> Option<u32> {
        Some(self.next[x as usize]).filter(|&n| n < self.buffers)
    }

    fn unlink(&mut self, x: u32) {
        let (n, b) = (self.next[x as usize], self.before[x as usize]);
        if n != NONE {
            self.next[b as usize] = n;
            self.before[n as usize] = b;
            self.next[x as usize] = NONE;
        }
    }

    fn put_between(&mut self, b: u32, x: u32, n: u32) {
        self.next[b as usize] = x;
        self.before[x as usize] = b;
        self.next[x as usize] = n;
        self.before[n as usize] = x;
    }

    fn push_tail(&mut self, list: u32, x: u32) {
        let head = self.buffers + list;
        self.put_between(self.before[head as usize], x, head);
    }

    fn push_head(&mut self, list: u32, x: u32) {
        let head = self.buffers + list;
        self.put_between(head, x, self.next[head as usize]);
    }
}

struct State {
    headers: Vec<Header>,
    queues: Lists,
    free: Lists,
    disk: Option<Disk>,
    any_sleepers: u32,
    disk_sleepers: u32,
}

enum Scenario {
    Hit(u32),
    Taken(u32),
    Delayed(u32, u32),
    Empty,
    Busy(u32),
}

impl State {
    fn find(&self, block: u32) -> Option<u32> {
        let mut next = self.queues.first(block % HASH_QUEUES);
        while let Some(k) = next {
            if self.headers[k as usize].block == Some(block) {
                return Some(k);
            }
            next = self.queues.after(k);
        }
        None
    }

    fn take_off(&mut self, k: u32) {
        self.free.unlink(k);
        self.headers[k as usize].free = false;
    }

    fn attempt(&mut self, block: u32) -> Scenario {
        if let Some(k) = self.find(block) {
            if !self.headers[k as usize].free {
                return Scenario::Busy(k);
            }
            self.take_off(k);
            return Scenario::Hit(k);
        }
        let Some(k) = self.free.first(0) else { return Scenario::Empty };
        self.take_off(k);
        let header = &mut self.headers[k as usize];
        if header.delayed {
            return Scenario::Delayed(k, header.block.unwrap());
        }
        header.block = Some(block);
        header.valid = false;
        self.queues.unlink(k);
        self.queues.push_tail(block % HASH_QUEUES, k);
        Scenario::Taken(k)
    }
}

type Guard<'a> = MutexGuard<'a, State>;

struct Cache {
    state: Mutex<State>,
    each: Vec<Condvar>,
    any: Condvar,
    device: Condvar,
    always: bool,
}

impl Cache {
    fn new(disk: Disk, buffers: u32, always: bool) -> Cache {
        let mut free = Lists::new(buffers, 1);
        let header = |_| Header { block: None, free: true, valid: false, delayed: false, bytes: Some(vec![0; BLOCK]), sleepers: 0 };
        (0..buffers).for_each(|k| free.push_tail(0, k));
        Cache {
            state: Mutex::new(State {
                headers: (0..buffers).map(header).collect(),
                queues: Lists::new(buffers, HASH_QUEUES),
                free,
                disk: Some(disk),
                any_sleepers: 0,
                disk_sleepers: 0,
            }),
            each: (0..buffers).map(|_| Condvar::new()).collect(),
            any: Condvar::new(),
            device: Condvar::new(),
            always,
        }
    }

    // Takes the device out, and gives the lock up.
    fn fetch<'a>(&'a self, mut state: Guard<'a>) -> Disk {
        loop {
            if let Some(disk) = state.disk.take() {
                return disk;
            }
            state.disk_sleepers += 1;
            state = self.device.wait(state).unwrap();
            state.disk_sleepers -= 1;
        }
    }

    fn bring_home(&self, disk: Disk) -> Guard<'_> {
        let mut state = self.state.lock().unwrap();
        state.disk = Some(disk);
        if self.always || state.disk_sleepers > 0 {
            self.device.notify_all();
        }
        state
    }

    // Puts a buffer on the free list, and wakes all who wait for it or for any.
    fn give_back(&self, mut state: Guard<'_>, k: u32, bytes: Vec<u8>, delayed: bool, to_head: bool) {
        let header = &mut state.headers[k as usize];
        (header.bytes, header.valid, header.delayed, header.free) = (Some(bytes), true, delayed, true);
        let sleepers = header.sleepers;
        if to_head { state.free.push_head(0, k) } else { state.free.push_tail(0, k) }
        let any_sleepers = state.any_sleepers;
        drop(state);
        if self.always || any_sleepers > 0 {
            self.any.notify_all();
        }
        if self.always || sleepers > 0 {
            self.each[k as usize].notify_all();
        }
    }

    fn bread(&self, block: u32) -> (u32, Vec<u8>) {
        let mut state = self.state.lock().unwrap();
        loop {
            match state.attempt(block) {
                Scenario::Hit(k) | Scenario::Taken(k) => {
                    let header = &mut state.headers[k as usize];
                    let mut bytes = header.bytes.take().unwrap();
                    if !header.valid {
                        let mut disk = self.fetch(state);
                        disk.read(block, &mut bytes);
                        let mut state = self.bring_home(disk);
                        state.headers[k as usize].valid = true;
                    }
                    return (k, bytes);
                }
                Scenario::Delayed(k, of) => {
                    let bytes = state.headers[k as usize].bytes.take().unwrap();
                    let mut disk = self.fetch(state);
                    disk.write(of, &bytes);
                    self.give_back(self.bring_home(disk), k, bytes, false, true);
                    state = self.state.lock().unwrap();
                }
                Scenario::Empty => {
                    state.any_sleepers += 1;
                    state = self.any.wait(state).unwrap();
                    state.any_sleepers -= 1;
                }
                Scenario::Busy(k) => {
                    state.headers[k as usize].sleepers += 1;
                    state = self.each[k as usize].wait(state).unwrap();
                    state.headers[k as usize].sleepers -= 1;
                }
            }
        }
    }

    fn brelse(&self, k: u32, bytes: Vec<u8>) {
        let state = self.state.lock().unwrap();
        let delayed = state.headers[k as usize].delayed;
        self.give_back(state, k, bytes, delayed, false);
    }

    fn read_often(&self, times: u64, first: u64, step: u64, mixed: bool) -> u64 {
        let mut sum = 0;
        for i in 0..times {
            let place = first + i * step;
            let number = if mixed { mix(place) } else { place };
            let (k, bytes) = self.bread((number % u64::from(BLOCKS)) as u32);
            sum += u64::from(bytes[0]);
            self.brelse(k, bytes);
        }
        sum
    }
}

// Threads, the reads of each, how far apart their blocks begin, how far a thread goes at each read, buffers, rounds of work a transfer;
// with a seventh word, everybody is told whether or not somebody waits. Writes the nanoseconds in all, the reads of the disk, and a sum.
// With one word, writes how many rounds take so many microseconds.
fn main() {
    let words: Vec<u64> = env::args().skip(1).map(|word| word.parse().unwrap()).collect();
    if let [microseconds] = words[..] {
        println!("{}", rounds_in(microseconds));
        return;
    }
    let [threads, times, apart, step, buffers, rounds] = words[..6] else { panic!("six numbers") };
    let disk = Disk { content: vec![0; BLOCK * BLOCKS as usize], rounds, spent: 0, reads: 0 };
    let start = Instant::now();
    let cache = Cache::new(disk, buffers as u32, words.len() > 6);
    let sum: u64 = thread::scope(|scope| {
        let cache = &cache;
        let start_one = |thread: u64| scope.spawn(move || cache.read_often(times, thread * apart, step, rounds > 0));
        let handles: Vec<_> = (0..threads).map(start_one).collect();
        handles.into_iter().map(|handle| handle.join().unwrap()).sum()
    });
    let nanos = start.elapsed().as_nanos();
    let disk = cache.state.into_inner().unwrap().disk.unwrap();
    println!("{nanos} {} {}", disk.reads, sum ^ (disk.spent & 1));
}
