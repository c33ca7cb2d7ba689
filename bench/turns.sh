#!/usr/bin/env bash
# Counts the turns a second at a turnstile, for 1, 2 and 4 threads that do nothing else, and prints them beside the
# kit's Mutex over the same value, taken in the same run: the third number is how many times the mutex's turns they
# are. The value is a count of 8 bytes, and then one of 64 and of 4,096 bytes, since a turn moves the value twice (a
# mutex moves nothing: it is measured over 8 bytes and over 4,096). Each number is the median of nine runs,
# which take turns with one another: the best would be a run whose threads did not meet.
# It builds a small program outside the repository; the first build takes some minutes. Other work on the machine
# shows in every number, and in the ratios less.
set -eu
top=$(cd "$(dirname "$0")/.." && pwd)
work=$(mktemp -d)
trap 'rm -rf "$work"' EXIT
mkdir -p "$work/crates/turns_bench/src"
(cd "$top/crates" && tar -cf - --exclude=out mt_turn) | tar -xf - -C "$work/crates"
grep "^mt_turn" "$top/crates.txt" >"$work/crates.txt"
echo "turns_bench: mt_turn" >>"$work/crates.txt"
cp "$top/HANDLES" "$work/HANDLES"
cd "$work/crates/turns_bench"
cat >src/main.rt <<'RT'
//! Turns a second at a lock: KIND THREADS TURNS.
#![tactic(auto)]

mod clerk;
mod tally;

use clerk::{Clerk, Desk};
use std::alloc::{AllocError, Global};
use std::env;
use std::io;
use std::sync::{Arc, Mutex, Wait};
use std::thread;
use std::thread::{JoinHandle, Threads};
use std::time::Instant;

/// The count and its load, under std's lock.
#[derive(Drop)]
struct Loaded<P: Drop> {
    count: u64,
    load: P,
}

fn by_mutex<R: Wait, P: Drop>(rt: &R, shared: &Mutex<Loaded<P>>, turns: u64) -> u64 {
    let mut last = 0u64;
    for _ in 0..turns {
        let mut guard = shared.lock(rt);
        guard.count = guard.count.saturating_add(1);
        last = guard.count;
    }
    last
}

fn by_turnstile<R: Wait, P: Drop>(rt: &R, clerk: &mut Clerk<P>, turns: u64) -> u64 {
    let mut last = 0u64;
    for _ in 0..turns {
        last = clerk.count_one(rt);
    }
    last
}

fn all_ended<R: Threads>(rt: &R, held: Vec<JoinHandle<u64>>) -> u64 {
    let mut last = 0u64;
    for handle in held {
        last = last.max(handle.join(rt));
    }
    last
}

fn mutexes<R: Wait + Threads + Copy + Send + Sync + 'static, P: Send + Drop + 'static>(
    rt: &R,
    alloc: Global,
    threads: u64,
    turns: u64,
    load: P,
) -> Result<u64, AllocError> {
    let shared = Arc::new(alloc, Mutex::new(Loaded { count: 0, load }))?;
    let mut held: Vec<JoinHandle<u64>> = Vec::new(alloc);
    for _ in 0..threads {
        let own = *rt;
        let theirs = Arc::try_clone(&shared)?;
        held.push(thread::spawn(rt, move || by_mutex(&own, &theirs, turns))?)?;
    }
    Ok(all_ended(rt, held))
}

fn turnstiles<R: Wait + Threads + Copy + Send + Sync + 'static, P: Send + Drop + 'static>(
    rt: &R,
    alloc: Global,
    threads: u64,
    turns: u64,
    load: P,
) -> Result<u64, AllocError> {
    let mut desk = Desk::new(alloc, load)?;
    let mut held: Vec<JoinHandle<u64>> = Vec::new(alloc);
    for _ in 0..threads {
        let own = *rt;
        let mut clerk = desk.clerk()?;
        held.push(thread::spawn(rt, move || {
            by_turnstile(&own, &mut clerk, turns)
        })?)?;
    }
    Ok(all_ended(rt, held))
}

fn word<'a>(words: &'a [String], at: usize) -> &'a str {
    match words.get(at) {
        Some(text) => text.as_str(),
        None => "",
    }
}

fn main(rt: HostRuntime) -> io::Result<()> {
    let words: Vec<String> = env::args(&rt)?.collect(rt.alloc())?;
    let words = words.as_slice();
    let threads: u64 = word(words, 2).parse().unwrap_or(1);
    let turns: u64 = word(words, 3).parse().unwrap_or(1000);
    let start = Instant::now(&rt)?;
    let alloc = rt.alloc();
    let made = match word(words, 1) {
        "mutex8" => mutexes(&rt, alloc, threads, turns, ())?,
        "mutex4096" => mutexes(&rt, alloc, threads, turns, [0u64; 511])?,
        "turnstile8" => turnstiles(&rt, alloc, threads, turns, ())?,
        "turnstile64" => turnstiles(&rt, alloc, threads, turns, [0u64; 7])?,
        "turnstile4096" => turnstiles(&rt, alloc, threads, turns, [0u64; 511])?,
        _ => 0,
    };
    let nanos = start.elapsed(&rt)?.as_nanos();
    let rate = u128::from(made) * 1_000_000_000 / nanos.max(1);
    println!(rt; "{made} {rate}")
}
RT
cat >src/tally.rt <<'RT'
ghost use Rattle.std.specs.Prelude.{◌≡◌, []};

use mt_turn::{Journaled, Knowing};

/// A count, with a load that is moved with it. It has no entries.
#[derive(Drop)]
pub struct Tally<P: Drop> {
    pub count: u64,
    pub load: P,
}

impl<P: Drop> Journaled for Tally<P> {
    type Entry = ();
    type Base = ();
    type Fixed = ();
    type Fact = ();

    ghost window = { λ t. record { first = 0; base = tt; entries = [] } };

    ghost base_after = { λ base e. tt };

    ghost calls = { λ t. 0 };

    ghost fixed = { λ t. tt };

    ghost caller_of = { λ e. 0 };

    ghost holds = { λ t f. Unit {0} };

    ghost apart = { λ f g. Unit {0} };

    ghost keeps = { λ t u before after. Unit {0} };

    ghost tells = { λ t. Unit {0} };

    fn made(&self) -> u64 {
        0
    }

    ghost kept = { λ t u before after f kept holds apart. (tt, λ k d lt. tt) };

    ghost apart_both = { λ f g apart. tt };
}

/// One who knows nothing.
#[derive(Clone, Copy, Drop)]
pub struct Blank;

impl Knowing<()> for Blank {
    ghost facts = { λ b. [] };
}
RT
cat >src/clerk.rt <<'RT'
ghost use Rattle.std.specs.Prelude.{◌≡◌, false};
ghost use Rattle.std.specs.Arc.{arc_value};
ghost use Rattle.mt_turn.specs.Passes.{known, IsOf};

use crate::tally::{Blank, Tally};
use mt_turn::{PassOf, Turnstile};
use std::alloc::{AllocError, Global};
use std::sync::{Arc, Wait};

/// One who counts.
#[derive(Drop)]
pub struct Clerk<P: Drop> {
    shared: Arc<Turnstile<Tally<P>>, Global>,
    pass: PassOf<Tally<P>>,
    ghost own: { IsOf pass (arc_value shared) },
    ghost free: { (known pass).turn ≡ false },
}

impl<P: Drop> Clerk<P> {
    /// One more.
    pub fn count_one<R: Wait>(&mut self, rt: &R) -> u64 {
        let mut tally = self.shared.take(rt, &mut self.pass);
        tally.count = tally.count.saturating_add(1);
        let now = tally.count;
        self.shared.give(rt, &mut self.pass, tally, &Blank);
        now
    }
}

/// The turnstile, and the first pass.
#[derive(Drop)]
pub struct Desk<P: Drop> {
    shared: Arc<Turnstile<Tally<P>>, Global>,
    pass: PassOf<Tally<P>>,
    given: u32,
    ghost own: { IsOf pass (arc_value shared) },
    ghost free: { (known pass).turn ≡ false },
    ghost first: { ((known pass).caller ≡ 0) × ((known pass).count ≡ given) },
}

impl<P: Drop> Desk<P> {
    pub fn new(alloc: Global, load: P) -> Result<Desk<P>, AllocError> {
        let Ok((shared, pass)) = Turnstile::new(alloc, Tally { count: 0, load }) else {
            return Err(AllocError);
        };
        Ok(Desk {
            shared: Arc::new(alloc, shared)?,
            pass,
            given: 0,
        })
    }

    /// A clerk with the next number.
    pub fn clerk(&mut self) -> Result<Clerk<P>, AllocError> {
        if self.given >= u32::MAX - 2 {
            return Err(AllocError);
        }
        let shared = Arc::try_clone(&self.shared)?;
        let pass = self.shared.split(&mut self.pass);
        self.given += 1;
        Ok(Clerk { shared, pass })
    }
}
RT
rt run >"$work/out" 2>"$work/log" || { cat "$work/out"; tail -n 20 "$work/log"; exit 1; }
python3 - "$work/crates/turns_bench/out/turns_bench" <<'PY'
import statistics, subprocess, sys

TURNS = 8_000_000

KINDS = ("mutex8", "mutex4096", "turnstile8", "turnstile64", "turnstile4096")

def once(kind, threads):
    out = subprocess.run([sys.argv[1], kind, str(threads), str(TURNS // threads)], capture_output=True, check=True).stdout
    made, rate = map(int, out.split())
    assert made == TURNS // threads * threads
    return rate

print("threads  bytes  turns a second  mutex's turns  times the mutex's")
for threads in (1, 2, 4):
    rates = {kind: [] for kind in KINDS}
    for _ in range(9):
        for kind in KINDS:
            rates[kind].append(once(kind, threads))
    median = {kind: round(statistics.median(found)) for kind, found in rates.items()}
    for size in (8, 64, 4096):
        turns = median[f"turnstile{size}"]
        beside = median["mutex4096" if size == 4096 else "mutex8"]
        print(f"{threads:7} {size:6} {turns:15} {beside:14} {turns / beside:18.2f}", flush=True)
PY
