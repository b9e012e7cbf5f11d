#!/usr/bin/env bash
# Turns per second of the turn lock with 1, 2, 4 and 8 threads, beside a mutex of the standard library, in one run of one
# program: each turn takes the value, adds 1 to a number and gives it back. It proves nothing of the project, and is no part
# of the gate.
set -eu
top=$(cd "$(dirname "$0")/.." && pwd)
. "$top/bench/common.sh"
need awk cp grep mktemp nproc rt
make_work
turns=${1:-4000000}

begin_program lock_bench account_core account_lock
cat >"$crate/src/main.rt" <<'PROGRAM'
#![tactic(auto)]

use std::env;
use std::io;
use std::time::Instant;

mod turns;

use turns::{take_mutex, take_turns};

/// Turns per second.
fn rate(turns: u64, start: &Instant, rt: &HostRuntime) -> io::Result<u64> {
    let micros = start.elapsed(rt)?.as_micros().clamp(1, 1 << 60) as u64;
    Ok(turns.saturating_mul(1000000) / micros.max(1))
}

fn main(rt: HostRuntime) -> io::Result<()> {
    let alloc = rt.alloc();
    let mut turns: u64 = 4000000;
    if let Some(word) = env::args(&rt)?.nth(1) {
        if let Ok(number) = word.parse() {
            turns = number;
        }
    }
    for threads in [1usize, 2, 4, 8] {
        let share = turns / threads as u64;
        let mut lock = 0;
        let mut mutex = 0;
        for _ in 0..5 {
            let start = Instant::now(&rt)?;
            take_turns(&rt, alloc, threads, share)?;
            lock = rate(turns, &start, &rt)?.max(lock);
            let start = Instant::now(&rt)?;
            take_mutex(&rt, alloc, threads, share)?;
            mutex = rate(turns, &start, &rt)?.max(mutex);
        }
        println!(rt; "{threads} threads: lock {lock} turns/s, mutex {mutex} turns/s")?;
    }
    Ok(())
}
PROGRAM
cat >"$crate/src/turns.rt" <<'PROGRAM'
ghost use Rattle.std.specs.Prelude.{◌≡◌, ◌<◌, [], IfOk};
ghost use Rattle.account_lock.specs.Known.{nowhere};
ghost use Rattle.account_lock.specs.Passes.{IsOf, view};

use account_core::Booked;
use account_lock::{Lock, Pass};
use std::alloc::{AllocError, Global};
use std::sync::{Mutex, Wait};
use std::thread;
use std::thread::Threads;

/// A number, and a history without entries.
#[derive(Drop)]
struct Number(u64);

impl Booked for Number {
    ghost origin = { λ _. nowhere };

    ghost history = { λ _. [] };
}

/// A pass of a lock, with the lock.
#[derive(Drop)]
struct Worker<'a> {
    lock: &'a Lock<Number>,
    pass: Pass,
    ghost of: { IsOf lock.now pass },
}

impl<'a> Worker<'a> {
    fn new(lock: &'a Lock<Number>, pass: Pass) -> Worker<'a>
        requires { IsOf lock.now pass }
    {
        Worker { lock, pass }
    }

    fn work<R: Wait>(&mut self, rt: &R, turns: u64) {
        for _ in 0..turns {
            let mut turn = self.lock.enter(rt, &mut self.pass);
            let number = turn.state();
            number.0 = number.0.wrapping_add(1);
            turn.leave();
        }
    }
}

fn workers<'a>(
    alloc: Global,
    lock: &'a Lock<Number>,
    mut first: Pass,
    threads: usize,
) -> Result<Vec<Worker<'a>>, AllocError>
    requires lock { IsOf lock.now first }
    requires first { (view first).number ≡ 0 }
{
    let mut workers = Vec::new(alloc);
    for _ in 1..threads {
        let Ok(pass) = lock.enlist(&mut first) else {
            return Err(AllocError);
        };
        workers.push(Worker::new(lock, pass))?;
    }
    workers.push(Worker::new(lock, first))?;
    Ok(workers)
}

pub fn take_turns<R: Threads + Wait + Sync>(
    rt: &R,
    alloc: Global,
    threads: usize,
    share: u64,
) -> Result<(), AllocError>
    requires { 0 < threads }
{
    let Ok((lock, first)) = Lock::new(alloc, Number(0), 8) else {
        return Err(AllocError);
    };
    let mut workers = workers(alloc, &lock, first, threads)?;
    thread::for_each_mut(rt, workers.as_mut_slice(), threads, &|_, worker: &mut Worker| worker.work(rt, share));
    Ok(())
}

pub fn take_mutex<R: Threads + Wait + Sync>(
    rt: &R,
    alloc: Global,
    threads: usize,
    share: u64,
) -> Result<(), AllocError>
    requires { 0 < threads }
{
    let mutex = Mutex::new(0u64);
    let mut units = Vec::new(alloc);
    for _ in 0..threads {
        units.push(0u8)?;
    }
    thread::for_each_mut(rt, units.as_mut_slice(), threads, &|_, _| work_mutex(rt, &mutex, share));
    Ok(())
}

fn work_mutex<R: Wait>(rt: &R, mutex: &Mutex<u64>, turns: u64) {
    for _ in 0..turns {
        let mut number = mutex.lock(rt);
        *number = number.wrapping_add(1);
    }
}
PROGRAM
mkdir -p "$crate/proofs/turns/workers"
: >"$crate/proofs/Lib.antt"
cat >"$crate/proofs/turns/workers/Invariants.antt" <<'PROOF'
use Rattle.std.proofs.Common.{◌≡◌}
use Rattle.account_lock.specs.Passes.{IsOf, view}
use Rattle.lock_bench.proofs.turns.workers.Given as goal

abbrev pub invariant-loop : goal.invariant-loop
invariant-loop l = IsOf l.lock l.first × ((view l.first).number ≡ 0)
PROOF
build_program lock_bench

echo "$(nproc) processors"
"$work/lock_bench" "$turns"
