#!/usr/bin/env bash
# Deliveries and checks per second of an account over a keeper in memory that never fails, in ten parts of one run: the account
# has more messages and more entries in each part, and no call is to take longer for it. Beside them, how often a second the
# octets of such messages are copied to the end of a list. It proves and builds a small program in a folder that it removes.
# It proves nothing of the project, and is no part of the gate.
set -eu
top=$(cd "$(dirname "$0")/.." && pwd)
. "$top/bench/common.sh"
need awk cp grep mktemp rt
make_work
part=${1:-20000}
octets=${2:-1000}

begin_program delivering quota_units quota_roots keeper account_core account_ledger
cat >"$crate/src/main.rt" <<'PROGRAM'
//! Delivers messages to an account over a keeper in memory, and tells how fast.
#![tactic(auto)]

use account_core::{Call, Reply};
use account_ledger::AccountState;
use keeper::FixedKeeper;
use quota_roots::{LimitsList, NameList, RootSpec, Roots, Setup};
use quota_units::{Flags, Limits, Name};
use std::alloc::{AllocError, Global};
use std::env;
use std::io;
use std::time::Instant;

type Account = AccountState<FixedKeeper>;

/// One root without limits, INBOX, and the longest journal.
fn setup(alloc: Global) -> Result<Setup, AllocError> {
    let (Ok(name), Ok(inbox)) = (Name::of(alloc, b""), Name::of(alloc, b"INBOX")) else {
        return Err(AllocError);
    };
    let mut specs = Vec::new(alloc);
    specs.push(RootSpec { name, prefix: None })?;
    if specs.is_empty() {
        return Err(AllocError);
    }
    let Ok(roots) = Roots::new(specs) else {
        return Err(AllocError);
    };
    let mut limits = Vec::new(alloc);
    if let Some(free) = Limits::new(None, None) {
        limits.push(free)?;
    }
    let mut names = Vec::new(alloc);
    names.push(inbox)?;
    Ok(Setup {
        roots,
        limits: LimitsList::new(limits),
        mailboxes: NameList::new(names),
        journal: 524288,
    })
}

fn open(alloc: Global) -> Result<Account, AllocError> {
    let setup = setup(alloc)?;
    let Ok(keeper) = FixedKeeper::new(alloc) else {
        return Err(AllocError);
    };
    if !setup.is_sound() {
        return Err(AllocError);
    }
    match AccountState::open(alloc, keeper, setup, 1700000000) {
        Ok(account) => Ok(account),
        Err(_) => Err(AllocError),
    }
}

/// How many of so many deliveries were accepted.
fn deliver(alloc: Global, account: &mut Account, times: u64, bytes: &[u8]) -> Result<u64, AllocError> {
    let mut accepted = 0u64;
    if bytes.len() > 67108864 {
        return Ok(accepted);
    }
    for _ in 0..times {
        let Ok(mailbox) = Name::of(alloc, b"INBOX") else {
            return Err(AllocError);
        };
        let call = Call::Deliver {
            mailbox,
            octets: bytes.len() as u64,
            flags: Flags::among(b""),
        };
        if let Ok(Reply::Delivered { .. }) = account.serve(alloc, 0, call, bytes) {
            accepted = accepted.wrapping_add(1);
        }
    }
    Ok(accepted)
}

/// How many of so many messages would fit.
fn check(alloc: Global, account: &mut Account, times: u64) -> u64 {
    let mut fit = 0u64;
    for _ in 0..times {
        if let Ok(Reply::Fits) = account.serve(alloc, 0, Call::Check { octets: 1000 }, b"") {
            fit = fit.wrapping_add(1);
        }
    }
    fit
}

/// Copies the bytes so many times to the end of a list of lists.
fn copy(alloc: Global, times: u64, bytes: &[u8]) -> Result<u64, AllocError> {
    let mut copies: Vec<Vec<u8>> = Vec::new(alloc);
    for _ in 0..times {
        copies.push(bytes.to_vec(alloc)?)?;
    }
    Ok(copies.len() as u64)
}

fn rate(times: u64, start: &Instant, rt: &HostRuntime) -> io::Result<u64> {
    let micros = start.elapsed(rt)?.as_micros().clamp(1, 1 << 60) as u64;
    Ok(times.saturating_mul(1000000) / micros.max(1))
}

fn number(rt: &HostRuntime, at: usize, default: u64) -> io::Result<u64> {
    match env::args(rt)?.nth(at) {
        Some(word) => Ok(word.parse().unwrap_or(default)),
        None => Ok(default),
    }
}

fn run(rt: &HostRuntime, part: u64, bytes: &[u8]) -> io::Result<()> {
    let alloc = rt.alloc();
    let mut account = open(alloc)?;
    for _ in 0..10 {
        let start = Instant::now(rt)?;
        let accepted = deliver(alloc, &mut account, part, bytes)?;
        let delivered = rate(accepted, &start, rt)?;
        let start = Instant::now(rt)?;
        let fit = check(alloc, &mut account, part);
        let checked = rate(fit, &start, rt)?;
        let start = Instant::now(rt)?;
        let copied = copy(alloc, part, bytes)?;
        let copied = rate(copied, &start, rt)?;
        println!(rt; "{} entries: {delivered} deliveries/s, {checked} checks/s; {copied} copies/s", account.calls())?;
    }
    Ok(())
}

fn main(rt: HostRuntime) -> io::Result<()> {
    let part = number(&rt, 1, 20000)?.min(26000);
    let octets = number(&rt, 2, 1000)?.min(1000000);
    let mut bytes = Vec::new(rt.alloc());
    for _ in 0..octets {
        bytes.push(b'x')?;
    }
    run(&rt, part, bytes.as_slice())
}
PROGRAM
build_program delivering

"$work/delivering" "$part" "$octets"
