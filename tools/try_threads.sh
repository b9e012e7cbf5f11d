#!/usr/bin/env bash
# Tries hosts in threads, as no test of the gate does: two sessions at once over one account, an account that waits for its
# keeper while another answers, and eight callers of four accounts. It adds tests to a copy of crates/tests_of_hosts and runs
# them without any proof, since it is not proved yet that threads may share a host. It is no part of the gate.
set -eu
top=$(cd "$(dirname "$0")/.." && pwd)
. "$top/bench/common.sh"
need awk cp grep mktemp rt sed
make_work
# shellcheck disable=SC2046
begin_program tests_of_hosts $(sed -n 's/^tests_of_hosts[^:]*: //p' "$top/crates.txt")
cp -r "$top/crates/tests_of_hosts/." "$crate/"
rm -rf "$crate/out"
cat >>"$crate/src/lib.rt" <<'PROGRAM'
#[cfg(test)]
mod apart;
#[cfg(test)]
mod at_once;
#[cfg(test)]
mod calls;
#[cfg(test)]
mod many;
PROGRAM
cat >"$crate/src/calls.rt" <<'PROGRAM'
// Calls that tests make of a desk.
use account_core::{Call, Reply};
use desk::Desk;
use quota_units::{Flags, Name};
use std::alloc::Global;

/// Delivers a message of so many octets to INBOX. Returns whether it was delivered.
pub(crate) fn is_delivered<D: Desk>(alloc: Global, desk: &mut D, account: u32, octets: u16) -> Option<bool> {
    if account >= desk.accounts() {
        return None;
    }
    let bytes = vec![in alloc; b'x'; octets as usize].ok()?;
    let call = Call::Deliver {
        mailbox: Name::of(alloc, b"INBOX").ok()?,
        octets: octets as u64,
        flags: Flags::among(b""),
    };
    match desk.ask(alloc, account, call, &bytes) {
        Ok(Reply::Delivered { .. }) => Some(true),
        _ => Some(false),
    }
}

/// The octets and the messages of the root whose name is empty; `None` if the account does not tell them.
pub(crate) fn usage_of<D: Desk>(alloc: Global, desk: &mut D, account: u32) -> Option<(u64, u64)> {
    if account >= desk.accounts() {
        return None;
    }
    let root = Name::of(alloc, b"").ok()?;
    let answer = desk.ask(alloc, account, Call::Quota { root }, b"");
    match &answer {
        Ok(Reply::Quota(row)) => Some((row.octets, row.count)),
        _ => None,
    }
}
PROGRAM
cat >"$crate/src/at_once.rt" <<'PROGRAM'
// Two sessions at once over one account.
use crate::closing::close_all;
use crate::headline::session_over_seats;
use crate::opening::{enlist, open_host};
use account_host::{Host, SeatSet, Seats};
use accounts_file::{HostTable, read_accounts};
use keeper::MemKeeper;
use sessions::Front;
use std::alloc::Global;
use std::sync::Wait;
use std::test::Fail;
use std::thread::join;
use wire_io::{MemSink, MemSource, SessionEnd};

const ANN: &str = "[[account]]
name = \"ann\"
password = \"pw\"
token = \"tok\"
admin = true
mailboxes = [\"INBOX\", \"Lists\", \"Trash\"]
[[account.root]]
";

const INPUT: &[u8] = b"a1 APPEND INBOX {10}\r\n0123456789\r\n\
a2 SETQUOTA \"\" (MESSAGE 100)\r\na3 GETQUOTAROOT INBOX\r\n";

fn serve<R: Wait>(rt: &R, alloc: Global, host: &Host<MemKeeper>, table: &HostTable, set: SeatSet) -> (SeatSet, Option<Vec<u8>>) {
    let mut seats = Seats::new(rt, host, set);
    let Ok(input) = INPUT.to_vec(alloc) else {
        return (seats.finish(), None);
    };
    let mut source = MemSource::new(input, 7, Vec::new(alloc));
    let Ok(mut sink) = MemSink::new(alloc, 4096, 4096, Vec::new(alloc)) else {
        return (seats.finish(), None);
    };
    let end = session_over_seats(alloc, Front::ImapAs(0), table, &mut seats, &mut source, &mut sink);
    let text = match end {
        SessionEnd::Closed => sink.as_slice().to_vec(alloc).ok(),
        _ => None,
    };
    (seats.finish(), text)
}

fn expected(alloc: Global, at_limit: u32, at_question: u32) -> Result<String, Fail> {
    Ok(format!(in alloc; "* PREAUTH quotad ready\r\n+ Ready\r\na1 OK APPEND completed\r\n\
* QUOTA \"\" (MESSAGE {at_limit} 100)\r\na2 OK SETQUOTA completed\r\n\
* QUOTAROOT INBOX \"\"\r\n* QUOTA \"\" (MESSAGE {at_question} 100)\r\n\
a3 OK GETQUOTAROOT completed\r\n")?)
}

/// Whether the session found one message or two, and no fewer at the end than before.
fn is_expected(alloc: Global, text: &Option<Vec<u8>>) -> Result<bool, Fail> {
    let Some(text) = text else {
        return Ok(false);
    };
    for (at_limit, at_question) in [(1, 1), (1, 2), (2, 2)] {
        if text.as_slice() == expected(alloc, at_limit, at_question)?.as_bytes() {
            return Ok(true);
        }
    }
    Ok(false)
}

#[test]
fn two_sessions_at_once_deliver_into_one_account(rt: HostRuntime) -> Result<(), Fail> {
    let alloc = rt.alloc();
    let table = match read_accounts(alloc, ANN.as_bytes(), 1700000000) {
        Ok(table) => table,
        Err(fault) => return Err(fault.into()),
    };
    let (host, mut first) = open_host(alloc, &table, 2)?;
    let second = enlist(alloc, &host, &mut first)?;
    let host_ref = &host;
    let table_ref = &table;
    let ((mut first, one), (second, other)) = join(
        &rt,
        || serve(&rt, alloc, host_ref, table_ref, first),
        || serve(&rt, alloc, host_ref, table_ref, second),
    );
    host.join(&mut first, second);
    assert!(rt; is_expected(alloc, &one)?, "another text");
    assert!(rt; is_expected(alloc, &other)?, "another text");
    let Some(mut states) = close_all(host, first) else {
        return Err("refused with all passes joined".into());
    };
    let Some(mut account) = states.pop() else {
        return Err("no account".into());
    };
    assert_eq!(rt; account.calls(), 6);
    let usage = account.usage(alloc, 0)?;
    assert_eq!(rt; (usage.octets, usage.count), (20, 2));
    Ok(())
}
PROGRAM
cat >"$crate/src/many.rt" <<'PROGRAM'
// Eight callers over four accounts.
use crate::calls::is_delivered;
use crate::closing::close_all;
use crate::opening::{enlist, open_host};
use account_host::{Host, SeatSet, Seats};
use account_ledger::AccountState;
use accounts_file::read_accounts;
use keeper::{Keeper, MemKeeper};
use std::alloc::Global;
use std::sync::Wait;
use std::test::Fail;
use std::thread::{Threads, join};

const ACCOUNTS: &str = "[[account]]
name = \"u0\"
password = \"p\"
token = \"t0\"
[[account.root]]
[[account]]
name = \"u1\"
password = \"p\"
token = \"t1\"
[[account.root]]
[[account]]
name = \"u2\"
password = \"p\"
token = \"t2\"
[[account.root]]
[[account]]
name = \"u3\"
password = \"p\"
token = \"t3\"
[[account.root]]
";

/// How many calls each caller makes of each account.
const CALLS: u16 = 50;

/// A set after its caller's calls, and whether all were deliveries. No two messages of an account are equally long.
fn work<R: Wait>(rt: &R, alloc: Global, host: &Host<MemKeeper>, set: SeatSet, caller: u16) -> (SeatSet, bool) {
    let mut seats = Seats::new(rt, host, set);
    for call in 0..CALLS {
        for account in 0..4 {
            let octets = caller.wrapping_mul(CALLS).wrapping_add(call);
            if is_delivered(alloc, &mut seats, account, octets) != Some(true) {
                return (seats.finish(), false);
            }
        }
    }
    (seats.finish(), true)
}

fn work_in_two<R: Threads + Wait + Sync>(
    rt: &R,
    alloc: Global,
    host: &Host<MemKeeper>,
    caller: u16,
    first: SeatSet,
    second: SeatSet,
) -> (SeatSet, bool) {
    let ((mut first, done), (second, also)) = join(
        rt,
        || work(rt, alloc, host, first, caller),
        || work(rt, alloc, host, second, caller.wrapping_add(1)),
    );
    host.join(&mut first, second);
    (first, done && also)
}

fn work_in_four<R: Threads + Wait + Sync>(
    rt: &R,
    alloc: Global,
    host: &Host<MemKeeper>,
    caller: u16,
    first: SeatSet,
    second: SeatSet,
    third: SeatSet,
    fourth: SeatSet,
) -> (SeatSet, bool) {
    let ((mut first, done), (third, also)) = join(
        rt,
        || work_in_two(rt, alloc, host, caller, first, second),
        || work_in_two(rt, alloc, host, caller.wrapping_add(2), third, fourth),
    );
    host.join(&mut first, third);
    (first, done && also)
}

/// Whether the account's messages in INBOX have all lengths from 0 to 399, each once.
fn has_each_message(alloc: Global, account: AccountState<MemKeeper>) -> Result<bool, Fail> {
    let mut keeper = account.into_keeper();
    let files = keeper.list(alloc, b"INBOX")?;
    let mut seen = [false; 400];
    for file in files.iter() {
        match seen.get_mut(file.length as usize) {
            Some(mark) if !*mark => *mark = true,
            _ => return Ok(false),
        }
    }
    Ok(seen.iter().all(|mark| *mark))
}

#[test]
fn each_call_of_eight_callers_is_made_once(rt: HostRuntime) -> Result<(), Fail> {
    let alloc = rt.alloc();
    let table = match read_accounts(alloc, ACCOUNTS.as_bytes(), 1700000000) {
        Ok(table) => table,
        Err(fault) => return Err(fault.into()),
    };
    let (host, mut first) = open_host(alloc, &table, 8)?;
    let second = enlist(alloc, &host, &mut first)?;
    let third = enlist(alloc, &host, &mut first)?;
    let fourth = enlist(alloc, &host, &mut first)?;
    let fifth = enlist(alloc, &host, &mut first)?;
    let sixth = enlist(alloc, &host, &mut first)?;
    let seventh = enlist(alloc, &host, &mut first)?;
    let eighth = enlist(alloc, &host, &mut first)?;
    let host_ref = &host;
    let ((mut first, done), (fifth, also)) = join(
        &rt,
        || work_in_four(&rt, alloc, host_ref, 0, first, second, third, fourth),
        || work_in_four(&rt, alloc, host_ref, 4, fifth, sixth, seventh, eighth),
    );
    assert!(rt; done && also, "a call was not a delivery");
    host.join(&mut first, fifth);
    let Some(states) = close_all(host, first) else {
        return Err("refused with all passes joined".into());
    };
    assert_eq!(rt; states.len(), 4);
    for account in states {
        assert_eq!(rt; account.calls(), 400);
        assert!(rt; has_each_message(alloc, account)?, "other messages");
    }
    Ok(())
}
PROGRAM
cat >"$crate/src/apart.rt" <<'PROGRAM'
// Two accounts of a host: a call on one does not wait for a call on the other.
use crate::calls::usage_of;
use account_host::{Host, SeatSet, Seats};
use account_ledger::AccountState;
use accounts_file::plain_table;
use keeper::{FileRow, KeepError, Keeper};
use quota_units::{Failed, Limits};
use std::alloc::Global;
use std::sync::Wait;
use std::sync::atomic::{AtomicBool, Ordering};
use std::test::Fail;
use std::thread::{Threads, join};

/// How often a thread looks at most whether the other has come so far.
const LOOKS: u32 = 200000000;

/// How far two threads have come: the install of the first account's ledger has begun, and the call on the second account was
/// answered.
#[derive(Drop)]
struct Progress {
    begun: AtomicBool,
    answered: AtomicBool,
}

fn is_set_in_time(mark: &AtomicBool) -> bool {
    for _ in 0..LOOKS {
        if mark.load(Ordering::SeqCst) {
            return true;
        }
    }
    false
}

/// A keeper that keeps nothing. If it is given what two threads share, its first install of a ledger waits for the answer to
/// the other thread, and fails if that does not come in time.
#[derive(Drop)]
struct WaitingKeeper<'a> {
    waits: Option<&'a Progress>,
    lists: u64,
    faults: u64,
}

impl Keeper for WaitingKeeper<'_> {
    ghost use Rattle.std.specs.Prelude.{None};

    ghost told = { λ _. None };

    ghost faults = { λ k. k.faults };

    ghost append_faults = { λ _. 0 };

    ghost lists = { λ k. k.lists };

    fn list(&mut self, alloc: Global, mailbox: &[u8]) -> Result<Vec<FileRow>, KeepError> {
        self.lists = self.lists.saturating_add(1);
        Ok(Vec::new(alloc))
    }

    fn put(&mut self, alloc: Global, mailbox: &[u8], name: &[u8], octets: &[u8]) -> Result<(), KeepError> {
        Ok(())
    }

    fn rename(&mut self, alloc: Global, from: &[u8], name: &[u8], to: &[u8], new_name: &[u8]) -> Result<(), KeepError> {
        Ok(())
    }

    fn remove(&mut self, mailbox: &[u8], name: &[u8]) -> Result<(), Failed> {
        Ok(())
    }

    fn read_ledger(&mut self, alloc: Global, root: u32) -> Result<Option<Vec<u8>>, KeepError> {
        Ok(None)
    }

    fn append_ledger(&mut self, root: u32, line: &[u8]) -> Result<(), Failed> {
        Ok(())
    }

    fn install_ledger(&mut self, root: u32, text: &[u8]) -> Result<(), Failed> {
        let Some(progress) = self.waits.take() else {
            return Ok(());
        };
        progress.begun.store(true, Ordering::SeqCst);
        if is_set_in_time(&progress.answered) {
            return Ok(());
        }
        self.faults = self.faults.saturating_add(1);
        Err(Failed)
    }
}

fn open<'a>(alloc: Global, waits: Option<&'a Progress>) -> Result<AccountState<WaitingKeeper<'a>>, Fail> {
    let limits = Limits::new(None, None).ok_or("limits in range")?;
    let table = plain_table(alloc, limits)?;
    let setup = table.entry(0).setup.copy(alloc)?;
    let keeper = WaitingKeeper {
        waits,
        lists: 0,
        faults: 0,
    };
    match AccountState::open(alloc, keeper, setup, 0) {
        Ok(state) => Ok(state),
        Err(fault) => Err(fault.cause.into()),
    }
}

fn ask_first<R: Wait>(rt: &R, alloc: Global, host: &Host<WaitingKeeper<'_>>, set: SeatSet) -> Option<(u64, u64)> {
    let mut seats = Seats::new(rt, host, set);
    usage_of(alloc, &mut seats, 0)
}

/// Asks for the usage of the second account once the first one's install has begun.
fn ask_second<R: Wait>(
    rt: &R,
    alloc: Global,
    host: &Host<WaitingKeeper<'_>>,
    set: SeatSet,
    progress: &Progress,
) -> Option<(u64, u64)> {
    let mut seats = Seats::new(rt, host, set);
    is_set_in_time(&progress.begun);
    let usage = usage_of(alloc, &mut seats, 1);
    progress.answered.store(true, Ordering::SeqCst);
    usage
}

fn ask_both<R: Threads + Wait + Sync>(rt: &R, alloc: Global, progress: &Progress) -> Result<[Option<(u64, u64)>; 2], Fail> {
    let mut states = Vec::new(alloc);
    states.push(open(alloc, Some(progress))?)?;
    states.push(open(alloc, None)?)?;
    let Ok((host, mut first)) = Host::new(alloc, states, 2) else {
        return Err("no memory".into());
    };
    let second = host.enlist(alloc, &mut first)?;
    let host_ref = &host;
    let (one, other) = join(
        rt,
        || ask_first(rt, alloc, host_ref, first),
        || ask_second(rt, alloc, host_ref, second, progress),
    );
    Ok([one, other])
}

#[test]
fn an_account_does_not_wait_for_another(rt: HostRuntime) -> Result<(), Fail> {
    let progress = Progress {
        begun: AtomicBool::new(false),
        answered: AtomicBool::new(false),
    };
    let usages = ask_both(&rt, rt.alloc(), &progress)?;
    assert_eq!(rt; usages, [Some((0, 0)), Some((0, 0))]);
    Ok(())
}
PROGRAM
cd "$crate" && rt try tests_of_hosts --test
