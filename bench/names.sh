#!/usr/bin/env bash
# File names parsed (100,000) and ledgers read (10,000) per second, beside `wc` on the same bytes.
# It proves and builds a small program in a folder that it removes. It proves nothing of the project, and is no part of the
# gate.
set -eu
top=$(cd "$(dirname "$0")/.." && pwd)
. "$top/bench/common.sh"
need awk cp date grep mktemp rt seq tr wc /usr/bin/time
make_work
names=${1:-100000}
ledgers=${2:-10000}

# It adds up the sizes of names, one a line, or the sum lines of ledgers, each ended by a byte 0.
begin_program reading quota_units message_names maildirsize
cat >"$crate/src/main.rt" <<'PROGRAM'
//! Adds up the sizes of names, or the sum lines of ledgers.
#![tactic(auto)]

use maildirsize::read_ledger;
use message_names::{parse_name, size_of};
use std::env;
use std::io::{self, Read};

fn octets_of(name: &[u8]) -> u64 {
    let parts = parse_name(name);
    size_of(&parts, 77)
}

fn lines_of(ledger: &[u8]) -> u64 {
    match read_ledger(ledger) {
        Ok(text) => u64::from(text.lines),
        Err(_) => 0,
    }
}

fn main(rt: HostRuntime) -> io::Result<()> {
    let mut bytes = Vec::new(rt.alloc());
    rt.stdin().read_to_end(&mut bytes)?;
    let mut sum = 0u64;
    if env::args(&rt)?.len() < 2 {
        for name in bytes.as_slice().split(|b| *b == b'\n') {
            if !name.is_empty() {
                sum = sum.wrapping_add(octets_of(name));
            }
        }
    } else {
        for ledger in bytes.as_slice().split(|b| *b == 0) {
            sum = sum.wrapping_add(lines_of(ledger));
        }
    }
    println!(rt; "{sum}")?;
    Ok(())
}
PROGRAM
build_program reading

# each third name states no size, and counts 77 octets
awk -v n="$names" 'BEGIN {
  for (i = 0; i < n; i++)
    if (i % 3) printf "%d.M%dP7.host,S=%d,W=%d:2,FS\n", 1700000000 + i, i, i, i + 40
    else printf "%d.M%dP7.host:2,S\n", 1700000000 + i, i
}' >"$work/names"
awk -v n="$ledgers" 'BEGIN {
  for (i = 0; i < 700; i++) lines = lines "1234 1\n"
  for (i = 0; i < n; i++) printf "10000000S,1000C\n%s\001", lines
}' | tr '\001' '\000' >"$work/ledgers"

measure names "$names" reading "$work/names" "$work/reading"
expect "$(awk -v n="$names" 'BEGIN { for (i = 0; i < n; i++) sum += i % 3 ? i : 77; printf "%.0f", sum }')"
measure names "$names" wc "$work/names" wc
measure ledgers "$ledgers" reading "$work/ledgers" "$work/reading" ledgers
expect "$((ledgers * 700))"
measure ledgers "$ledgers" wc "$work/ledgers" wc
