#!/usr/bin/env bash
# Files listed per second by the keeper over folders, 100,000 files whose names state their sizes, beside a loop of readdir in C
# (if there is a cc) and `ls -U`, in one run. It proves and builds a small program in a folder that it removes. It proves
# nothing of the project, and is no part of the gate.
set -eu
top=$(cd "$(dirname "$0")/.." && pwd)
. "$top/bench/common.sh"
need awk cp date grep ls mktemp rt seq touch xargs /usr/bin/time
make_work
count=${1:-100000}
runs=15

# It lists INBOX of the account `ann` below a folder, and writes how many files it has and the sum of their lengths.
begin_program listing keeper keeper_fs
cat >"$crate/src/main.rt" <<'PROGRAM'
//! Lists a mailbox, and adds up the lengths of its files.
#![tactic(auto)]

use keeper::{Keeper, Stores};
use keeper_fs::FsStores;
use std::env;
use std::io;

fn listed(rt: HostRuntime, folder: &str) -> Result<(usize, u64), &'static str> {
    let alloc = rt.alloc();
    let Ok(folder) = folder.as_bytes().to_vec(alloc) else {
        return Err("no memory");
    };
    let mut stores = FsStores::new(rt, folder);
    let Ok(mut keeper) = stores.open(alloc, b"ann") else {
        return Err("no account");
    };
    let Ok(rows) = keeper.list(alloc, b"INBOX") else {
        return Err("no listing");
    };
    let mut sum = 0u64;
    for row in rows.iter() {
        sum = sum.wrapping_add(row.length);
    }
    Ok((rows.len(), sum))
}

fn main(rt: HostRuntime) -> io::Result<()> {
    let Some(folder) = env::args(&rt)?.nth(1) else {
        return Ok(());
    };
    match listed(rt, folder.as_str()) {
        Ok((count, sum)) => println!(rt; "{count} {sum}")?,
        Err(why) => println!(rt; "{why}")?,
    }
    Ok(())
}
PROGRAM
build_program listing

# It reads a folder's names by readdir and counts them.
cat >"$work/readdir.c" <<'PROGRAM'
#include <dirent.h>
#include <stdio.h>
int main(int count, char **words) {
  DIR *folder = count > 1 ? opendir(words[1]) : NULL;
  long names = 0;
  while (folder != NULL && readdir(folder) != NULL) names++;
  printf("%ld\n", names);
  return 0;
}
PROGRAM
if command -v cc >/dev/null; then cc -O2 -o "$work/readdir" "$work/readdir.c" || rm -f "$work/readdir"; fi

mkdir -p "$work/mail/ann/new" "$work/mail/ann/cur"
awk -v n="$count" -v folder="$work/mail/ann/cur" 'BEGIN {
  for (i = 0; i < n; i++) printf "%s/%d.M%dP7.host,S=%d,W=%d:2,FS%c", folder, 1700000000 + i, i, i, i + 40, 0
}' | xargs -0 touch

measure files "$count" listing /dev/null "$work/listing" "$work/mail"
expect "$(awk -v n="$count" 'BEGIN { printf "%d %.0f", n, n * (n - 1) / 2 }')"
if [ -x "$work/readdir" ]; then measure files "$count" readdir /dev/null "$work/readdir" "$work/mail/ann/cur"; fi
measure files "$count" 'ls -U' /dev/null ls -U "$work/mail/ann/cur"
