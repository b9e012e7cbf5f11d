#!/usr/bin/env bash
# Messages put per second into a real folder by the keeper over folders, beside the same steps in C (if there is a cc) and
# those steps without syncing, in three rounds of one run. It proves and builds a small program in a folder that it removes,
# and puts the messages there too, so it measures the disk of TMPDIR. It proves nothing of the project, and is no part of the
# gate.
set -eu
top=$(cd "$(dirname "$0")/.." && pwd)
. "$top/bench/common.sh"
need awk cp date grep mktemp rt seq sort tail /usr/bin/time
make_work
count=${1:-500}
runs=1

# It puts messages of 1000 octets into INBOX of the account `ann` below a folder, and writes how many it put.
begin_program putting keeper keeper_fs
cat >"$crate/src/main.rt" <<'PROGRAM'
//! Puts messages into a mailbox.
#![tactic(auto)]

use keeper::{Keeper, Stores};
use keeper_fs::FsStores;
use std::env;
use std::io;

fn put_all(rt: HostRuntime, folder: &str, count: u64) -> Result<u64, &'static str> {
    let alloc = rt.alloc();
    let Ok(folder) = folder.as_bytes().to_vec(alloc) else {
        return Err("no memory");
    };
    let mut octets = Vec::new(alloc);
    for _ in 0..1000 {
        if octets.push(b'x').is_err() {
            return Err("no memory");
        }
    }
    let mut stores = FsStores::new(rt, folder);
    let Ok(mut keeper) = stores.open(alloc, b"ann") else {
        return Err("no account");
    };
    for number in 0..count {
        let Ok(name) = format!(in alloc; "{number}.quotad,S=1000") else {
            return Err("no memory");
        };
        if keeper.put(alloc, b"INBOX", name.as_bytes(), octets.as_slice()).is_err() {
            return Err("a fault");
        }
    }
    Ok(count)
}

fn main(rt: HostRuntime) -> io::Result<()> {
    let Some(word) = env::args(&rt)?.nth(1) else {
        return Ok(());
    };
    let count = word.parse().unwrap_or(0);
    let Some(folder) = env::args(&rt)?.nth(2) else {
        return Ok(());
    };
    match put_all(rt, folder.as_str(), count) {
        Ok(count) => println!(rt; "{count}")?,
        Err(why) => println!(rt; "{why}")?,
    }
    Ok(())
}
PROGRAM
build_program putting

# The same steps: the name is looked for in `new` and `cur`, the draft is written and synced, it is linked to its name, the
# folder is synced, and the draft is unlinked. With a third word nothing is synced.
cat >"$work/steps.c" <<'PROGRAM'
#include <fcntl.h>
#include <stdio.h>
#include <stdlib.h>
#include <string.h>
#include <sys/stat.h>
#include <unistd.h>
static int sync_it(int file, int synced) { return synced ? fsync(file) : 0; }
int main(int words, char **word) {
  long count = words > 2 ? atol(word[1]) : 0, number;
  int synced = words < 4;
  char octets[1000], draft[4200], fresh[4200], seen[4200], folder[4200];
  struct stat found;
  memset(octets, 'x', sizeof octets);
  for (number = 0; number < count; number++) {
    snprintf(draft, sizeof draft, "%s/ann/tmp/%ld.quotad,S=1000", word[2], number);
    snprintf(fresh, sizeof fresh, "%s/ann/new/%ld.quotad,S=1000", word[2], number);
    snprintf(seen, sizeof seen, "%s/ann/cur/%ld.quotad,S=1000", word[2], number);
    snprintf(folder, sizeof folder, "%s/ann/new", word[2]);
    if (lstat(fresh, &found) == 0 || lstat(seen, &found) == 0) return 1;
    int file = open(draft, O_WRONLY | O_CREAT | O_EXCL, 0600);
    if (file < 0 || write(file, octets, sizeof octets) != sizeof octets) return 1;
    if (sync_it(file, synced) != 0 || close(file) != 0 || link(draft, fresh) != 0) return 1;
    int place = open(folder, O_RDONLY);
    if (place < 0 || sync_it(place, synced) != 0 || close(place) != 0 || unlink(draft) != 0) return 1;
  }
  printf("%ld\n", count);
  return 0;
}
PROGRAM
if command -v cc >/dev/null; then cc -O2 -o "$work/steps" "$work/steps.c" || rm -f "$work/steps"; fi

# Makes a tree without messages: FOLDER
make_tree() {
  mkdir -p "$1/ann/tmp" "$1/ann/new" "$1/ann/cur"
}

for round in 1 2 3; do
  make_tree "$work/put$round"
  measure messages "$count" put /dev/null "$work/putting" "$count" "$work/put$round"
  expect "$count"
  if [ -x "$work/steps" ]; then
    make_tree "$work/synced$round"
    measure messages "$count" 'C' /dev/null "$work/steps" "$count" "$work/synced$round"
    expect "$count"
    make_tree "$work/unsynced$round"
    measure messages "$count" 'C, none' /dev/null "$work/steps" "$count" "$work/unsynced$round" unsynced
    expect "$count"
  fi
done
