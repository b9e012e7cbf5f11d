#!/usr/bin/env bash
# Messages of 3000 octets appended per second to a real folder by `quotactl imap ann`, one after the other, beside the steps
# in C that make a message last: create, write, sync, link, sync of the folder, and unlink of the draft. Both run in turn, in
# five rounds of one run; the last line has the best of each, and the script ends with status 1 if the program's is below half
# of C's. Each run has a folder of its own, which the script removes, so it measures the disk of TMPDIR; where a sync costs
# nothing, as in memory, the last line says nothing of a disk. It proves nothing, and is no part of the gate.
set -eu
top=$(cd "$(dirname "$0")/.." && pwd)
. "$top/bench/common.sh"
need awk cat cc cmp cp date find mktemp seq tail wc /usr/bin/time
need_current quotactl
count=${1:-1000}
rounds=${2:-5}
need_numbers "$count" "$rounds"
make_work
runs=1
program=$top/crates/quotactl/out/quotactl

cat >"$work/accounts.toml" <<'ACCOUNTS'
[[account]]
name = "ann"
password = "password"
token = "token"
journal = 524288
[[account.root]]
storage = 8388608
messages = 1048576
ACCOUNTS

# The client does not wait for `+ Ready`: each message follows its command at once.
awk -v n="$count" 'BEGIN {
  octets = sprintf("%3000s", "")
  gsub(/ /, "x", octets)
  for (i = 0; i < n; i++) printf "a APPEND INBOX {3000}\r\n%s\r\n", octets
}' >"$work/input"
{
  printf '* PREAUTH quotad ready\r\n'
  awk -v n="$count" 'BEGIN { for (i = 0; i < n; i++) printf "+ Ready\r\na OK APPEND completed\r\n" }'
} >"$work/answers"
echo "$count" >"$work/count"

# The program looks besides whether the name is free in `new` and `cur`, and it writes a line into the ledger `maildirsize`,
# which it does not sync. A ledger without room for the line is written anew, synced and renamed: once in some 700 messages.
cat >"$work/steps.c" <<'PROGRAM'
#include <fcntl.h>
#include <stdio.h>
#include <stdlib.h>
#include <string.h>
#include <unistd.h>
int main(int words, char **word) {
  long count = words > 1 ? atol(word[1]) : 0, number;
  char octets[3000], draft[100], fresh[100];
  memset(octets, 'x', sizeof octets);
  for (number = 1; number <= count; number++) {
    snprintf(draft, sizeof draft, "mail/ann/tmp/1700000000.%ld.quotad,S=3000", number);
    snprintf(fresh, sizeof fresh, "mail/ann/new/1700000000.%ld.quotad,S=3000", number);
    int file = open(draft, O_WRONLY | O_CREAT | O_EXCL, 0600);
    if (file < 0 || write(file, octets, sizeof octets) != sizeof octets) return 1;
    if (fsync(file) != 0 || close(file) != 0 || link(draft, fresh) != 0) return 1;
    int folder = open("mail/ann/new", O_RDONLY);
    if (folder < 0 || fsync(folder) != 0 || close(folder) != 0 || unlink(draft) != 0) return 1;
  }
  printf("%ld\n", count);
  return 0;
}
PROGRAM
cc -O2 -o "$work/steps" "$work/steps.c"

# Runs a command once in a new folder with an account that has no messages yet, and looks what it wrote and which messages
# stand there then: FOLDER NAME WANTED COMMAND..
append() {
  local folder=$1 name=$2 wanted=$3 found
  shift 3
  mkdir -p "$folder/mail/ann/tmp" "$folder/mail/ann/new" "$folder/mail/ann/cur"
  cp "$work/accounts.toml" "$folder/accounts.toml"
  (
    cd "$folder"
    measure messages "$count" "$name" "$work/input" "$@"
  ) >>"$work/rates"
  tail -n 1 "$work/rates"
  cmp "$work/output" "$wanted"
  found=$(find "$folder/mail/ann/new" -type f -size 3000c | wc -l)
  [ "$found" = "$count" ] || { echo "there are $found messages, not $count" >&2; exit 1; }
}

for round in $(seq "$rounds"); do
  append "$work/append$round" quotactl "$work/answers" "$program" imap ann
  "$program" check <"$work/append$round/mail/ann/maildirsize" | tail -n 1 >"$work/output"
  expect "messages $count"
  append "$work/steps$round" C "$work/count" "$work/steps" "$count"
done

awk '
  $2 > best[$1] { best[$1] = $2 }
  END {
    ratio = best["quotactl"] / best["C"]
    printf "best: quotactl %d messages/s, C %d messages/s, ratio %.2f; wanted is 0.5 or more\n", best["quotactl"], best["C"], ratio
    exit ratio < 0.5
  }
' "$work/rates"
