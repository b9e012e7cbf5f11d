#!/usr/bin/env bash
# Requests of Postfix answered per second by `quotactl policy`, one at a time over a pair of pipes, with each answer awaited
# before the next request is sent. Beside it a C program that reads the same requests and writes the same answers, driven
# likewise. Both run in turn, in five rounds of one run; the last line has the best of each, and the script ends with status 1
# if the program's is below 0.7 of C's. It proves nothing, and is no part of the gate.
set -eu
top=$(cd "$(dirname "$0")/.." && pwd)
. "$top/bench/common.sh"
need awk cat cc find mktemp seq tail
need_current quotactl
count=${1:-100000}
rounds=${2:-5}
need_numbers "$count" "$rounds"
if [ "$count" -lt 1 ] || [ "$count" -gt 524288 ]; then
  echo "1 to 524288 requests: the account's history takes no more" >&2
  exit 64
fi
make_work
program=$top/crates/quotactl/out/quotactl

cat >"$work/accounts.toml" <<'ACCOUNTS'
[[account]]
name = "ann"
password = "password"
token = "token"
journal = 524288
recipients = ["ann@example.org"]
[[account.root]]
storage = 1048576
messages = 100000
ACCOUNTS

# Runs the program that the words after the first name, sends it so many requests, and prints how many it answered a second.
cat >"$work/ask.c" <<'PROGRAM'
#include <stdio.h>
#include <stdlib.h>
#include <string.h>
#include <sys/wait.h>
#include <time.h>
#include <unistd.h>
static const char request[] =
    "request=smtpd_access_policy\nprotocol_state=RCPT\nprotocol_name=ESMTP\nhelo_name=mx.example.net\n"
    "queue_id=\nsender=carl@example.net\nrecipient=ann@example.org\nrecipient_count=0\n"
    "client_address=192.0.2.7\nclient_name=mx.example.net\nreverse_client_name=mx.example.net\n"
    "instance=1a2b.3c\nsasl_method=\nsasl_username=\nsasl_sender=\nsize=2000\nccert_subject=\n"
    "ccert_issuer=\nccert_fingerprint=\nencryption_protocol=\n\n";
static const char wanted[] = "action=DUNNO\n\n";
int main(int words, char **word) {
  int to[2], from[2], status;
  long count = atol(word[1]), number;
  char answer[sizeof wanted - 1];
  struct timespec begin, end;
  if (words < 3 || pipe(to) != 0 || pipe(from) != 0) return 1;
  pid_t child = fork();
  if (child < 0) return 1;
  if (child == 0) {
    dup2(to[0], 0);
    dup2(from[1], 1);
    close(to[0]), close(to[1]), close(from[0]), close(from[1]);
    execv(word[2], word + 2);
    _exit(127);
  }
  close(to[0]), close(from[1]);
  clock_gettime(CLOCK_MONOTONIC, &begin);
  for (number = 0; number < count; number++) {
    if (write(to[1], request, sizeof request - 1) != sizeof request - 1) return 1;
    for (size_t got = 0; got < sizeof answer;) {
      ssize_t more = read(from[0], answer + got, sizeof answer - got);
      if (more <= 0) return 1;
      got += more;
    }
    if (memcmp(answer, wanted, sizeof answer) != 0) return 1;
  }
  clock_gettime(CLOCK_MONOTONIC, &end);
  close(to[1]);
  if (waitpid(child, &status, 0) != child || status != 0) return 1;
  printf("%.0f\n", count / ((end.tv_sec - begin.tv_sec) + (end.tv_nsec - begin.tv_nsec) / 1e9));
  return 0;
}
PROGRAM
cc -O2 -o "$work/ask" "$work/ask.c"

# Reads requests up to their empty lines, and answers each.
cat >"$work/answer.c" <<'PROGRAM'
#include <string.h>
#include <unistd.h>
int main(void) {
  static char bytes[8192];
  static const char answer[] = "action=DUNNO\n\n";
  size_t held = 0;
  for (;;) {
    ssize_t more = read(0, bytes + held, sizeof bytes - held);
    if (more <= 0) return more != 0;
    held += more;
    char *end;
    while ((end = memmem(bytes, held, "\n\n", 2)) != NULL) {
      size_t taken = end + 2 - bytes;
      memmove(bytes, bytes + taken, held - taken);
      held -= taken;
      if (write(1, answer, sizeof answer - 1) != sizeof answer - 1) return 1;
    }
  }
}
PROGRAM
cc -O2 -D_GNU_SOURCE -o "$work/answer" "$work/answer.c"

# The best rate of the rounds so far: FILE
best() {
  awk '$1 > best { best = $1 } END { print best + 0 }' "$1"
}

for _ in $(seq "$rounds"); do
  # An account that is opened again in the second of a delivery is refused; a check delivers nothing.
  (cd "$work" && ./ask "$count" "$program" policy) >>"$work/program"
  (cd "$work" && ./ask "$count" "$work/answer") >>"$work/c"
  echo "quotactl $(tail -n 1 "$work/program") requests/s, C $(tail -n 1 "$work/c")"
done
awk -v own="$(best "$work/program")" -v c="$(best "$work/c")" 'BEGIN {
  printf "best: quotactl %.0f requests/s, C %.0f, ratio %.2f\n", own, c, own / c
  exit own < 0.7 * c
}'
