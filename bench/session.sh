#!/usr/bin/env bash
# Requests per second and peak memory of `quotactl session 512` over 60,000 lines `a GETQUOTA ""`,
# beside `cat` on the same bytes. It proves nothing and is no part of the gate.
set -eu
top=$(cd "$(dirname "$0")/.." && pwd)
. "$top/bench/common.sh"
need awk cat cmp date find mktemp seq /usr/bin/time
need_current quotactl
lines=${1:-60000}
need_numbers "$lines"
make_work
awk -v n="$lines" 'BEGIN { for (i = 0; i < n; i++) printf "a GETQUOTA \"\"\r\n" }' >"$work/input"
{
  printf '* PREAUTH quotad ready\r\n'
  awk -v n="$lines" 'BEGIN { for (i = 0; i < n; i++) printf "* QUOTA \"\" (STORAGE 0 512)\r\na OK GETQUOTA completed\r\n" }'
} >"$work/wanted"

measure lines "$lines" quotactl "$work/input" "$top/crates/quotactl/out/quotactl" session 512
cmp "$work/output" "$work/wanted"
measure lines "$lines" cat "$work/input" cat
cmp "$work/output" "$work/input"
