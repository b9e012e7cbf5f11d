# shellcheck shell=bash disable=SC2154
# What the scripts of this repository share. It is sourced, and defines functions alone; each call reads `$top`, the top of
# the repository.

# The crates of the repository that a crate stands on, and then the crate itself, lowest first.
crates_below() {
  awk -v wanted="$1" '
    function visit(name,   count, at, below) {
      if (!(name in lists) || name in seen) return
      seen[name] = 1
      count = split(lists[name], below)
      for (at = 1; at <= count; at++) visit(below[at])
      print name
    }
    { sub(/#.*/, "") }
    /:/ { split($0, halves, ":"); split(halves[1], words); lists[words[1]] = halves[2] }
    END { visit(wanted) }
  ' "$top/crates.txt"
}

# Whether the program of a crate is built, and none of its sources is newer than it.
is_current() {
  local program=$top/crates/$1/out/$1 crate folder
  local sources=("$top/crates.txt")
  [ -x "$program" ] || return 1
  for crate in $(crates_below "$1"); do
    for folder in src specs proofs; do
      if [ -d "$top/crates/$crate/$folder" ]; then sources+=("$top/crates/$crate/$folder"); fi
    done
  done
  [ -z "$(find "${sources[@]}" -type f -newer "$program" -print -quit)" ]
}

# Ends the script with a message if the machine lacks a tool.
need() {
  local tool
  for tool in "$@"; do
    command -v "$tool" >/dev/null || { echo "skipped: no $tool"; exit 0; }
  done
}

# Refuses what is not a whole number: NUMBER..
need_numbers() {
  local number
  for number in "$@"; do
    case $number in '' | *[!0-9]*) echo "not a number: $number" >&2; exit 64 ;; esac
  done
}

# Makes the folder `$work`, which goes when the script ends.
make_work() {
  work=$(mktemp -d)
  trap 'rm -rf "$work"' EXIT
}

# Begins a program of its own over a copy of crates of the repository and of all that these stand on: NAME CRATE.. Its
# folder is `$crate`, where the script then writes src/main.rt.
begin_program() {
  local name=$1 copy=$work/repository below folder
  shift
  mkdir -p "$copy/crates/$name/src"
  cp "$top/HANDLES" "$copy/HANDLES"
  for below in $(for crate in "$@"; do crates_below "$crate"; done | sort -u); do
    mkdir "$copy/crates/$below"
    for folder in src specs proofs; do
      if [ -d "$top/crates/$below/$folder" ]; then cp -r "$top/crates/$below/$folder" "$copy/crates/$below/"; fi
    done
    grep "^${below}[: ]" "$top/crates.txt" >>"$copy/crates.txt"
  done
  echo "$name: $*" >>"$copy/crates.txt"
  crate=$copy/crates/$name
}

# Proves and builds that program as `$work/NAME`, which takes long where its crates were not proved on this machine before.
# rt runs a program that it builds, so this one is run with the number 0.
build_program() {
  echo "building the program $1, which takes minutes" >&2
  if ! (cd "$crate" && rt run -- 0 </dev/null >"$work/log" 2>&1); then
    cat "$work/log" >&2
    exit 70
  fi
  mv "$crate/out/$1" "$work/$1"
  rm -rf "$work/repository"
}

# Refuses a program of the repository that is not built, or is older than its sources: CRATE
need_current() {
  is_current "$1" || { echo "crates/$1/out/$1 is not built, or older than its sources: ./quotactl build" >&2; exit 70; }
}

# The best time of some runs of a command, and its peak of memory: WHAT COUNT NAME INPUT COMMAND.. What it writes stays in
# `$work/output`.
runs=5
measure() {
  local what=$1 count=$2 name=$3 input=$4 best=0 peak=0 start took memory
  shift 4
  for _ in $(seq "$runs"); do
    start=$(date +%s%N)
    /usr/bin/time -f '%M' -o "$work/memory" "$@" <"$input" >"$work/output"
    took=$(($(date +%s%N) - start))
    memory=$(tail -n 1 "$work/memory")
    if [ "$best" = 0 ] || [ "$took" -lt "$best" ]; then best=$took; fi
    if [ "$memory" -gt "$peak" ]; then peak=$memory; fi
  done
  awk -v name="$name" -v what="$what" -v n="$count" -v ns="$best" -v kb="$peak" \
    'BEGIN { printf "%-9s %10.0f %s/s  %8.1f ms  %7d KiB\n", name, n / (ns / 1e9), what, ns / 1e6, kb }'
}

# Ends the script if the file `$work/output` has not this line: WORDS
expect() {
  [ "$(cat "$work/output")" = "$1" ] || { echo "the output is not $1" >&2; exit 1; }
}
