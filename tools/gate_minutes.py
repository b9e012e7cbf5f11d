#!/usr/bin/env python3
"""Runs `rt ci` with the words given, and then prints the processor minutes of each crate.

It looks at the prover's processes twice a second, so it misses what each used in its last half second. What is left of
the whole (compiling, linking, programs, tests and rt itself) is printed as the rest. It proves nothing and is no part of
the gate. For a run from nothing: tools/gate_minutes.py --anew
"""

import os
import resource
import shutil
import subprocess
import sys
import time

TICKS = os.sysconf("SC_CLK_TCK")
KINDS = ("proof", "tests", "edits")


def seen(pid, session):
    """Returns (key, crate, kind, seconds) of one of the prover's processes in this session, or None."""
    try:
        if os.getsid(pid) != session:
            return None
        with open(f"/proc/{pid}/cmdline", "rb") as it:
            words = it.read().decode("utf-8", "replace").split("\0")
        if os.path.basename(words[0]) != "rattle" or "--crate-name" not in words:
            return None
        crate = words[words.index("--crate-name") + 1]
        folder = os.readlink(f"/proc/{pid}/cwd")
        with open(f"/proc/{pid}/stat", encoding="utf-8") as it:
            fields = it.read().rpartition(")")[2].split()
    except (OSError, ValueError, IndexError):
        return None
    kind = "edits" if "rt-edit-" in folder else "tests" if "--test" in words else "proof"
    return (pid, fields[19]), crate, kind, (int(fields[11]) + int(fields[12])) / TICKS


def main():
    if not shutil.which("rt"):
        print("skipped: no rt")
        return 0
    top = os.path.dirname(os.path.dirname(os.path.abspath(__file__)))
    begun = time.monotonic()
    ci = subprocess.Popen(["rt", "ci", *sys.argv[1:]], cwd=top, start_new_session=True)
    times = {}
    while ci.poll() is None:
        for name in os.listdir("/proc"):
            found = seen(int(name), ci.pid) if name.isdigit() else None
            if found:
                times[found[0]] = found[1:]
        time.sleep(0.5)
    elapsed = time.monotonic() - begun
    sums = {}
    for crate, kind, seconds in times.values():
        sums.setdefault(crate, dict.fromkeys(KINDS, 0.0))[kind] += seconds
    used = resource.getrusage(resource.RUSAGE_CHILDREN)
    whole = used.ru_utime + used.ru_stime
    print("| Crate | Proof | Tests | Edits |\n|---|---|---|---|")
    for crate in sorted(sums):
        print(f"| `{crate}` | " + " | ".join(f"{sums[crate][kind] / 60:.1f}" for kind in KINDS) + " |")
    totals = [sum(it[kind] for it in sums.values()) for kind in KINDS]
    print("| All | " + " | ".join(f"{it / 60:.1f}" for it in totals) + " |")
    print(f"The rest: {(whole - sum(totals)) / 60:.1f}; the whole: {whole / 60:.1f} processor minutes,", end=" ")
    print(f"in {elapsed / 60:.1f} minutes on {os.cpu_count()} processors")
    return ci.returncode


sys.exit(main())
