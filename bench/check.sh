#!/usr/bin/env bash
# Checks a base and has serdi (Debian's package serdi) read and write it, in one run, and prints the times, their ratio and
# the memory: bench/check.sh BASE [RUNS]. The least time of each counts.
set -eu
top="$(cd "$(dirname "${BASH_SOURCE[0]}")/.." && pwd)"
command -v serdi > /dev/null || { echo "bench/check.sh: serdi is missing (Debian's package serdi)" >&2; exit 1; }
"$top/bin/room" --prove
python3 - "$top/crates/room/out/room" "$1" "${2:-5}" <<'PYTHON'
import os, subprocess, sys, time

room, base, runs = sys.argv[1], sys.argv[2], int(sys.argv[3])


def measured(command):
    least, peak = float("inf"), 0
    for _ in range(runs):
        start = time.monotonic()
        process = subprocess.Popen(command, stdout=subprocess.DEVNULL)
        _, status, usage = os.wait4(process.pid, 0)
        if status != 0:
            sys.exit(f"{command[0]} failed")
        least = min(least, time.monotonic() - start)
        peak = max(peak, usage.ru_maxrss / 1024)
    return least, peak


size = os.path.getsize(base) / 2**20
serdi, _ = measured(["serdi", "-i", "ntriples", "-o", "ntriples", base])
checked, memory = measured([room, "check", base])
print(f"serdi {serdi:.2f} s, check {checked:.2f} s, ratio {checked / serdi:.2f}; {memory:.0f} MB, {memory / size:.1f} times the file")
PYTHON
