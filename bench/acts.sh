#!/usr/bin/env bash
# How long a switching order takes in a script, with its judgement, its graph and its reply: bench/acts.sh.
# On feeders of 1,000, 10,000 and 50,000 segments it prints the microseconds for an order, which do not grow with the network where the
# lines agree: the time of a script of many orders less that of one of few, by their difference in number. Then it prints the seconds and
# the memory of 40,000 orders on 20,000 segments with a trace at the end, reading included. Where OTHER names another program, it plays
# the same script by `acts BASE SCRIPT` and says `ns_per_act=`; the ratio is printed.
set -eu
top="$(cd "$(dirname "${BASH_SOURCE[0]}")/.." && pwd)"
"$top/bin/room" --prove
python3 - "$top/crates/room/out/room" "$top/bench/feeder.py" "${OTHER:-}" <<'PYTHON'
import os, re, resource, subprocess, sys, tempfile, time

room, feeder, other = sys.argv[1:]
FEW, MANY, WHOLE = 120, 480120, 40000


def least_of(command, runs=4):
    """The least seconds of some runs."""
    best = None
    for _ in range(runs):
        start = time.monotonic()
        subprocess.run(command, stdout=subprocess.DEVNULL, check=True)
        seconds = time.monotonic() - start
        best = seconds if best is None else min(best, seconds)
    return best


def write(name, *what):
    with open(name, "wb") as file:
        subprocess.run([sys.executable, feeder, *map(str, what)], stdout=file, check=True)
    return name


def an_order(segments):
    base = write("base", "base", segments)
    few, many = (write(f"{count}", "acts", segments, count) for count in (FEW, MANY))
    seconds = (least_of([room, "script", base, many]) - least_of([room, "script", base, few])) / (MANY - FEW)
    print(f"{segments} segments: {seconds * 1e6:.1f} us an order")
    return seconds


def main():
    of = [an_order(segments) for segments in (1000, 10000, 50000)]
    print(f"50000 segments to 1000: ratio {of[2] / of[0]:.2f}")
    base, script = write("base", "base", 20000), write("whole", "acts", 20000, WHOLE)
    seconds = least_of([room, "script", base, script], 1)
    peak = resource.getrusage(resource.RUSAGE_CHILDREN).ru_maxrss / 1024
    print(f"{WHOLE} orders on 20000 segments: {seconds:.2f} s; the most memory of all runs: {peak:.0f} MB")
    if other:
        told = subprocess.run([other, "acts", base, script], stdout=subprocess.DEVNULL, stderr=subprocess.PIPE, check=True).stderr
        theirs = float(re.search(rb"ns_per_act=([0-9.]+)", told).group(1))
        print(f"the other program: {theirs:.0f} ns an order, ratio {of[1] * 1e9 / theirs:.0f}")


with tempfile.TemporaryDirectory() as folder:
    os.chdir(folder)
    main()
PYTHON
