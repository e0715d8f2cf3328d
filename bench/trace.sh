#!/usr/bin/env bash
# How long a trace takes: bench/trace.sh [BASE SOURCE [PHASES]].
# With a base it prints the seconds and the memory of `room trace`. Without one it prints the time of a trace in `room script`, where the
# graph is held, of a lateral of ten segments on a feeder of 50,000 and of a whole feeder: the time of a script with many traces less that
# of one with none, by their number. Where OTHER names another program, it traces the same by `trace BASE SOURCE` and must write the same;
# it says `best_reach_text_ms=` where it is asked for a number of traces as a third word. The ratio is printed.
set -eu
top="$(cd "$(dirname "${BASH_SOURCE[0]}")/.." && pwd)"
"$top/bin/room" --prove
python3 - "$top/crates/room/out/room" "$top/bench/feeder.py" "${OTHER:-}" "$@" <<'PYTHON'
import os, re, resource, subprocess, sys, tempfile, time

room, feeder, other, *words = sys.argv[1:]


def best_of(command, runs=5):
    """The least seconds of some runs, and what was written."""
    best, written = None, None
    for _ in range(runs):
        start = time.monotonic()
        written = subprocess.run(command, stdout=subprocess.PIPE, stderr=subprocess.DEVNULL, check=True).stdout
        seconds = time.monotonic() - start
        best = seconds if best is None else min(best, seconds)
    return best, written


def one_base(base, source, phases="ABC"):
    seconds, written = best_of([room, "trace", base, source, phases])
    peak = resource.getrusage(resource.RUSAGE_CHILDREN).ru_maxrss / 1024
    lines = written.count(b"\n")
    print(f"{lines} lines, {seconds:.2f} s, {peak:.0f} MB")
    if other:
        theirs, text = best_of([other, "trace", base, source])
        if text != written:
            sys.exit("the other program writes another trace")
        print(f"the other program: {theirs:.2f} s, ratio {seconds / theirs:.2f}")


def write(name, *what):
    with open(name, "wb") as file:
        subprocess.run([sys.executable, feeder, *map(str, what)], stdout=file, check=True)
    return name


def held(base, one, many, count):
    """The seconds of one more trace on a graph that is held."""
    return (best_of([room, "script", base, many])[0] - best_of([room, "script", base, one])[0]) / count


def feeders():
    base = write("base", "base", 50000)
    lateral = held(base, write("one", "laterals", 50000, 1), write("many", "laterals", 50000, 1001), 1000)
    print(f"a lateral of ten segments on 50000: {lateral * 1e3:.3f} ms")
    base = write("base", "base", 30000)
    whole = held(base, write("one", "source", 1), write("many", "source", 21), 20)
    print(f"a feeder of 30000 segments: {whole * 1e3:.1f} ms")
    if other:
        source = open("one").read().split()[2]
        command = [other, "trace", base, source, "20"]
        told = subprocess.run(command, stdout=subprocess.DEVNULL, stderr=subprocess.PIPE, check=True).stderr
        theirs = float(re.search(rb"best_reach_text_ms=([0-9.]+)", told).group(1))
        print(f"the other program: {theirs:.1f} ms, ratio {whole * 1e3 / theirs:.1f}")


if words:
    one_base(*words)
else:
    with tempfile.TemporaryDirectory() as folder:
        os.chdir(folder)
        feeders()
PYTHON
