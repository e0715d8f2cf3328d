#!/usr/bin/env bash
# The processor time of the gate, crate by crate and from nothing: gate.sh [CRATE..], by default all, lower ones first.
# It prints a line for each crate: its name, the minutes of processor time and of the clock, and what `rt ci` says last.
# Name a crate only behind those that it stands on, or its time has theirs too. Let nothing else run on the machine.
set -eu
top="$(cd "$(dirname "${BASH_SOURCE[0]}")/.." && pwd)"
if [ $# -eq 0 ]; then
    # Each pair says that the first comes before the second.
    pairs="$(awk -F: '
        /^#/ || NF < 2 { next }
        { split($1, head, " "); below[head[1]] = $2 }
        END {
            for (crate in below) {
                print crate, crate
                count = split(below[crate], names, " ")
                for (i = 1; i <= count; i++) if (names[i] in below) print names[i], crate
            }
        }' "$top/crates.txt")"
    # shellcheck disable=SC2046
    set -- $(tsort <<< "$pairs")
fi
copy="$(mktemp -d)"
trap 'rm -rf "$copy"' EXIT
(cd "$top" && tar -cf - --exclude=out --exclude=.git .) | tar -xf - -C "$copy"
git -C "$copy" init -q
# What an earlier run passed counts by its files, so files that no run has seen are proved from nothing.
for source in "$copy"/crates/*/src/lib.rt "$copy"/crates/*/src/main.rt; do
    [ ! -f "$source" ] || echo "// Measured at $(date +%s)." >> "$source"
done
cd "$copy"
log="$copy/gate.log"
TIMEFORMAT='%U %S %R'
for crate in "$@"; do
    took="$({ time rt ci "$crate" > "$log" 2>&1 < /dev/null || true; } 2>&1)"
    awk -v crate="$crate" -v took="$took" -v last="$(tail -n 1 "$log")" 'BEGIN {
        split(took, t, " ")
        printf "%s\t%.1f\t%.1f\t%s\n", crate, (t[1] + t[2]) / 60, t[3] / 60, last
    }'
done
