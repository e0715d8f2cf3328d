#!/usr/bin/env bash
# How long sixteen consoles take in one, four and sixteen threads: consoles.sh [ORDERS], by default 200 orders for each console.
# They order what the test of sixteen consoles in `console_tests` has them order, over the same small feeder, and each looks after each
# order. It prints a line for each number of threads: orders and looks together, milliseconds, and how many that is in a second, the
# opening and the close of the room with them. Who has the desk's lock keeps the others from it, so more threads make no more orders.
# A test that prints this is added to `console_tests` in a copy of the repository, and run there without a proof.
set -eu
top="$(cd "$(dirname "${BASH_SOURCE[0]}")/.." && pwd)"
orders="${1:-200}"
copy="$(mktemp -d)"
trap 'rm -rf "$copy"' EXIT
(cd "$top" && tar -cf - --exclude=out --exclude=.git .) | tar -xf - -C "$copy"
git -C "$copy" init -q
tests="$copy/crates/console_tests"
# Only the modules that the timed test stands on.
rm "$tests/src/many_consoles.rt" "$tests/src/one_after_another.rt" "$tests/src/desk_calls.rt" "$tests/src/replay.rt"
rm -r "$tests/proofs/many_consoles" "$tests/proofs/one_after_another" "$tests/proofs/desk_calls" "$tests/proofs/replay"
{
    printf '//! Sixteen consoles, timed.\n#![tactic(auto)]\n\n'
    for module in answers feeder orders rooms timed working; do
        printf '#[cfg(test)]\nmod %s;\n' "$module"
    done
} > "$tests/src/lib.rt"
cat > "$tests/src/timed.rt" <<RATTLE
//! How long sixteen consoles take.

use crate::feeder::first;
use crate::orders::Orders;
use crate::rooms::day;
use crate::working::Work;
use board::Dated;
use std::test::Fail;
use std::time::Instant;

#[test]
fn sixteen_consoles_are_timed(rt: HostRuntime) -> Result<(), Fail> {
    let base = first(rt.alloc())?;
    let work = Work {
        orders: Orders::Together,
        turns: $orders,
    };
    for threads in [1usize, 4, 16] {
        let start = Instant::now(&rt)?;
        let (closed, _) = day(&rt, rt.alloc(), base.share()?, 16, threads.max(1), work)?;
        let took = start.elapsed(&rt)?.as_micros();
        eprintln!(rt; "timed {threads} {} {took}", closed.made)?;
    }
    Ok(())
}
RATTLE
cd "$tests"
rt try --test > "$copy/log" 2>&1 || { cat "$copy/log" >&2; exit 1; }
awk -v orders="$orders" '/timed [0-9]/ {
    count = 32 * orders
    printf "%d threads: %d orders and looks, %d entries, %.0f ms, %.0f in a second\n", $2, count, $3, $4 / 1000, count * 1000000 / $4
}' "$copy/log"
