#!/usr/bin/env bash
# What a difference costs on a base: bench/differences.sh BASE [RUNS]. The least time of each counts.
# It prints how long a document of up to 400,000 lines of the base takes to read, half of them as reverse and half as forward statements,
# against the same lines as a base; and how long the judgement of a difference of ten statements takes, which changes the lengths of five
# segments, against a check of the whole base. BASE is in the form that this program writes, and states the lengths of five segments.
# A small program over `cutover` is proved and built for it in a copy of the repository, in a minute where the crates below are proved
# already.
set -eu
top="$(cd "$(dirname "${BASH_SOURCE[0]}")/.." && pwd)"
base="$(realpath "$1")"
runs="${2:-5}"
copy="$(mktemp -d)"
trap 'rm -rf "$copy"' EXIT
(cd "$top" && tar -cf - --exclude=out --exclude=.git .) | tar -xf - -C "$copy"
git -C "$copy" init -q
bench="$copy/crates/difference_bench"
mkdir -p "$bench/src" "$bench/proofs/judged"
echo "difference_bench: cim_words cim_model nt_text statement_set cim_profile room_words difference cutover anyhow" >> "$copy/crates.txt"
: > "$bench/proofs/Lib.antt"
cat > "$bench/src/main.rt" <<'RATTLE'
//! Reads and judges differences, and prints how many milliseconds each step took.
#![tactic(auto)]

ghost use Rattle.std.specs.Prelude.{◌<◌, ◌^◌, length, IfOk};
ghost use Rattle.cim_model.specs.Profile.{IsFaultless};

use anyhow::{Result, bail};
use cim_model::the_empty_overlay_stands;
use cim_profile::first_break;
use cutover::judge_difference;
use difference::read;
use nt_text::read_document;
use room_words::{Difference, Overlay};
use statement_set::StatementSet;
use std::alloc::Global;
use std::fs;
use std::time::Instant;

/// The set of the statements of a base, which breaks no rule.
fn checked(alloc: Global, bytes: &[u8]) -> Result<StatementSet>
    requires { length bytes.now < 2 ^ 32 }
    ensures { IfOk result IsFaultless }
{
    let set = StatementSet::from_list(alloc, read_document(alloc, bytes)?)?;
    match first_break(alloc, &set)? {
        Some(_) => bail!("the base breaks a rule"),
        None => Ok(set),
    }
}

/// How many statements a difference leaves under the empty overlay.
fn judged(alloc: Global, set: &StatementSet, difference: &Difference) -> Result<usize>
    requires { IsFaultless set.now }
{
    the_empty_overlay_stands();
    let overlay = Overlay::empty(alloc);
    Ok(judge_difference(alloc, set, &overlay, difference)?.len())
}

/// The bytes of a file, if they are not too many.
fn bytes_of(rt: &HostRuntime, name: &str) -> Result<Vec<u8>>
    ensures { IfOk result (λ bytes. length bytes.items < 2 ^ 32) }
{
    let bytes = fs::read(rt, name)?;
    if bytes.len() > 1_000_000_000 {
        bail!("the file is too long");
    }
    Ok(bytes)
}

/// Reads lines as a base.
fn time_base(rt: &HostRuntime) -> Result<()> {
    let lines = bytes_of(rt, "lines.nt")?;
    let start = Instant::now(rt)?;
    let count = read_document(rt.alloc(), &lines)?.len();
    let took = start.elapsed(rt)?.as_millis();
    println!(rt; "{count} {took}")?;
    Ok(())
}

/// Reads them as a difference.
fn time_document(rt: &HostRuntime) -> Result<()> {
    let document = bytes_of(rt, "document")?;
    let start = Instant::now(rt)?;
    let count = read(rt.alloc(), &document)?.fwd().len();
    let took = start.elapsed(rt)?.as_millis();
    println!(rt; "{count} {took}")?;
    Ok(())
}

/// Checks a base.
fn time_check(rt: &HostRuntime) -> Result<StatementSet>
    ensures { IfOk result IsFaultless }
{
    let base = bytes_of(rt, "base.nt")?;
    let start = Instant::now(rt)?;
    let set = checked(rt.alloc(), &base)?;
    let took = start.elapsed(rt)?.as_millis();
    println!(rt; "{} {took}", set.len())?;
    Ok(set)
}

/// Judges a difference on it.
fn time_judgement(rt: &HostRuntime, set: &StatementSet) -> Result<()>
    requires { IsFaultless set.now }
{
    let change = read(rt.alloc(), &bytes_of(rt, "change")?)?;
    let start = Instant::now(rt)?;
    let left = judged(rt.alloc(), set, &change)?;
    let took = start.elapsed(rt)?.as_millis();
    println!(rt; "{left} {took}")?;
    Ok(())
}

fn main(rt: HostRuntime) -> Result<()> {
    time_base(&rt)?;
    time_document(&rt)?;
    let set = time_check(&rt)?;
    time_judgement(&rt, &set)
}
RATTLE
cat > "$bench/proofs/judged/Answers.antt" <<'ANTT'
use Rattle.std.proofs.Common.{subst, sym}
use Rattle.cim_model.specs.Stands.{Stands}
use Rattle.difference_bench.proofs.judged.Goals as goal

pub judge_difference-requires-clause-stands : goal.judge_difference-requires-clause-stands
judge_difference-requires-clause-stands c = subst (Stands c.args.set.now) (sym c.empty-overlay.ensures) (c.the_empty_overlay_stands.ensures c.args.set.now)
ANTT
# Without its files the program ends with a status, but it is built.
(cd "$bench" && rt run > "$copy/build.log" 2>&1) || true
[ -x "$bench/out/difference_bench" ] || { tail -n 20 "$copy/build.log" >&2; exit 1; }
cd "$copy"
python3 - "$bench/out/difference_bench" "$base" "$runs" <<'PYTHON'
import itertools, shutil, subprocess, sys

program, base, runs = sys.argv[1], sys.argv[2], int(sys.argv[3])
shutil.copy(base, "base.nt")
with open(base) as file:
    lines = list(itertools.islice(file, 400_000))
with open(base) as file:
    lengths = list(itertools.islice((line for line in file if "Conductor.length>" in line), 5))
if len(lengths) < 5:
    sys.exit("the base states the lengths of fewer than five segments")


def document(reverse, forward):
    return "".join(["%reverse\n", *reverse, "%forward\n", *forward, "%end\n"])


half = len(lines) // 2
with open("lines.nt", "w") as file:
    file.writelines(lines)
with open("document", "w") as file:
    file.write(document(lines[:half], lines[half:]))
with open("change", "w") as file:
    file.write(document(lengths, [line.rsplit('"', 2)[0] + '"123" .\n' for line in lengths]))
least = None
for _ in range(runs):
    text = subprocess.run([program], check=True, stdout=subprocess.PIPE).stdout.decode()
    rows = [list(map(int, line.split())) for line in text.splitlines()]
    count, _, statements, left = (row[0] for row in rows)
    times = [row[1] for row in rows]
    least = times if least is None else list(map(min, least, times))
as_base, as_document, check, judge = least
print(f"{count} lines: as a base {as_base} ms, as a difference {as_document} ms, ratio {as_document / as_base:.2f}")
print(f"{statements} statements: check {check} ms, judgement of ten statements {judge} ms, ratio {judge / check:.2f}; {left} are left")
PYTHON
