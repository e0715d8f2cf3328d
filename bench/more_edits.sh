#!/usr/bin/env bash
# Tries the edits that the gate leaves out: more_edits.sh [CRATE..], by default every crate that has some.
# The gate tries crates/NAME/must-fail/*.edit, and reads no file whose name ends in .md. So the others stand beside them as
# must-fail/more/*.edit.md, and are tried here as must-fail edits of a copy of the repository.
set -eu
top="$(cd "$(dirname "${BASH_SOURCE[0]}")/.." && pwd)"
if [ $# -eq 0 ]; then
    for folder in "$top"/crates/*/must-fail/more; do
        set -- "$@" "$(basename "$(dirname "$(dirname "$folder")")")"
    done
fi
copy="$(mktemp -d)"
trap 'rm -rf "$copy"' EXIT
# What is proved of the same files in another checkout on this machine need not be proved again in the copy.
(cd "$top" && tar -cf - --exclude=out --exclude=.git .) | tar -xf - -C "$copy"
git -C "$copy" init -q
for crate in "$@"; do
    edits="$copy/crates/$crate/must-fail"
    if [ ! -d "$edits/more" ]; then
        echo "more_edits: $crate has no more edits" >&2
        exit 2
    fi
    rm -f "$edits"/*.edit
    for edit in "$edits"/more/*.edit.md; do
        mv "$edit" "$edits/$(basename "$edit" .md)"
    done
    rmdir "$edits/more"
done
cd "$copy"
rt must-fail "$@"
