#!/usr/bin/env bash
# Runs the commands of README.md beside this file, and the program where the outside is large, missing, full or closed.
# Prints a line for each case, and fails where one is not as it should be.
set -u
here="$(cd "$(dirname "${BASH_SOURCE[0]}")" && pwd)"
room="$here/../bin/room"
folder="$(mktemp -d)"
trap 'rm -rf "$folder"' EXIT
failed=0

# Prints the line of a case: its name, and what became of it.
tell() {
    if [ "$2" = 0 ]; then
        echo "$1: as it should be"
    else
        echo "$1: WRONG"
        failed=1
    fi
}

# A case: the program, run with these words, exits with this code, and writes what stands in this file.
writes() {
    local name="$1" code="$2" wanted="$3" given=0 wrong=0
    shift 3
    "$room" "$@" > "$folder/written" || given=$?
    [ "$given" = "$code" ] && cmp -s "$wanted" "$folder/written" || wrong=1
    tell "$name" "$wrong"
}

# A case in which nothing can be written: the program, run with these words, exits with this code over the full disk, and where its
# output is closed.
cannot_write() {
    local name="$1" code="$2" full=0 closed=0 wrong=0
    shift 2
    "$room" "$@" > /dev/full 2> "$folder/errors" || full=$?
    "$room" "$@" >&- 2>> "$folder/errors" || closed=$?
    [ "$full" = "$code" ] || wrong=1
    tell "$name, to a full disk" "$wrong"
    wrong=0
    [ "$closed" = "$code" ] || wrong=1
    tell "$name, to a closed output" "$wrong"
}

# The pieces of equipment that these reach, each in A, B and C, by the ends of their identifiers.
reached() {
    echo "trace 0 $#"
    for end in "$@"; do echo "00000000-0000-4000-8000-0000000000$end ABC"; done
}

# The first feeder, behind this many names of its segment.
named() {
    local segment='<urn:uuid:00000000-0000-4000-8000-000000000051>' name='<http://iec.ch/TC57/CIM100#IdentifiedObject.name>'
    seq "$1" | sed "s|.*|$segment $name \"Line &\" .|"
    cat "$here/first_feeder.nt"
}

source=00000000-0000-4000-8000-0000000000e1
consumer=00000000-0000-4000-8000-0000000000c1
first="$here/first_feeder.nt"
otherwise="$here/first_feeder_otherwise.nt"
with_cut="$here/first_feeder_with_cut.nt"
ieee="$here/ieee_13_node.nt"

writes 'trace of the IEEE feeder' 0 "$here/ieee_13_node.txt" trace "$ieee" 00000013-0000-4000-8005-000000000115 ABC
writes 'check of the IEEE feeder' 0 <(echo 'ok 435') check "$ieee"
writes 'check of the first feeder' 0 <(echo 'ok 29') check "$first"
writes 'trace of the first feeder' 0 <(reached 51 b1 c1 e1) trace "$first" "$source" ABC
writes 'check of the first feeder as another tool writes it' 0 <(echo 'ok 32') check "$otherwise"
writes 'trace of the first feeder as another tool writes it' 0 <(reached 51 b1 c1 e1) trace "$otherwise" "$source" ABC
writes 'check of the feeder with a cut' 0 <(echo 'ok 39') check "$with_cut"
writes 'trace up to the open cut' 0 <(reached 51 92 b1 e1) trace "$with_cut" "$source" ABC
writes 'trace to the open cut from behind' 0 <(reached 51 92 c1) trace "$with_cut" "$consumer" ABC
cp "$with_cut" "$folder/closed.nt"
echo '<urn:uuid:00000000-0000-4000-8000-000000000092> <http://iec.ch/TC57/CIM100#Switch.open> "false" .' >> "$folder/closed.nt"
writes 'trace through the closed cut' 0 <(reached 51 92 b1 c1 e1) trace "$folder/closed.nt" "$source" ABC

# Scripts: a night's switching, and 600 requests of eight consoles with everything that can be wrong in them.
writes 'a night on the IEEE feeder' 0 "$here/night_answers.txt" script "$ieee" "$here/night.txt"
writes 'a crowd of consoles' 0 "$here/crowd/answers.txt" script "$here/crowd/base.nt" "$here/crowd/script.txt"
writes 'a document that never ends' 0 "$here/crowd/endless_answers.txt" script "$here/crowd/base.nt" "$here/crowd/endless.txt"
writes 'a missing script' 1 <(echo 'read fault') script "$first" "$folder/no_such_file.txt"

# A refusal tells itself by its line and by the code with which the program exits.
writes 'a source that is no equipment' 4 <(echo asked) trace "$first" 00000000-0000-4000-8000-0000000000a1 ABC
writes 'words that are no command' 2 <(echo usage) check
writes 'no words' 2 <(echo usage)
writes 'words that are no text' 2 <(echo usage) check "$first"$'\xff'
writes 'a missing file' 1 <(echo 'read fault') check "$folder/no_such_file.nt"
writes 'a folder in place of a file' 1 <(echo 'read fault') trace "$folder" "$source" ABC

# More than is read, or written, at once.
named 10000 > "$folder/named.nt"
writes 'check of a base of more than a million bytes' 0 <(echo 'ok 10029') check "$folder/named.nt"
writes 'trace of a base of more than a million bytes' 0 <(reached 51 b1 c1 e1) trace "$folder/named.nt" "$source" ABC
truncate -s 268435457 "$folder/large.nt"
writes 'check of a file of one byte too many' 3 <(echo limit) check "$folder/large.nt"
writes 'trace of a file of one byte too many' 3 <(echo limit) trace "$folder/large.nt" "$source" ABC

cannot_write 'a check' 5 check "$first"
cannot_write 'a trace' 5 trace "$first" "$source" ABC
cannot_write 'a script' 5 script "$ieee" "$here/night.txt"
cannot_write 'a refusal' 1 check "$folder/no_such_file.nt"
exit "$failed"
