#!/usr/bin/env bash
# Runs each command of answers.txt and compares its exit code and the first line of what it writes.
# An unproved build takes about a minute for each; `bin/room --prove` comes first for the proved one.
set -u
cd "$(dirname "${BASH_SOURCE[0]}")" || exit
wrong=0
count=0
while IFS=$'\t' read -r -u 3 words code line; do
    case "$words" in '#'*) continue ;; esac
    read -r -a command <<< "$words"
    said="$(../bin/room "${command[@]}" 2> /dev/null < /dev/null)"
    given=$?
    said="${said%%$'\n'*}"
    count=$((count + 1))
    if [ "$given" != "$code" ] || [ "$said" != "$line" ]; then
        echo "room $words: $given and \`$said\`, not $code and \`$line\`"
        wrong=$((wrong + 1))
    fi
done 3< answers.txt
echo "$count commands, $wrong wrong answers"
[ "$wrong" = 0 ]
