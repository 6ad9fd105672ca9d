#!/bin/sh
# How long the program takes over a journal that grows: each round runs scripts of the greatest length, then opens once more.
# Usage: bench/journal.sh [ROUNDS]. It isn't part of the gate.
top=$(cd "$(dirname "$0")/.." && pwd)
program="$top/crates/collect_cli/out/collect_cli"
[ -x "$program" ] || { echo "$program isn't built"; exit 1; }
rounds=${1:-10}
folder=$(mktemp -d) || exit 1
trap 'rm -rf "$folder"' EXIT
cd "$folder" || exit 1
awk 'BEGIN { for (i = 0; i < 512; i++) print "set autosend on" }' >script
echo "bytes of the journal, seconds of 20 scripts of 512 commands, seconds of opening alone"
round=0
while [ "$round" -lt "$rounds" ]; do
    round=$((round + 1))
    begun=$(date +%s.%N)
    for _ in 1 2 3 4 5 6 7 8 9 10 11 12 13 14 15 16 17 18 19 20; do
        "$program" run <script >/dev/null || exit 1
    done
    between=$(date +%s.%N)
    "$program" run </dev/null || exit 1
    ended=$(date +%s.%N)
    wc -c <device.journal | tr -d '\n '
    awk -v a="$begun" -v b="$between" -v c="$ended" 'BEGIN { printf "\t%.2f\t%.3f\n", b - a, c - b }'
done
