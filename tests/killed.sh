#!/bin/sh
# Kills the built program with signal 9 at fifty random moments, opens its journal again each time, and looks for every
# position that it had printed.
top=$(cd "$(dirname "$0")/.." && pwd)
program="$top/crates/collect_cli/out/collect_cli"
[ -x "$program" ] || { echo "skipped: $program isn't built"; exit 0; }
sleep 0.001 2>/dev/null || { echo "skipped: sleep takes no fractions"; exit 0; }
folder=$(mktemp -d) || exit 1
trap 'rm -rf "$folder"' EXIT
cd "$folder" || exit 1

line=0
while [ "$line" -lt 250 ]; do
    echo 'set autosend on'
    echo 'set autosend off'
    line=$((line + 1))
done | head -c 8000 >script

round=0
killed=0
while [ "$round" -lt 50 ]; do
    round=$((round + 1))
    "$program" run <script >printed 2>/dev/null &
    child=$!
    sleep "0.0$(od -An -N2 -tu2 /dev/urandom | tr -d ' ' | awk '{ printf "%03d", $1 % 400 }')"
    kill -9 "$child" 2>/dev/null && killed=$((killed + 1))
    wait "$child" 2>/dev/null
    # a line that the kill cut off has no line feed; what is before it was printed whole
    last=$(awk 'NF == 2 && $2 == "ok" { last = $1 } END { print last + 0 }' printed)
    echo 'show settings' | "$program" run >answer || { echo "round $round: status $?"; cat answer; exit 1; }
    found=$(awk '{ print $1 }' answer)
    [ "$found" -gt "$last" ] || { echo "round $round: printed $last, found $((found - 1)) entries"; exit 1; }
done
echo "killed $killed of 50 runs, and every printed position was found again"
