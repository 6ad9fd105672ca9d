#!/bin/sh
# One run at a time has the journal: of several at once each ends with 0, or with 5 and nothing touched; a run that was
# killed lets the journal go.
top=$(cd "$(dirname "$0")/.." && pwd)
program="$top/crates/collect_cli/out/collect_cli"
[ -x "$program" ] || { echo "skipped: $program isn't built"; exit 0; }
command -v mkfifo >/dev/null 2>&1 || { echo "skipped: mkfifo is missing"; exit 0; }
folder=$(mktemp -d) || exit 1
trap 'rm -rf "$folder"' EXIT
cd "$folder" || exit 1
failed=0
awk 'BEGIN { for (i = 0; i < 50; i++) print "set autosend on" }' >script

one() {
    "$program" run <script >"printed.$1" 2>/dev/null
    echo $? >"status.$1"
}

round=0
while [ "$round" -lt 20 ]; do
    round=$((round + 1))
    rm -f device.journal printed.* status.*
    for k in 1 2 3 4 5; do one "$k" & done
    wait
    for k in 1 2 3 4 5; do
        status=$(cat "status.$k")
        case $status in
        0) ;;
        5) [ "$(cat "printed.$k")" = 'fault 5' ] || { echo "round $round: printed beside status 5"; failed=1; } ;;
        *) echo "round $round: status $status"; failed=1 ;;
        esac
    done
    answered=$(cat printed.* | grep -c ' ok$')
    kept=$("$program" log | grep -c 'script autosend')
    [ "$answered" = "$kept" ] || { echo "round $round: $answered answers, $kept entries"; failed=1; }
done

# a log that nobody reads waits for its reader, and holds the lock
awk 'BEGIN { for (i = 0; i < 500; i++) print "set autosend on" }' >script
rm -f device.journal
for k in 1 2 3 4 5 6 7 8 9 10; do "$program" run <script >/dev/null || failed=1; done
mkfifo lines || exit 1
sleep 1000 <lines &
reader=$!
"$program" log >lines 2>/dev/null &
child=$!
sleep 1
size=$(wc -c <device.journal)
"$program" run <script >second 2>said
[ $? = 5 ] || { echo "a second run beside the first didn't end with 5"; failed=1; }
[ "$(cat second)" = 'fault 5' ] || { echo "a second run printed: $(cat second)"; failed=1; }
grep -q 'in use' said || { echo "the standard error doesn't say that the journal is in use"; failed=1; }
[ "$(wc -c <device.journal)" = "$size" ] || { echo "a second run touched the journal"; failed=1; }
kill -9 "$child" 2>/dev/null
wait "$child" 2>/dev/null
kill "$reader"
"$program" run <script >third || { echo "a run behind one that was killed ended with $?"; failed=1; }
exit "$failed"
