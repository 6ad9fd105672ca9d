#!/bin/sh
# A whole survey over real files: the example's answers, and a program that is killed with signal 9 while answers are given
# finds each answer again that it had printed.
top=$(cd "$(dirname "$0")/.." && pwd)
program="$top/crates/collect_cli/out/collect_cli"
[ -x "$program" ] || { echo "skipped: $program isn't built"; exit 0; }
sleep 0.001 2>/dev/null || { echo "skipped: sleep takes no fractions"; exit 0; }
folder=$(mktemp -d) || exit 1
trap 'rm -rf "$folder"' EXIT
cd "$folder" || exit 1

cat >want <<'END'
2 ok
2 forms 1
form tree 1 md5:8db6e39aa88a0e3e728a273376ce7192 visible
3 ok
3 refused 15 answer not-a-choice
4 ok
5 ok
5 entry tree 1 3
field /data/kind oak shown
field /data/age 120 shown
field /data/label "oak of 120" shown
6 saved 1
6 instances 1
instance 1 draft tree 1 -
7 ok
8 ok
8 entry tree 1 3
field /data/kind oak shown
field /data/age 121 shown
field /data/label "oak of 121" shown
9 ok
9 bye
END
"$program" run <"$top/examples/survey.script" >got || { echo "the example: status $?"; cat got; exit 1; }
cmp -s got want || { echo "the example printed:"; cat got; exit 1; }

# what was kept is there in the next run
printf 'open 1\nshow entry\n' | "$program" run >got
grep -qx 'field /data/age 120 shown' got || { echo "the draft was found as:"; cat got; exit 1; }

grep '^load' "$top/examples/survey.script" >script
echo 'start tree' >>script
awk 'BEGIN { for (i = 1; i <= 300; i++) print "answer /data/age " i }' >>script
round=0
killed=0
while [ "$round" -lt 30 ]; do
    round=$((round + 1))
    rm -f device.journal
    "$program" run <script >printed 2>/dev/null &
    child=$!
    sleep "0.$(od -An -N2 -tu2 /dev/urandom | tr -d ' ' | awk '{ printf "%03d", $1 % 500 }')"
    kill -9 "$child" 2>/dev/null && killed=$((killed + 1))
    wait "$child" 2>/dev/null
    # the answer N has the position N + 3; a line that the kill cut off has no line feed
    last=$(awk 'NF == 2 && $2 == "ok" { last = $1 } END { print last - 3 }' printed)
    [ "$last" -gt 0 ] || continue
    printf 'start tree recover\nshow entry\n' | "$program" run >answer || { echo "round $round: status $?"; cat answer; exit 1; }
    found=$(awk '$2 == "/data/age" { print $3 }' answer)
    [ "${found:-0}" -ge "$last" ] || { echo "round $round: answer $last was printed, found:"; cat answer; exit 1; }
done
echo "killed $killed of 30 surveys, and every printed answer was found again"
