#!/bin/sh
# Lines that come through a pipe are answered one by one, each before the next one is sent; a long script takes no more memory
# than a short one, and each command of a long one has its position.
top=$(cd "$(dirname "$0")/.." && pwd)
program="$top/crates/collect_cli/out/collect_cli"
[ -x "$program" ] || { echo "skipped: $program isn't built"; exit 0; }
command -v mkfifo >/dev/null 2>&1 || { echo "skipped: mkfifo is missing"; exit 0; }
folder=$(mktemp -d) || exit 1
trap 'rm -rf "$folder"' EXIT
cd "$folder" || exit 1
failed=0

mkfifo lines answers || exit 1
"$program" run <lines >answers 2>/dev/null &
exec 3>lines 4<answers
position=1
for mode in on off on off on; do
    position=$((position + 1))
    echo "set autosend $mode" >&3
    read -r answer <&4
    [ "$answer" = "$position ok" ] || { echo "answered $answer in place of $position ok"; failed=1; }
done
echo 'show settings' >&3
read -r answer <&4
[ "$answer" = '6 settings mode manual autosend on' ] || { echo "answered $answer"; failed=1; }
exec 3>&- 4<&-
wait
rm -f device.journal

awk 'BEGIN { for (i = 0; i < 400000; i++) print "show settings" }' >long
(
    ulimit -v 65536 2>/dev/null || exit 0
    "$program" run <long | awk '$0 != "1 settings mode manual autosend off" { wrong++ } END { exit NR != 400000 || wrong }'
) || { echo "400,000 lines within 64 MiB: not all were answered"; failed=1; }
rm -f device.journal

# 100,000 commands over a file system in memory, where a sync costs nothing; fewer on a disk
many=100000
memory=$(mktemp -d -p /dev/shm 2>/dev/null) || { many=2000; memory=$folder; echo "only $many commands: no file system in memory"; }
trap 'rm -rf "$folder" "$memory"' EXIT
cd "$memory" || exit 1
awk -v many="$many" 'BEGIN { for (i = 0; i < many; i++) print "set autosend on" }' >many
"$program" run <many | awk -v many="$many" '$0 != (NR + 1) " ok" { wrong++ } END { exit NR != many || wrong }' ||
    { echo "a command of a long script has no position, or another"; failed=1; }
exit "$failed"
