#!/bin/sh
# What stands in the journal's place, and how much room there is: a folder, a link that leads nowhere, a pipe and a device
# are refused at once; a disk that fills up ends the run, and what was printed is found on a larger one.
top=$(cd "$(dirname "$0")/.." && pwd)
program="$top/crates/collect_cli/out/collect_cli"
[ -x "$program" ] || { echo "skipped: $program isn't built"; exit 0; }
folder=$(mktemp -d) || exit 1
trap 'cd /; umount "$folder/small" 2>/dev/null; rm -rf "$folder"' EXIT
cd "$folder" || exit 1
failed=0
awk 'BEGIN { for (i = 0; i < 500; i++) print "set autosend on" }' >script

# fill: runs of the script until one doesn't end with 0, whose status is answered
fill() {
    for _ in 1 2 3 4 5 6 7 8 9 10; do
        "$program" run <../script >"$folder/printed" 2>"$folder/said"
        status=$?
        [ "$status" = 0 ] || break
    done
    return "$status"
}

# refused NAME: nothing can be opened in the journal's place
refused() {
    if command -v timeout >/dev/null 2>&1; then
        echo quit | timeout 10 "$program" run >printed 2>said
    else
        echo quit | "$program" run >printed 2>said
    fi
    status=$?
    [ "$status" = 5 ] && [ "$(cat printed)" = 'fault 5' ] && [ -s said ] ||
        { echo "$1: status $status, printed $(cat printed), said $(cat said)"; failed=1; }
    rm -rf device.journal
}

mkdir device.journal
refused "a folder"
ln -s nowhere device.journal
refused "a link that leads nowhere"
[ -e nowhere ] && { echo "a file was made behind the link"; failed=1; }
mkfifo device.journal && refused "a pipe"
ln -s /dev/full device.journal
refused "a full device"
ln -s /dev/null device.journal
refused "the null device"

echo quit | "$program" run >/dev/null
mode=$(ls -l device.journal | cut -c1-10)
[ "$mode" = '-rw-------' ] || { echo "a new journal has the mode $mode"; failed=1; }
chmod 640 device.journal
echo quit | "$program" run >/dev/null
mode=$(ls -l device.journal | cut -c1-10)
[ "$mode" = '-rw-r-----' ] || { echo "an old journal's mode has become $mode"; failed=1; }
rm -f device.journal
echo quit | "$program" fly >printed 2>said
[ $? = 2 ] && grep -q 'run' said && [ ! -e device.journal ] || { echo "a wrong word: $(cat printed said)"; failed=1; }

# full NAME: the run that has just filled up its disk
full() {
    [ "$1" = 5 ] || { echo "$2: status $1"; failed=1; }
    last=$(awk '$2 == "ok" { last = $1 } END { print last + 0 }' "$folder/printed")
    cp device.journal "$folder/device.journal"
    cd "$folder" || exit 1
    found=$(echo 'show settings' | "$program" run | awk '{ print $1 }')
    [ "${found:-0}" -gt "$last" ] || { echo "$2: printed $last, found $found"; failed=1; }
    rm -f device.journal
}

mkdir small
(
    trap '' XFSZ
    ulimit -f 16 2>/dev/null || exit 0
    cd small && fill
    echo $? >"$folder/status"
)
if [ -e status ]; then cd small && full "$(cat "$folder/status")" "a limit on the file's size"; fi
cd "$folder" && rm -f small/* status
if mount -t tmpfs -o size=16k none small 2>/dev/null; then
    cd small && fill
    full $? "a file system of 16 KiB"
else
    echo "skipped: no small file system may be mounted"
fi
exit "$failed"
