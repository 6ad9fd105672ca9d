#!/bin/sh
# The built program over real files: what it prints, its status, and the bytes of its journal.
top=$(cd "$(dirname "$0")/.." && pwd)
program="$top/crates/collect_cli/out/collect_cli"
[ -x "$program" ] || { echo "skipped: $program isn't built"; exit 0; }
command -v od >/dev/null 2>&1 || { echo "skipped: od is missing"; exit 0; }
folder=$(mktemp -d) || exit 1
trap 'rm -rf "$folder"' EXIT
cd "$folder" || exit 1
failed=0

# check NAME STATUS PRINTED LENGTH SCRIPT WORDS..
check() {
    name=$1 want_status=$2 want=$3 want_length=$4 script=$5
    shift 5
    printf "$script" >script
    printf "$want" >want
    "$program" "$@" <script >got 2>/dev/null
    status=$?
    length=0
    [ -e device.journal ] && length=$(wc -c <device.journal | tr -d ' ')
    if [ "$status" != "$want_status" ] || ! cmp -s got want || [ "$length" != "$want_length" ]; then
        echo "$name: status $status, $length bytes, printed:"
        cat got
        failed=1
    fi
}

bytes() { od -An -v -tx1 device.journal | tr -d ' \n'; }

check "settings are kept" 0 '2 ok\n2 settings mode manual autosend on\n2 bye\n' 57 \
    'set autosend on\nshow settings\nquit\n' run
case $(bytes) in *a70300000002000100) ;; *) echo "the journal ends otherwise: $(bytes)"; failed=1 ;; esac
rm -f device.journal
check "an empty script" 0 '' 49 '' run
rm -f device.journal
printf '\247\247\247\247\247\247\247\247\247' >device.journal
check "nine bytes are an empty journal" 0 '1 bye\n' 49 'quit\n' run
printf '\247\247\247\247\247\247\247\247\247\247' >device.journal
check "ten bytes are no journal" 6 'fault 6 at 0\n' 10 'quit\n' run
rm -f device.journal
check "lines that aren't known" 0 '1 bad line\n1 not built\n1 settings mode manual autosend off\n' 49 \
    'dance\nupdate\nshow settings\n' run
rm -f device.journal
check "modes" 0 '2 ok\n3 ok\n3 settings mode exact autosend off\n4 ok\n' 73 \
    'set mode previous\nset mode exact\nshow settings\nset mode manual\n' run
check "a journal is gone on with" 0 '5 settings mode manual autosend off\n' 113 'show settings\n' run
rm -f device.journal
check "first run of the log" 0 '2 ok\n2 settings mode manual autosend on\n2 bye\n' 57 \
    'set autosend on\nshow settings\nquit\n' run
check "the log" 0 '1 script opened\n2 script autosend\n3 script opened\n' 97 'quit\n' log
rm -f device.journal
check "two words" 2 'fault 2\n' 0 'quit\n' run run
check "no word" 2 'fault 2\n' 0 'quit\n'
exit "$failed"
