#!/bin/sh
# The built program over journals that python3 has made: entries that no rule allows, frames that are torn, a gate whose write was
# torn, and journals at their limit.
top=$(cd "$(dirname "$0")/.." && pwd)
program="$top/crates/collect_cli/out/collect_cli"
[ -x "$program" ] || { echo "skipped: $program isn't built"; exit 0; }
command -v python3 >/dev/null 2>&1 || { echo "skipped: python3 is missing"; exit 0; }
folder=$(mktemp -d) || exit 1
trap 'rm -rf "$folder"' EXIT
cd "$folder" || exit 1
failed=0

# make PYTHON: writes the journal from the frames f(payload) with the gate g, the opening and auto-send on
make() {
    python3 - "$1" <<'END'
import struct, sys
server = b"http://localhost:8080"
def f(payload): return b"\xa7" + struct.pack("<I", len(payload)) + payload
def opened(device): return bytes([1, 0]) + struct.pack("<Q", device) + struct.pack("<I", len(server)) + server
opening, on, header = f(opened(1)), f(bytes([2, 0, 1])), b"ODKDEV01"
with open("device.journal", "wb") as out:
    out.write(eval(sys.argv[1]))
END
}

# check NAME STATUS PRINTED SCRIPT: nothing is touched where the status is 6
check() {
    printf "$4" >script
    printf "$3" >want
    before=$(cksum <device.journal)
    "$program" run <script >got 2>/dev/null
    status=$?
    if [ "$status" != "$2" ] || ! cmp -s got want; then
        echo "$1: status $status, printed:"
        head -n 20 got
        failed=1
    fi
    [ "$2" != 6 ] || [ "$(cksum <device.journal)" = "$before" ] || { echo "$1: the journal was touched"; failed=1; }
}

make 'header + opening + on + f(bytes([13, 0])) + b"\0"'
check "a command that isn't built" 6 'fault 6 entry 3\n' 'show settings\n'
make 'header + f(opened(2 ** 48)) + b"\0"'
check "a device's number past its limit" 6 'fault 6 entry 1\n' 'show settings\n'
make 'header + opening + f(bytes([2, 0, 2])) + b"\0"'
check "an entry that is spelled by none" 6 'fault 6 entry 2\n' 'show settings\n'
make 'header + opening + on + b"\xa7\3\0\0\0\2\0"'
check "a frame that is cut" 6 'fault 6 at 56\n' 'show settings\n'
make 'header + opening + b"\x55\3\0\0\0\2\0\1\0"'
check "a gate whose write was torn" 0 '2 settings mode manual autosend off\n' 'show settings\n'
make 'header + opening + b"\0\3\0\0\0\2\0\1\0"'
check "a gate that was not written" 0 '2 settings mode manual autosend off\n' 'show settings\n'
make 'header + opening + on + b"\0" + bytes(134217728 - 8 - 40 - 8)'
check "a journal past its limit" 6 'fault 6 at 134217728\n' 'show settings\n'
make 'header + opening + on + b"\0" + bytes(134217728 - 8 - 40 - 8 - 1)'
check "a journal as long as its limit" 0 '3 settings mode manual autosend on\n' 'show settings\n'
make 'header + opening * 3355442 + b"\0"'
check "no room for the opening" 9 'fault 9 length 134217689\n' 'show settings\n'
make 'header + opening * 3355440 + b"\0"'
lines=$(awk 'BEGIN { for (i = 2; i <= 10; i++) printf "%d ok\\n", 3355440 + i }')
check "room for nine commands" 9 "${lines}fault 9 length 134217721\n" \
    "$(awk 'BEGIN { for (i = 0; i < 12; i++) printf "set autosend on\\n" }')"
exit "$failed"
