#!/bin/sh
# How long finalizing takes beside the length of the document: five drafts of forms with 15, 30, 60 and 120 texts of 1,000 bytes
# are finalized at once. Usage: bench/finalize.sh [FOLDER]. It isn't part of the gate.
top=$(cd "$(dirname "$0")/.." && pwd)
program="$top/crates/collect_cli/out/collect_cli"
[ -x "$program" ] || { echo "$program isn't built"; exit 1; }
folder=$(mktemp -d -p "${1:-/tmp}") || exit 1
trap 'rm -rf "$folder"' EXIT
cd "$folder" || exit 1

# a script that keeps five drafts of a form with so many texts
drafts() {
    awk -v count="$1" 'BEGIN {
        for (i = 1; i <= 1000; i++) text = text "x"
        printf "load \"<h:html xmlns=\047http://www.w3.org/2002/xforms\047 xmlns:h=\047http://www.w3.org/1999/xhtml\047><h:head><model><instance><data id=\047long\047 version=\0471\047>"
        for (i = 1; i <= count; i++) printf "<q%d/>", i
        printf "</data></instance></model></h:head><h:body>"
        for (i = 1; i <= count; i++) printf "<input ref=\047/data/q%d\047/>", i
        printf "</h:body></h:html>\"\n"
        for (k = 1; k <= 5; k++) {
            print "start long"
            for (i = 1; i <= count; i++) printf "answer /data/q%d %s\n", i, text
            print "save"
        }
    }'
}

# the seconds that a line takes on the drafts, with the opening of their journal
seconds() {
    cp drafts.journal device.journal
    echo "$1" >line
    begun=$(date +%s.%N)
    "$program" run <line >printed
    ended=$(date +%s.%N)
    cut -d ' ' -f 2- printed | grep -qx "$2" || { tail -3 printed >&2; exit 1; }
    awk -v a="$begun" -v b="$ended" 'BEGIN { printf "%.4f", b - a }'
}

for count in 15 30 60 120; do
    rm -f device.journal
    drafts "$count" >lines
    "$program" run <lines >printed || { tail -3 printed; exit 1; }
    mv device.journal drafts.journal
    opened=$(seconds 'show settings' 'settings mode manual autosend off') || exit 1
    finalized=$(seconds finalizeall 'finalized 5 invalid 0 skipped 0') || exit 1
    awk -v n="$count" -v a="$opened" -v b="$finalized" \
        'BEGIN { printf "a document of about %d bytes: %.2f ms to finalize it\n", n * 1010, (b - a) * 200 }'
done
