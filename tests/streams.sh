#!/bin/sh
# The built program with standard streams closed, each alone and together: its journal has the entries of the commands that
# were carried out, and not one byte else.
top=$(cd "$(dirname "$0")/.." && pwd)
program="$top/crates/collect_cli/out/collect_cli"
[ -x "$program" ] || { echo "skipped: $program isn't built"; exit 0; }
folder=$(mktemp -d) || exit 1
trap 'rm -rf "$folder"' EXIT
cd "$folder" || exit 1
failed=0
printf 'set autosend on\nset mode exact\n' >script

# run_closed NAME: the program with the streams closed that the name lists
run_closed() {
    case $1 in
    in) "$program" run <&- >printed 2>told ;;
    out) "$program" run <script >&- 2>told ;;
    error) "$program" run <script >printed 2>&- ;;
    in-out) "$program" run <&- >&- 2>told ;;
    in-error) "$program" run <&- >printed 2>&- ;;
    out-error) "$program" run <script >&- 2>&- ;;
    all) "$program" run <&- >&- 2>&- ;;
    esac
}

# without the standard input the script is empty
commands() { case $1 in in | in-out | in-error | all) echo 0 ;; *) echo 2 ;; esac; }

# the log of a journal with so many entries opened and ended by these runs
entries() { "$program" log | wc -l | tr -d ' '; }

for name in in out error in-out in-error out-error all; do
    for before in 0 3; do
        rm -f device.journal
        [ "$before" = 0 ] || "$program" run <script >/dev/null || failed=1
        old=$(cat device.journal 2>/dev/null | od -An -v -tx1 | tr -d ' \n')
        run_closed "$name"
        status=$?
        case $status in 0 | 5) ;; *) echo "$name over $before entries: status $status"; failed=1 ;; esac
        want=$((before + 2 + $(commands "$name")))
        got=$(entries)
        [ "$got" = "$want" ] || { echo "$name over $before entries: $got entries in place of $want"; failed=1; }
        # what stood before still stands, but for the gate behind it
        new=$(od -An -v -tx1 device.journal | tr -d ' \n')
        front=${old%??}
        case $new in "$front"*) ;; *) echo "$name over $before entries: the journal's front has changed"; failed=1 ;; esac
    done
done
exit "$failed"
