#!/bin/sh
# Sends over real sockets: with nobody listening, to a server in python3 that keeps what it gets, and to one that refuses,
# closes early, or ends in the middle of a reply.
top=$(cd "$(dirname "$0")/.." && pwd)
program="$top/crates/collect_cli/out/collect_cli"
[ -x "$program" ] || { echo "skipped: $program isn't built"; exit 0; }
command -v python3 >/dev/null 2>&1 || { echo "skipped: no python3"; exit 0; }
folder=$(mktemp -d) || exit 1
server=
trap '[ -z "$server" ] || kill "$server" 2>/dev/null; rm -rf "$folder"' EXIT
cd "$folder" || exit 1

fail() {
    echo "$1"
    [ ! -f got ] || cat got
    exit 1
}

# runs the script of the first argument, which must print the second
sends() {
    printf '%b' "$1" | "$program" run >got || fail "the status is $?"
    printf '%b' "$2" >want
    cmp -s got want || fail "wanted: $2"
}

# two surveys with nobody listening: both stay in the queue
form=$(sed -n 's/^load /load /p' "$top/examples/finalize.script")
printf '%s\n' "$form" >survey
printf 'start trees\nanswer /data/kind oak\nanswer /data/age 12\nfinalize\n' >>survey
printf 'start trees\nanswer /data/kind fir\nanswer /data/age 7\nfinalize\nsend\nshow instances\nquit\n' >>survey
if python3 -c 'import socket; socket.create_connection(("localhost", 8080), 1)' 2>/dev/null; then
    echo "skipped: something listens at port 8080"
    exit 0
fi
"$program" run <survey >got || fail "the survey: status $?"
tail -4 got | head -3 >ended
first=uuid:00000000-0001-8000-8000-000000000001
second=uuid:00000000-0001-8000-8000-000000000004
printf '16 instances 2\ninstance 1 failed trees 1 %s\ninstance 2 failed trees 1 %s\n' "$first" "$second" >want
cmp -s ended want || fail "the survey printed"
grep -q '^16 sent 0 failed 2$' got || fail "the round printed"

# the server, which refuses in several ways
echo error >mode
python3 "$top/tests/server.py" "$folder" &
server=$!
for try in 1 2 3 4 5 6 7 8 9 10; do
    [ -e ready ] && break
    kill -0 "$server" 2>/dev/null || { server=; echo "skipped: port 8080"; exit 0; }
    sleep 0.5
done
sends 'send\nquit\n' '23 sent 0 failed 2\n23 bye\n'
echo close >mode
sends 'send\nquit\n' '30 sent 0 failed 2\n30 bye\n'
echo half >mode
sends 'send\nquit\n' '37 sent 0 failed 2\n37 bye\n'

# a server that keeps them, and a second run that has nothing to send
echo keep >mode
sends 'send\nsend\nquit\n' '44 sent 2 failed 0\n46 sent 0 failed 0\n46 bye\n'
sends 'send\nquit\n' '49 sent 0 failed 0\n49 bye\n'
[ "$(grep -c 'POST /submission 1.0 1' seen)" = 8 ] || { cat seen; fail "the server has seen"; }
[ -e kept.2 ] && [ ! -e kept.3 ] || fail "the server has kept: $(ls)"
for number in 1 2; do
    echo "show doc $number" | "$program" run >shown
    sed 's/^[0-9]* doc "\(.*\)"$/\1/; s/\\"/"/g' shown | tr -d '\n' | cmp -s - "kept.$number" || fail "document $number"
done

# one whose reply has the head of an acceptance, and half of its body: the status counts
echo late >mode
printf 'start trees\nanswer /data/kind oak\nanswer /data/age 3\nfinalize\nsend\nquit\n' | "$program" run >got || fail "late"
grep -q 'sent 1 failed 0$' got || fail "a reply without its end"
