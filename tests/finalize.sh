#!/bin/sh
# A survey that is finalized and edited over real files: the example's answers, the same document in the next run, and a
# document that is as long as one may be.
top=$(cd "$(dirname "$0")/.." && pwd)
program="$top/crates/collect_cli/out/collect_cli"
[ -x "$program" ] || { echo "skipped: $program isn't built"; exit 0; }
folder=$(mktemp -d) || exit 1
trap 'rm -rf "$folder"' EXIT
cd "$folder" || exit 1

cat >want <<'END'
2 ok
3 ok
4 ok
4 refused 16 required /data/kind
5 ok
6 finalized 1
6 doc "<?xml version=\"1.0\" encoding=\"UTF-8\"?><data xmlns:orx=\"http://openrosa.org/xforms\" xmlns:entities=\"http://www.opendatakit.org/xforms/entities\" id=\"trees\" version=\"1\"><kind>oak</kind><age>120</age><orx:meta><orx:instanceID>uuid:00000000-0001-8000-8000-000000000001</orx:instanceID><orx:instanceName>oak of 120</orx:instanceName><entities:entity dataset=\"trees\" id=\"00000000-0001-8000-8000-000000000002\" create=\"1\"><entities:label>oak</entities:label></entities:entity></orx:meta></data>"
6 list trees 1
entity 00000000-0001-8000-8000-000000000002 oak 1 - 00000000-0001-8000-8000-000000000003 offline kind oak age 120
7 ok
8 ok
9 finalized 2
9 doc "<?xml version=\"1.0\" encoding=\"UTF-8\"?><data xmlns:orx=\"http://openrosa.org/xforms\" xmlns:entities=\"http://www.opendatakit.org/xforms/entities\" id=\"trees\" version=\"1\"><kind>oak</kind><age>121</age><orx:meta><orx:instanceID>uuid:00000000-0001-8000-8000-000000000004</orx:instanceID><orx:deprecatedID>uuid:00000000-0001-8000-8000-000000000001</orx:deprecatedID><orx:instanceName>oak of 121</orx:instanceName><entities:entity dataset=\"trees\" id=\"00000000-0001-8000-8000-000000000002\" create=\"1\"><entities:label>oak</entities:label></entities:entity></orx:meta></data>"
9 instances 2
instance 1 finalized trees 1 uuid:00000000-0001-8000-8000-000000000001
instance 2 finalized trees 1 uuid:00000000-0001-8000-8000-000000000004
9 list trees 1
entity 00000000-0001-8000-8000-000000000002 oak 1 - 00000000-0001-8000-8000-000000000003 offline kind oak age 120
9 bye
END
"$program" run <"$top/examples/finalize.script" >got || { echo "the example: status $?"; cat got; exit 1; }
cmp -s got want || { echo "the example printed:"; cat got; exit 1; }

# the documents are the same in the next run, but for the position before them
echo 'show doc 1' | "$program" run >got
sed -n 's/^6 doc/10 doc/p' want >again
cmp -s got again || { echo "the document was found as:"; cat got; exit 1; }
"$program" check </dev/null >got
[ "$(cat got)" = '11 counts forms 1 instances 2 queued 2 sent 0 lists 1' ] || { echo "check printed:"; cat got; exit 1; }
rm -f device.journal

# a form whose document has 131,072 bytes with this answer, and one more with one more letter
{
    printf 'load "'
    sed 's/"/\\"/g' "$top/crates/script_cases/data/long.xml" | tr '\n' ' '
    printf '"\nstart long\nanswer /data/a &&&&&&&&\n'
    printf 'answer /data/rest abcdefghijklmnopqrstuvwx\nfinalize\nanswer /data/rest abcdefghijklmnopqrstuvw\nfinalize\nshow doc 1\n'
} >script
"$program" run <script >got || { echo "a long document: status $?"; head -c 2000 got; exit 1; }
printf '2 ok\n3 ok\n4 ok\n5 ok\n5 refused 16 too-long\n6 ok\n7 finalized 1\n' >want
sed '$d' got | cmp -s - want || { echo "a long document:"; head -c 2000 got; exit 1; }
length=$(sed -n 's/^7 doc "\(.*\)"$/\1/p' got | sed 's/\\"/"/g' | tr -d '\n' | wc -c | tr -d ' ')
[ "$length" = 131072 ] || { echo "the longest document has $length bytes"; exit 1; }
