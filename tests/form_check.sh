#!/bin/sh
# What form_check says of documents that are no form: the name of the refusal, and its place in bytes and as line and column.
top=$(cd "$(dirname "$0")/.." && pwd)
program="$top/crates/form_check/out/form_check"
[ -x "$program" ] || { echo "skipped: $program isn't built"; exit 0; }
failed=0

# refused DOCUMENT LINE: the document, as printf takes it, and the line that is printed
refused() {
    got=$(printf "$1" | "$program")
    status=$?
    [ "$status" = 1 ] && [ "$got" = "refused $2" ] || { echo "status $status, printed: $got, wanted: refused $2"; failed=1; }
}

# with FIELDS MODEL BODY: a form of these parts
with() { printf '%s' "<h><head><model><instance><d id='f'>$1</d></instance>$2</model></head><body>$3</body></h>"; }

refused '' 'unclosed at 0 line 1 column 1'
refused '<h>' 'unclosed at 3 line 1 column 4'
refused '<h>\n<b></c></h>' 'bad-markup at 7 line 2 column 4'
refused '<h>\303\251\377</h>' 'not-utf8 at 5 line 1 column 5'
refused '\n<!DOCTYPE h>' 'has-doctype at 1 line 2 column 1'
refused '<h/>' 'no-primary'
refused '<h><head><model><instance><d/></instance></model></head><body/></h>' 'no-id'
refused "$(with '<a/>' '<bind nodeset="/d/a" constraint=". &gt;"/>' '')" 'bad-expression /d/a at 3'
refused "$(with '<a/><a/>' '' '')" 'unknown-path /d/a'
refused "$(with '<a/>' '' '<input ref="/d/b c"/>')" 'unknown-path "/d/b c"'
refused "$(with '<a/>' '' '<range ref="/d/a"/>')" 'unknown-control range'
refused "$(with '<a/>' '<bind nodeset="/d/a" type="date"/>' '<input ref="/d/a"/>')" 'unknown-type /d/a'
refused "$(with '<a/>' '<bind nodeset="/d/a" calculate="/d/a"/>' '')" 'cycle /d/a'
refused "$(with '<a/>' '<instance id="t" src="t.csv"/>' '')" 'unknown-list t'
refused "$(with '<a/><meta><entity/></meta>' '' '')" 'bad-entity /d/meta/entity'
fields=$(awk 'BEGIN { for (i = 0; i < 501; i++) printf "<a%d/>", i }')
refused "$(with "$fields" '' '')" 'too-many-fields 501'
awk 'BEGIN { for (i = 0; i < 262145; i++) printf " " }' | "$program" | grep -qx 'refused too-long 262145' ||
    { echo "a document past its limit"; failed=1; }
exit "$failed"
