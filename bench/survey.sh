#!/bin/sh
# How many durable commands a second a survey of 50 questions takes, beside as many inserts by sqlite3 with full synchronisation
# on the same folder, where it is installed. Usage: bench/survey.sh [FOLDER]. It isn't part of the gate.
top=$(cd "$(dirname "$0")/.." && pwd)
program="$top/crates/collect_cli/out/collect_cli"
[ -x "$program" ] || { echo "$program isn't built"; exit 1; }
folder=$(mktemp -d -p "${1:-/tmp}") || exit 1
trap 'rm -rf "$folder"' EXIT
cd "$folder" || exit 1
awk 'BEGIN {
    printf "load \"<h:html xmlns=\047http://www.w3.org/2002/xforms\047 xmlns:h=\047http://www.w3.org/1999/xhtml\047><h:head><model><instance><data id=\047fifty\047 version=\0471\047>"
    for (i = 1; i <= 50; i++) printf "<q%d/>", i
    printf "</data></instance></model></h:head><h:body>"
    for (i = 1; i <= 50; i++) printf "<input ref=\047/data/q%d\047/>", i
    printf "</h:body></h:html>\"\nstart fifty\n"
    for (i = 1; i <= 50; i++) printf "answer /data/q%d \"answer %d\"\n", i, i
    print "save"
}' >script
begun=$(date +%s.%N)
"$program" run <script >printed || { tail -3 printed; exit 1; }
ended=$(date +%s.%N)
[ "$(wc -l <printed)" -eq 53 ] || { tail -3 printed; exit 1; }
awk -v a="$begun" -v b="$ended" 'BEGIN { printf "a survey of 50 questions: %.3f seconds, %.0f durable commands a second\n", b - a, 53 / (b - a) }'
command -v sqlite3 >/dev/null 2>&1 || { echo "sqlite3 isn't installed, so nothing is beside it"; exit 0; }
{
    echo 'pragma journal_mode=delete; pragma synchronous=full; create table answers (path text, value text);'
    awk 'BEGIN { for (i = 1; i <= 53; i++) printf "insert into answers values (\047/data/q%d\047, \047answer %d\047);\n", i, i }'
} >inserts
begun=$(date +%s.%N)
sqlite3 answers.db <inserts >/dev/null || exit 1
ended=$(date +%s.%N)
awk -v a="$begun" -v b="$ended" 'BEGIN { printf "as many inserts by sqlite3: %.3f seconds, %.0f a second\n", b - a, 53 / (b - a) }'
