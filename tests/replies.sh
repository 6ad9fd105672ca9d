#!/bin/sh
# The replies of wire_cases by a second reading of the rules, in Python, which prints the same lines; and its requests by
# Python's own parsers, which find the documents again.
top=$(cd "$(dirname "$0")/.." && pwd)
cases="$top/crates/wire_cases"
command -v python3 >/dev/null || { echo "skipped: no python3"; exit 0; }
lines=$(mktemp) || exit 1
trap 'rm -f "$lines"' EXIT
export PYTHONDONTWRITEBYTECODE=1
python3 "$top/tests/replies/model.py" "$cases/data/replies" >"$lines" || exit 1
head -n "$(wc -l <"$lines")" "$cases/stdout" | cmp - "$lines" || exit 1
python3 "$top/tests/replies/posts.py" "$cases/data/posts"
