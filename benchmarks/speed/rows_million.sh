#!/bin/sh
# Judges a trace of 1,000,000 rows, or of as many as are given, and prints rows per second and peak memory.
set -eu
rows=${1:-1000000}
here=$(cd "$(dirname "$0")" && pwd)
folder=$(mktemp -d)
trap 'rm -rf "$folder"' EXIT
python3 "$here/make_rows.py" "$folder/image" "$folder/trace" "$rows"
"$here/../../bin/rvjudge" >/dev/null || true
python3 "$here/measure.py" --expect "agrees $rows" --rows "$rows" \
    "$here/../../bin/rvjudge" judge "$folder/image" "$folder/trace"
