#!/bin/sh
# Judges a trace of 300,000 rows, or of as many as are given, that has all 111 columns, and prints rows per second and
# peak memory. The trace is that of make_rows.py.
set -eu
rows=${1:-300000}
here=$(cd "$(dirname "$0")" && pwd)
folder=$(mktemp -d)
trap 'rm -rf "$folder"' EXIT
python3 "$here/make_rows.py" "$folder/image" "$folder/trace" "$rows" --all
"$here/../../bin/rvjudge" >/dev/null || true
python3 "$here/measure.py" --expect "agrees $rows" --rows "$rows" \
    "$here/../../bin/rvjudge" judge "$folder/image" "$folder/trace"
