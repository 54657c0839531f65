#!/bin/sh
# Judges a trace of 1,000,000 rows of compiled code, or of as many as are given, with 16-bit and atomic
# instructions, and prints rows per second and peak memory. The trace is that of run_compiled.py.
set -eu
rows=${1:-1000000}
here=$(cd "$(dirname "$0")" && pwd)
folder=$(mktemp -d)
trap 'rm -rf "$folder"' EXIT
python3 "$here/../interpreter/run_compiled.py" "$here/../interpreter/compiled/loop.hex" "$folder/trace" "$rows"
"$here/../../bin/rvjudge" >/dev/null || true
python3 "$here/measure.py" --expect "agrees $rows" --rows "$rows" \
    "$here/../../bin/rvjudge" judge "$here/../interpreter/compiled/loop.hex" "$folder/trace"
