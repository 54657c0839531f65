#!/bin/sh
# Judges the trace of the program in machine/, which goes through what M, S and U can do with all columns of a trace,
# and prints rows per second and peak memory: machine.sh [PROGRAM]. The program is bin/rvjudge, or the one given.
set -eu
here=$(cd "$(dirname "$0")" && pwd)
program=${1:-$here/../../bin/rvjudge}
folder=$(mktemp -d)
trap 'rm -rf "$folder"' EXIT
rows=$(sh "$here/machine/make.sh" "$folder")
"$program" >/dev/null || true
python3 "$here/../speed/measure.py" --expect "agrees $rows" --rows "$rows" \
    "$program" judge "$folder/image" "$folder/trace" --io 0x10000000:0x1000
