#!/bin/sh
# Judges a loop that stores 8 bytes at each multiple of STRIDE bytes in an area of MIB, PASSES times, and
# prints rows per second and peak memory: store_loop.sh [MIB [STRIDE [PASSES [WORKERS]]]].
set -eu
area=$((${1:-64} * 1048576))
stride=${2:-64}
passes=${3:-1}
workers=${4:-4}
here=$(cd "$(dirname "$0")" && pwd)
folder=$(mktemp -d)
trap 'rm -rf "$folder"' EXIT
rows=$(python3 "$here/make_stores.py" "$folder/image" "$folder/trace" "$area" "$stride" "$passes")
"$here/../../bin/rvjudge" >/dev/null || true
python3 "$here/measure.py" --expect "agrees $rows" --rows "$rows" \
    "$here/../../bin/rvjudge" judge "$folder/image" "$folder/trace" --workers "$workers"
